"""A document of the repository, read as Markdown is written here: a paragraph or an item of a list
on one line or more, tables with bars, fenced or indented code."""
import re
from typing import Iterator, NamedTuple

SPAN = re.compile(r"(?<!`)(`+)(?!`)(.+?)(?<!`)\1(?!`)")
LINK = re.compile(r"!?\[((?:[^\[\]]|\[[^\[\]]*\])*)\]\(([^()\s]+)\)")
HEADING = re.compile(r"(#+) +(.*)")
# What begins a paragraph of its own: an item of a list, or a quotation.
ITEM = re.compile(r"\A\s*(?:[-*>]|\d+\.) +")
# The end of a sentence: before white space and what begins another one.
END = re.compile(r"(?<=[.!?])[)*_”’\"]*\s+(?=[A-Z`*\[(“‘0-9])")


class Line(NamedTuple):
    """A line of a document: its number, and whether it is `text`, a `heading`, of a `table` or
    `code`."""

    number: int
    kind: str
    text: str


class Command(NamedTuple):
    """A quoted command: the line that it is on, its words, and the lines quoted of its output."""

    number: int
    words: str
    output: list[str]


class Quote(NamedTuple):
    """A fenced block of code: the last line before it, and its own."""

    before: str
    lines: list[Line]


class Document:
    """A document: its name, which is its path in the repository unless that is given, and its
    lines."""

    def __init__(self, name: str, text: str, place: str = "") -> None:
        self.name, self.text, self.place = name, text, place or name
        self.lines = list(lines_of(text))

    def spans(self) -> Iterator[tuple[int, str]]:
        """The texts in backquotes, each with the number of its line."""
        for line in self.lines:
            if line.kind != "code":
                yield from ((line.number, found[2].strip()) for found in SPAN.finditer(line.text))

    def links(self) -> Iterator[tuple[int, str]]:
        """The targets of links and pictures, each with the number of its line."""
        for line in self.lines:
            if line.kind != "code":
                text = SPAN.sub(lambda found: found[0] if "](" not in found[0] else "", line.text)
                yield from ((line.number, found[2]) for found in LINK.finditer(text))

    def headings(self) -> set[str]:
        """The names by which links find the headings."""
        return {anchor_of(line.text) for line in self.lines if line.kind == "heading"}

    def sentences(self) -> Iterator[tuple[int, str]]:
        """The sentences outside of tables and code, each with the number of its first line."""
        start, paragraph = 0, ""
        for line in [*self.lines, Line(0, "heading", "")]:
            ends = line.kind != "text" or not line.text.strip() or ITEM.match(line.text)
            if ends and paragraph:
                yield from ((start, text) for text in END.split(plain(paragraph)) if text.strip())
                paragraph = ""
            if line.kind == "text" and line.text.strip():
                start = start if paragraph else line.number
                paragraph += ITEM.sub("", line.text, count=1) + " "

    def blocks(self) -> Iterator[Quote]:
        """The fenced blocks of code."""
        before = ""
        block: list[Line] | None = None
        for line in self.lines:
            if line.kind == "code" and line.text.startswith("```"):
                if block is not None:
                    yield Quote(before, block)
                block = [] if block is None else None
            elif block is not None:
                block.append(line)
            elif line.text.strip():
                before = line.text

    def commands(self) -> list[Command]:
        """The commands that its blocks of code quote after `$ `, each with its output."""
        found: list[Command] = []
        for block in self.blocks():
            is_open = False
            for line in block.lines:
                if line.text.startswith("$ "):
                    found.append(Command(line.number, line.text[2:].strip(), []))
                    is_open = True
                elif is_open:
                    found[-1].output.append(line.text)
        return found

    def quotes(self) -> Iterator[Quote]:
        """The fenced blocks of code that quote no command."""
        yield from (block for block in self.blocks()
                    if not any(line.text.startswith("$ ") for line in block.lines))

    def rows(self) -> Iterator[tuple[int, list[str], list[str]]]:
        """The rows of its tables, each with the number of its line and the cells of the head."""
        head: list[str] = []
        for line in self.lines:
            if line.kind != "table":
                head = []
            elif not head:
                head = cells_of(line.text)
            elif not re.fullmatch(r"[-:| ]+", line.text.strip()):
                yield line.number, head, cells_of(line.text)


def lines_of(text: str) -> Iterator[Line]:
    """The lines of a document with their kinds. A fence counts as code."""
    is_fenced = False
    for number, line in enumerate(text.splitlines(), 1):
        if line.lstrip().startswith("```"):
            is_fenced = not is_fenced
            yield Line(number, "code", line.lstrip())
        elif is_fenced or line.startswith("    "):
            yield Line(number, "code", line)
        elif HEADING.match(line):
            yield Line(number, "heading", line)
        else:
            yield Line(number, "table" if line.lstrip().startswith("|") else "text", line)


def cells_of(line: str) -> list[str]:
    """The cells of a row."""
    return [cell.strip() for cell in re.split(r"(?<!\\)\|", line.strip().strip("|"))]


def plain(text: str) -> str:
    """A text as it is read: a link is its words, and what is in backquotes is one word."""
    text = SPAN.sub(lambda found: f"`{re.sub(r'[^A-Za-z0-9]+', '_', found[2])}`", text)
    return LINK.sub(r"\1", text).replace("**", "")


def anchor_of(heading: str) -> str:
    """The name by which a link finds a heading."""
    words = LINK.sub(r"\1", heading.lstrip("# ")).lower()
    return re.sub(r"[^\w\- ]", "", words).strip().replace(" ", "-")


def first_lacking(quoted: list[str], output: list[str]) -> int | None:
    """Which of some quoted lines is not there in an output, if one is not: they have to be its
    first lines, or after a line `..` any later ones, in their order."""
    at, may_skip = 0, False
    for number, line in enumerate(quoted):
        if line.strip() == "..":
            may_skip = True
            continue
        while may_skip and at < len(output) and output[at].rstrip() != line.rstrip():
            at += 1
        if at == len(output) or output[at].rstrip() != line.rstrip():
            return number
        at, may_skip = at + 1, False
    return None
