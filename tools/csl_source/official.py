"""CSL's official tests of documents: their files, and what is seen of the HTML in them."""
import html.parser
import json
import os
import re
from typing import Any, NamedTuple

from kit import read

# The sections of a file.
SECTION = re.compile(r"^\ufeff?>>=+ ([A-Z-]+) =+>+\n(.*?)\n?^<<=+ \1 =+<<", re.M | re.S)
# What citeproc-js writes for a cite or a line that prints nothing.
NOTHING = "[CSL STYLE ERROR: reference with no printed form.]"
# The looks of elements, those that are none, and the boxes of both writers of HTML.
LOOKS = {"i": ("font-style", "italic"), "b": ("font-weight", "bold"),
         "sup": ("vertical-align", "super"), "sub": ("vertical-align", "sub")}
NO_LOOK = ("normal", "none", "baseline")
BOXES = {"csl-left-margin": "left", "csl-right-inline": "right", "csl-indent": "indent",
         "float: left;": "left", "float: right; clear: both;": "right",
         "padding-left: 4em;": "indent"}


class Seen(html.parser.HTMLParser):
    """What is seen of HTML: its letters, with each change of their look in braces, and each box in
    brackets."""

    def __init__(self, text: str) -> None:
        super().__init__()
        self.found, self.look = "", {}
        self.within: list[tuple[str, dict[str, str]]] = [("", {})]
        self.feed(text)
        self.close()
        text = re.sub("[ \t\n]+", " ", self.found.replace("\N{RIGHT SINGLE QUOTATION MARK}", "'"))
        self.text = re.sub(r" ?(\[(?:left|right|indent|block)\]) ?", r"\1", text).strip(" ")

    def handle_starttag(self, tag: str, attrs: list[tuple[str, str | None]]) -> None:
        """Notes the look, or the box."""
        given, look = dict(attrs), dict(self.within[-1][1])
        style = given.get("style") or ""
        if tag == "div":
            self.found += f"[{BOXES.get(given.get('class') or style, 'block')}]"
        else:
            look.update([LOOKS[tag]] if tag in LOOKS else [])
            look.update(re.findall(r"([\w-]+): *([\w-]+)", style))
        self.within.append((tag, look))

    def handle_endtag(self, tag: str) -> None:
        """Forgets the look of the element, and of what is open in it."""
        while len(self.within) > 1 and self.within.pop()[0] != tag:
            pass

    def handle_data(self, data: str) -> None:
        """Adds the letters. Of white space the look is not seen."""
        look = {name: value for name, value in self.within[-1][1].items() if value not in NO_LOOK}
        letters = data.lstrip()
        if look != self.look and letters:
            self.look = look
            data = f"{data[:-len(letters)]}{{{', '.join(sorted(look.values()))}}}{letters}"
        self.found += data


class Test(NamedTuple):
    """A test: its name, what it asks for, and what is seen of what it prints. Its citations have
    the numbers of notes, or none has."""
    name: str
    style: str
    works: list[dict[str, Any]]
    citations: list[tuple[list[dict[str, Any]], int | None]]
    is_list: bool
    wanted: list[str]


def document(sections: dict[str, str], works: list[dict[str, Any]]) -> list[tuple[Any, int | None]]:
    """The citations of a test, in the order of the document. Without any, all works are cited."""
    if "CITATIONS" not in sections:
        alone = [{"id": name} for name in dict.fromkeys(work.get("id") for work in works)]
        return [(items, None)
                for items in json.loads(sections.get("CITATION-ITEMS", "0")) or [alone]]
    # (each is put between those that are there already; the last has all around it)
    steps = json.loads(sections["CITATIONS"])
    cites = {citation["citationID"]: citation["citationItems"] for citation, _, _ in steps}
    last, before, after = steps[-1]
    note = last.get("properties", {}).get("noteIndex", 0)
    return [(cites[name], number) for name, number in [*before, (last["citationID"], note), *after]]


def lines_of(result: str, is_list: bool, count: int) -> list[str]:
    """The lines of a bibliography, or so many citations."""
    if is_list:
        # (after the last one the element around all ends too)
        lines = result[:result.rindex("</div>")].split('<div class="csl-entry">')[1:]
        return [re.sub(r"</div>\s*$", "", line) for line in lines]
    # (one citation may be several lines)
    lines = [result] if count == 1 else result.strip("\n").split("\n")
    return [re.sub(r"^[>.]+\[\d+\] ?", "", line) for line in lines]


def test_of(path: str) -> Test:
    """The test of a file. Works that the citations of a document do not cite are not in it."""
    sections = dict(SECTION.findall(read(path)))
    works, is_list = json.loads(sections["INPUT"]), sections["MODE"].strip() == "bibliography"
    cites = document(sections, works)
    if "CITATIONS" in sections:
        ids = {cite["id"] for items, _ in cites for cite in items}
        works = [work for work in works if work["id"] in ids]
    lines = lines_of(sections["RESULT"].replace(NOTHING, ""), is_list, len(cites))
    name = os.path.basename(path).removesuffix(".txt")
    wanted = [Seen(line).text for line in lines]
    return Test(name, sections["CSL"].strip(), works, cites, is_list, wanted)
