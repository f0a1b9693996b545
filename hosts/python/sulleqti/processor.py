"""A processor: the program `csl_serve` at work (docs/HOSTS.md)."""
from __future__ import annotations

import collections
import dataclasses
import hashlib
import itertools
import json
import os
import shutil
import subprocess
import threading
from typing import Any, Deque, Dict, Iterable, List, Sequence, Tuple, Union

from sulleqti.attributes import Tree
from sulleqti.citations import Citation
from sulleqti.document import Refused
from sulleqti.locales import locale_of
from sulleqti.styles import Style
from sulleqti.works import Work, works_of

# The program of a release, in this package, and what is said of a program in a file beside it.
RELEASED, FACTS = os.path.join(os.path.dirname(os.path.abspath(__file__)), "csl_serve"), ".json"
# The most lines of its standard error that are told, and the most works of a request.
MOST_LINES, MOST_WORKS = 20, 1_000
FORMATS = ["plain", "html", "tree"]


class ServerEnded(Exception):
    """`csl_serve` has ended, or was ended because it did not answer in time. Nothing starts it
    again."""


@dataclasses.dataclass(frozen=True)
class Content:
    """What is rendered: as plain text, as HTML, and as the tree of docs/WIRE.md."""

    text: str
    html: str
    tree: List[Tree]


class Processor:
    """A `csl_serve`: the program or command that is given, or that of the variable SULLEQTI_SERVE,
    or the one in this package, if it is of a release, or the one on PATH. A request may take
    `timeout` seconds. Threads may share it: it has one request on its way at a time."""

    def __init__(self, program: Union[str, Sequence[str], None] = None,
                 timeout: float = 60.0) -> None:
        found = program or os.environ.get("SULLEQTI_SERVE") or shutil.which(RELEASED)
        found = found or shutil.which("csl_serve")
        if not found:
            raise FileNotFoundError("there is no csl_serve on PATH, and SULLEQTI_SERVE names none")
        self.program = found if isinstance(found, str) else found[0]
        self.timeout, self.is_late, self.names = timeout, False, itertools.count(1)
        self.lock, self.said = threading.Lock(), collections.deque(maxlen=MOST_LINES)
        self.process = subprocess.Popen([found] if isinstance(found, str) else list(found),
                                        stdin=subprocess.PIPE, stdout=subprocess.PIPE,
                                        stderr=subprocess.PIPE)
        self.drain = threading.Thread(target=self.read_faults, args=(self.said,), daemon=True)
        self.drain.start()

    def __enter__(self) -> Processor:
        return self

    def __exit__(self, *_: object) -> None:
        self.close()

    def read_faults(self, said: Deque[bytes]) -> None:
        """Keeps the last lines of standard error."""
        said.extend(self.process.stderr)

    def close(self) -> None:
        """Ends the program."""
        self.process.kill()
        self.process.wait()
        self.drain.join()
        for stream in (self.process.stdin, self.process.stdout, self.process.stderr):
            # (what is still on its way to it is lost)
            try:
                stream.close()
            except OSError:
                pass

    def end_late(self) -> None:
        """Ends the program, which has not answered in time."""
        self.is_late = True
        self.process.kill()

    def answer(self, line: bytes) -> bytes:
        """The line that answers a line, or less if there is none."""
        timer = threading.Timer(self.timeout, self.end_late)
        timer.start()
        try:
            self.process.stdin.write(line)
            self.process.stdin.flush()
            return self.process.stdout.readline()
        except (OSError, ValueError):
            return b""
        except BaseException:
            # (or the next request would get the answer to this one)
            self.process.kill()
            raise
        finally:
            timer.cancel()

    def ask(self, op: str, **members: Any) -> Any:
        """The answer to a request (docs/HOSTS.md). It raises `Refused` with the place in the
        request if that is refused."""
        line = json.dumps({"op": op, **members}).encode() + b"\n"
        with self.lock:
            answer = self.answer(line)
            if not answer.endswith(b"\n"):
                self.close()
                status, told = self.process.returncode, b"".join(self.said).decode(errors="replace")
                raise ServerEnded(f"csl_serve did not answer in {self.timeout:g} seconds"
                                  if self.is_late else f"csl_serve ended with {status}: {told}")
        return answer_of(json.loads(answer))

    def hello(self) -> Tree:
        """What the program tells of itself (docs/HOSTS.md). Of a release that has the `commit` and
        the `kit` that proved the program, which a file beside it says, and its sum."""
        try:
            with open(self.program, "rb") as file:
                sum = hashlib.sha256(file.read()).hexdigest()
            with open(self.program + FACTS, encoding="utf-8") as file:
                facts = json.load(file)
        except OSError:
            return self.ask("hello")
        # (of another program the file says nothing)
        return {**self.ask("hello"), **(facts if facts["sha256"] == sum else {})}

    def style(self, path: str, locale: str | None = None) -> ProcessorStyle:
        """The style of a file, in a language as `en-GB`, or that of a locale file, or its own. It
        raises `Refused` with the place in the file if that is no style that the library takes."""
        source, name = Style(path, [locale_of(locale)] if locale else []), f"{next(self.names)}"
        try:
            self.ask("style", name=name, **source.tree)
        except RefusedRequest as why:
            raise Refused(f"{source.place(why.at)}: {why.message}") from None
        return ProcessorStyle(self, name, source)


class RefusedRequest(Refused):
    """A request or an item of one is refused, at a JSON Pointer into the request."""

    def __init__(self, error: Tree) -> None:
        super().__init__(f"{error['at']}: {error['message']}")
        self.at, self.message, self.code = error["at"], error["message"], error["code"]


def answer_of(reply: Tree) -> Any:
    """The answer of a reply. A refusal is raised."""
    if "error" in reply:
        raise RefusedRequest(reply["error"])
    return reply["ok"]


class ProcessorStyle:
    """A style of a processor. `source` is what was read of its file; `source.left` counts what is
    left out of it."""

    def __init__(self, processor: Processor, name: str, source: Style) -> None:
        self.processor, self.name, self.source = processor, name, source

    def works(self, items: Union[str, Sequence[Any]]) -> Works:
        """The works of a file of CSL-JSON, or of a list of its items."""
        return Works(self, items)

    def document(self, items: Union[str, Sequence[Any]]) -> Document:
        """A document that may cite these works, which are as those of `works`."""
        return Document(self.works(items))

    def drop(self) -> None:
        """Forgets the style: its name is unknown to the program from now on."""
        self.processor.ask("drop", styles=[self.name])


class Works:
    """Works in a style, by their `id`, as `ids` has them. What is left out of them is in
    `warnings`, a line each with its place, and in `left`, which counts it."""

    def __init__(self, style: ProcessorStyle, items: Union[str, Sequence[Any]]) -> None:
        self.style, self.left = style, collections.Counter()
        self.prefix = f"{next(style.processor.names)}:"
        works, self.warnings = works_of(items, self.left)
        self.ids: Dict[str, Work] = {}
        for start in range(0, len(works), MOST_WORKS):
            self.send(works[start:start + MOST_WORKS])

    def send(self, works: List[Work]) -> None:
        """Keeps works. One that is refused is told and left out. A work without a language is in
        that of the style."""
        is_english = self.style.source.language.lower().startswith("en")
        sent = [{"name": self.prefix + item.id, "work": {"english": is_english, **item.tree}}
                for item in works]
        for work, reply in zip(works, self.style.processor.ask("works", works=sent)):
            try:
                answer_of(reply)
                self.ids[work.id] = work
            except RefusedRequest as why:
                self.warnings.append(f"{work.place}: {work.id}: {why.message}")

    def asked(self, op: str, list_name: str, id: str, members: Tree, **more: Any) -> Any:
        """The answer about one of the works."""
        item = {"work": f"{self.prefix}{id}", **members}
        answers = self.style.processor.ask(op, style=self.style.name, **{list_name: [item]}, **more)
        return answer_of(answers[0])

    def drop(self) -> None:
        """Forgets the works."""
        self.style.processor.ask("drop", works=[self.prefix + name for name in self.ids])

    def cite(self, id: str, locator: Tuple[str, str] | None = None, **cite: Any) -> Content:
        """The cite of a work, alone, without the texts around it. What `cite` has is as in
        docs/WIRE.md, as `position="ibid"` or `year_suffix="a"`."""
        found = {name.replace("_", "-"): value for name, value in cite.items()}
        if locator:
            found["locator"] = dict(zip(("label", "value"), locator))
        return content(self.asked("cite", "cites", id, {"cite": found}, formats=FORMATS))

    def line(self, id: str) -> Content | None:
        """The line of a work in the bibliography, or `None` if the style has none."""
        found = self.asked("line", "lines", id, {}, formats=FORMATS)
        return content(found) if found else None

    def sort_key(self, id: str, **source: str) -> str:
        """The key that works are sorted by: of `macro` or `variable`."""
        return self.asked("sort-key", "keys", id, source)


class Document:
    """A document, whose citations are added in their order. `works` are the works that it may cite,
    and `warnings` tells what is left out of them."""

    def __init__(self, works: Works) -> None:
        self.works, self.warnings, self.left = works, works.warnings, works.left
        self.citations: List[Tree] = []

    def cite(self, id: str, locator: Tuple[str, str] | None = None, note: int | None = None,
             **more: Any) -> int:
        """Adds a citation of one work, and returns its place among the citations. The other words
        are those of `citation`."""
        return self.citation([{"id": id, "locator": locator, **more}], note)

    def citation(self, cites: Sequence[Tree], note: int | None = None) -> int:
        """Adds a citation, in a note of this number if there is one, and returns its place among
        the citations. A cite has an `id`, and may have a `locator`, as `("page", "7")`, and a
        `prefix`, a `suffix`, a `purpose` and `hidden`, as in docs/WIRE.md."""
        items = []
        for cite in cites:
            id = str(cite["id"])
            if id not in self.works.ids:
                raise Refused(f"no work has the `id` {id}")
            item = {name: part for name, part in cite.items() if name != "id" and part is not None}
            if "locator" in item:
                item["locator"] = dict(zip(("label", "value"), item["locator"]))
            items.append({"work": self.works.prefix + id, **item})
        self.citations.append({"items": items, **({"note-number": note} if note else {})})
        return len(self.citations) - 1

    def cite_all(self, citations: Iterable[Citation]) -> None:
        """Adds citations, as `citations_of` reads them. In a note style one without the number of a
        note has that of its place among all citations, from 1 on."""
        is_note = self.works.style.source.tree.get("class") == "note"
        for given in citations:
            self.citation(given.cites, given.note or (len(self.citations) + 1 if is_note else None))

    def render(self, uncited: Iterable[str] = ()) -> RenderedDocument:
        """The citations, and the bibliography, which has the works that are cited, and these."""
        style, prefix = self.works.style, self.works.prefix
        found = style.processor.ask("document", style=style.name, citations=self.citations,
                                    works=[f"{prefix}{name}" for name in uncited], formats=FORMATS)
        listed = found["bibliography"] or {"items": []}
        entries = [Entry(**vars(content(item["content"])), id=item["work"][len(prefix):],
                         first_field=item.get("first-field") and content(item["first-field"]))
                   for item in listed.pop("items")]
        return RenderedDocument([content(item) for item in found["citations"]], entries, listed)


@dataclasses.dataclass(frozen=True)
class Entry(Content):
    """A work of a bibliography, by its `id`, and the first field of it, if the style sets that
    apart."""

    id: str
    first_field: Content | None


@dataclasses.dataclass(frozen=True)
class RenderedDocument:
    """The citations of a document, its bibliography in order, and how that looks
    (`hanging-indent`, `second-field-align`, `line-spacing` and `entry-spacing`)."""

    citations: List[Content]
    bibliography: List[Entry]
    looks: Tree

    def __getitem__(self, place: int) -> Content:
        """A citation, by its place."""
        return self.citations[place]


def content(found: Tree) -> Content:
    """A content."""
    return Content(found["plain"], found["html"], found["tree"])
