"""A CSL file as a tree whose nodes know their lines."""
from __future__ import annotations

import re
from typing import Iterator, NoReturn, cast
from xml.etree.ElementTree import Element
from xml.parsers import expat

CS = "{http://purl.org/net/xbiblio/csl}"
LANGUAGE = "{http://www.w3.org/XML/1998/namespace}lang"
# The most levels of a file, its most bytes, and the most bytes of a text in it. Published styles
# have 20 levels, 70,453 bytes, and texts of 74 bytes.
DEEPEST, MOST_BYTES, MOST_OF_TEXT = 100, 71_000, 200
LARGE = "more than 71 KB: published files have less"
# The characters that the library keeps for its marks of text cases. None stays in a text.
RESERVED = re.compile("[\ufdd0-\ufdef]")
# The elements of which the text prints.
TERMS = ("term", "single", "multiple")


class Refused(Exception):
    """Why a file is refused, with its place."""


class Node(Element):
    """An element with its place: a path and a line."""

    place = ""

    @property
    def name(self) -> str:
        """The name without CSL's namespace. A name of another namespace is whole."""
        return self.tag.removeprefix(CS)

    def __iter__(self) -> Iterator["Node"]:
        """The elements right inside."""
        return (cast(Node, self[place]) for place in range(len(self)))

    def below(self, *path: str) -> list["Node"]:
        """The elements of CSL at the end of a path of names."""
        return cast("list[Node]", self.findall("/".join(CS + name for name in path)))

    def first(self, *path: str) -> "Node | None":
        """The first element of CSL at the end of a path of names."""
        return next(iter(self.below(*path)), None)

    def refuse(self, why: str) -> NoReturn:
        """Refuses the file, for a reason in this element."""
        raise Refused(f"{self.place}: {why}")


class Reader:
    """Builds the tree. A document type is refused, so the only entities are those of XML itself."""

    def __init__(self, path: str) -> None:
        self.path = path
        self.root: Node | None = None
        self.open: list[Node] = []
        self.texts: list[str] = []
        self.parser = expat.ParserCreate(namespace_separator="}")
        self.parser.buffer_text = True
        self.parser.StartElementHandler = self.start
        self.parser.EndElementHandler = self.end
        # (in pieces, where it is long)
        self.parser.CharacterDataHandler = self.texts.append
        self.parser.StartDoctypeDeclHandler = self.refuse_document_type
        self.parser.StartNamespaceDeclHandler = self.refuse_long_namespace

    def refuse_document_type(self, *_: object) -> None:
        """Refuses the file at a document type."""
        raise Refused(f"{self.place()}: a document type is not allowed")

    def place(self) -> str:
        """Where the reader is: the path and the line."""
        return f"{self.path}:{self.parser.CurrentLineNumber}"

    def refuse_long(self, place: str, name: str, text: str) -> None:
        """Refuses a text at this place that is too long."""
        if len(text.encode()) > MOST_OF_TEXT:
            raise Refused(f"{place}: `{name}` has more than {MOST_OF_TEXT} bytes")

    def refuse_long_namespace(self, _: str | None, text: str) -> None:
        """Refuses a namespace that is too long: each name of an element holds it."""
        self.refuse_long(self.place(), "xmlns", text or "")

    def refuse_long_attributes(self, node: Node) -> None:
        """Refuses an attribute that is too long. A list of kinds may be longer, and so may what
        says where the style comes from."""
        if self.open[1:] and self.open[1].name == "info":
            return
        for name, text in node.attrib.items():
            if name != "type":
                self.refuse_long(node.place, name, text)

    def start(self, name: str, attributes: dict[str, str]) -> None:
        """Begins an element, inside of the open one."""
        def whole(name: str) -> str:
            """A name with its namespace in braces."""
            return "{" + name if "}" in name else name

        node = Node(whole(name), {whole(key): RESERVED.sub("", value)
                                  for key, value in attributes.items()})
        node.place = self.place()
        if len(self.open) == DEEPEST:
            node.refuse(f"the elements are nested more than {DEEPEST} levels deep")
        self.refuse_long_attributes(node)
        self.end_text()
        if self.open:
            self.open[-1].append(node)
        else:
            self.root = node
        self.open.append(node)

    def end(self, _: str) -> None:
        """Ends the open element."""
        self.end_text()
        self.open.pop()

    def end_text(self) -> None:
        """Puts the text that ends here where it belongs: into the open element, or after the last
        one inside of it."""
        if self.texts:
            node, text = self.open[-1], RESERVED.sub("", "".join(self.texts))
            self.texts.clear()
            if len(node):
                node[-1].tail = text
            else:
                node.text = text
                if node.name in TERMS:
                    self.refuse_long(node.place, node.name, text)


def content_of(path: str, most: int, why: str) -> bytes:
    """The bytes of a file. `why` refuses one that has more than `most`."""
    try:
        with open(path, "rb") as file:
            content = file.read(most + 1)
    except OSError as error:
        raise Refused(f"{path}: {error.strerror}") from None
    if len(content) > most:
        raise Refused(f"{path}: {why}")
    return content


def document(path: str, name: str) -> Node:
    """The root of a CSL file, an element of this name."""
    content, reader = content_of(path, MOST_BYTES, LARGE), Reader(path)
    try:
        # (in one piece: expat begins a token again with each further piece)
        reader.parser.Parse(content, True)
    except expat.ExpatError as why:
        raise Refused(f"{path}:{why.lineno}: no XML: {expat.ErrorString(why.code)}") from None
    except (ValueError, LookupError) as why:
        raise Refused(f"{reader.place()}: no XML: {why}") from None
    root = reader.root
    assert root is not None, "expat takes no document without an element"
    if root.tag != CS + name:
        root.refuse(f"the root is `{root.name}`, not CSL's `{name}`")
    if not re.fullmatch(r"1\.0(\.\d+)?", root.get("version", "")):
        root.refuse(f"the version is `{root.get('version', '')}`, not 1.0")
    return root
