"""The sources of the library as data: the items of each file with their doc comments, signatures
and clauses, and the paths by which a caller imports them. It relies on how `rt fmt` writes a
file."""
import functools
import glob
import os
import re
from typing import Iterable, Iterator, NamedTuple

from kit import TOP, read, uses_of_crates

ITEM = re.compile(r"(pub(?:\([a-z]+\))? )?"
                  r'(?:final |unsafe |const (?=unsafe |extern |fn )|extern "C" )*'
                  r"(fn|struct|enum|trait|type|static|const|mod|use|impl|ghost use|ghost)\b *"
                  r"(\w*)")
FIELD = re.compile(r"(pub(?:\([a-z]+\))? )?(\w+): (.*),", re.S)
VARIANT = re.compile(r"([A-Z]\w*)(.*),", re.S)
CLAUSE = re.compile(r"^\s*(ensures|requires)\*?(?: (\w+))? (?=\{)", re.M)
ENDS_OF_HEAD = re.compile(r"\n\s*(?:requires|ensures|ghost|where)\b|\{|;")
# A line of an attribute or a comment.
ABOVE = re.compile(r" *(?:#\[|//)")


def texts_of(top: str, crate: str = "*") -> Iterator[tuple[str, str]]:
    """The sources of a crate of a checkout, or of all, each with its path in the checkout."""
    for path in sorted(glob.glob(f"{top}/crates/{crate}/src/**/*.rt", recursive=True)):
        yield os.path.relpath(path, top), read(path)


@functools.cache
def blank(text: str) -> str:
    """The source with blanks in place of comments and quoted text, so that places stay the same."""
    comments, raw, quoted = r"//[^\n]*|/\*.*?\*/", r'r(#*)".*?"\1', r'b?"(?:\\.|[^"\\])*"'
    character = r"b?'(?:\\[^\n]|[^'\\\n])'"
    token = re.compile(f"{comments}|{raw}|{quoted}|{character}", re.S)
    return token.sub(lambda found: re.sub(r"[^\n]", " ", found[0]), text)


def end_of(text: str, start: int) -> int:
    """The place after the bracket that closes the one at `start`."""
    depth = 0
    for place in range(start, len(text)):
        if text[place] == "{":
            depth += 1
        elif text[place] == "}":
            depth -= 1
            if depth == 0:
                return place + 1
    return len(text)


class Item(NamedTuple):
    """An item of a file, or a member of one: its kind (`fn`, .., `field`, `variant`), its name,
    whether it is public, the text of the file, where it begins there, with a line, and ends, and
    the item that it is a member of."""

    kind: str
    name: str
    is_public: bool
    file: str
    start: int
    end: int
    around: "Item | None"

    @property
    def text(self) -> str:
        """Its text, without attributes and comments before it."""
        return self.file[self.start:self.end]

    def above(self) -> list[str]:
        """The lines of attributes and comments right above it."""
        lines = self.file[:self.start].split("\n")[:-1]
        count = next((at for at, line in enumerate(reversed(lines)) if not ABOVE.match(line)),
                     len(lines))
        return lines[len(lines) - count:]

    @property
    def doc(self) -> str:
        """Its doc comment."""
        lines = (line.lstrip() for line in self.above())
        return "\n".join(line[4:] for line in lines if line.startswith("///"))

    def cycle(self) -> str:
        """The cycle of calls that a function is in, or an empty text."""
        found = re.search(r"#\[cycle\((\w+)\)\]", "\n".join(self.above()))
        return found[1] if found else ""

    def end_of_head(self) -> int:
        """The place of the file at which its clauses or its body begin."""
        text, depth = blank(self.file), 0
        for place in range(self.start, self.end):
            if text[place] in "([":
                depth += 1
            elif text[place] in ")]":
                depth -= 1
            elif depth == 0 and ENDS_OF_HEAD.match(text, place):
                return place
        return self.end

    def head(self) -> str:
        """Its text up to clauses or a body, on one line."""
        return " ".join(self.file[self.start:self.end_of_head()].split())

    def body(self) -> int:
        """The place of the file at which the body of a function begins, or its semicolon. After
        clauses the brace has a line of its own."""
        text, at = blank(self.file), self.end_of_head()
        if text[at:at + 1] == "{":
            return at
        opened = re.compile(r"^ *\{$", re.M).search(text, at, self.end)
        return opened.end() - 1 if opened else self.end - 1

    def clauses(self) -> list[tuple[str, str, str]]:
        """Its clauses: the word each begins with, its name or an empty text, and its text."""
        text = blank(self.file)
        return [(head[1], head[2] or "", self.file[head.end():end_of(text, head.end())])
                for head in CLAUSE.finditer(text, self.start, self.body())]

    def members(self) -> list["Item"]:
        """The items inside it, or its fields or variants."""
        return list(items_in(self.file, self))


def made(words: str, around: Item | None) -> tuple[str, str, bool] | None:
    """The kind and the name of the item that begins with these words, if it is one that is known
    here, and whether it is public."""
    kind = around.kind if around else ""
    if kind == "struct" and (found := FIELD.match(words)):
        return "field", found[2], found[1] == "pub "
    if kind == "enum" and (found := VARIANT.match(words)):
        return "variant", found[1], True
    found = ITEM.match(words)
    return (found[2], found[3], found[1] == "pub ") if found else None


def items_in(file: str, around: Item | None = None) -> Iterator[Item]:
    """The items of a file, or those inside of an item."""
    start, end = (around.start, around.end) if around else (0, len(file))
    lines = blank(file)[start:end].split("\n")
    indent = len(lines[0]) - len(lines[0].lstrip()) + 4 if around else 0
    margin, is_listed = " " * indent, bool(around and around.kind in ("struct", "enum"))
    at = 0
    if around:
        start, at = start + len(lines[0]) + 1, 1
    while at < len(lines):
        first = at
        if lines[at].startswith(margin) and lines[at][indent:indent + 1] not in ("", " "):
            at = end_of_item(lines, at, margin, is_listed)
            end = start + sum(len(line) + 1 for line in lines[first:at]) + len(lines[at].rstrip())
            if found := made(file[start + indent:end], around):
                yield Item(*found, file, start, end, around)
        at += 1
        start += sum(len(line) + 1 for line in lines[first:at])


def end_of_item(blanked: list[str], at: int, margin: str, is_listed: bool) -> int:
    """The last line of the item that begins at a line. One of a list ends with a comma."""
    depth, last = 0, (";", "{}", ",") if is_listed else (";", "{}")
    is_attribute = blanked[at].startswith(margin + "#")
    for at in range(at, len(blanked)):
        line = blanked[at].rstrip()
        depth += sum(line.count(mark) for mark in "([{") - sum(line.count(mark) for mark in ")]}")
        ends = line.endswith(last) or line.startswith(margin + "}") or is_attribute
        if depth <= 0 and ends:
            break
    return at


def functions_in(items: Iterable[Item]) -> Iterator[Item]:
    """The functions among items and in their blocks. One inside of another is a part of that."""
    for item in items:
        if item.kind == "fn":
            yield item
        elif item.kind in ("impl", "trait", "mod"):
            yield from functions_in(item.members())


@functools.cache
def functions_of(file: str) -> list[Item]:
    """The functions of a file."""
    return list(functions_in(items_in(file)))


def function_around(file: str, at: int) -> Item | None:
    """The function around a place of a file."""
    return next((item for item in functions_of(file) if item.start <= at < item.end), None)


class Module(NamedTuple):
    """A module of a crate: its crate, its path in it, its file, and its items."""

    crate: str
    path: tuple[str, ...]
    file: str
    items: list[Item]


@functools.cache
def module_at(crate: str, path: tuple[str, ...]) -> Module | None:
    """The module of a crate at a path, if it has a file."""
    file = f"crates/{crate}/src/{'/'.join(path) or 'lib'}.rt"
    if not os.path.exists(f"{TOP}/{file}"):
        return None
    return Module(crate, path, file, list(items_in(read(f"{TOP}/{file}"))))


def modules_of(crate: str) -> list[Module]:
    """All modules of a crate."""
    root = f"{TOP}/crates/{crate}/src"
    found = []
    for folder, _, files in sorted(os.walk(root)):
        for name in sorted(file for file in files if file.endswith(".rt")):
            path = os.path.relpath(f"{folder}/{name}", root)[:-3]
            module = module_at(crate, () if path == "lib" else tuple(path.split("/")))
            found += [module] if module else []
    return found


def split_list(text: str) -> list[str]:
    """The parts of a list with commas, without those inside brackets of a part."""
    parts, depth = [""], 0
    for letter in text:
        depth += (letter in "({[<") - (letter in ")}]>")
        if letter == "," and depth == 0:
            parts.append("")
        else:
            parts[-1] += letter
    return [part.strip() for part in parts if part.strip()]


def used_paths(item: Item) -> list[tuple[list[str], str]]:
    """What a `use` brings: each path, and the name that it has here."""
    text = " ".join(item.text.split()).rstrip(";").split("use ", 1)[1]
    front, brace, listed = text.partition("{")
    paths = [front + part for part in split_list(listed.rstrip("}"))] if brace else [text]
    found = []
    for path in paths:
        whole, _, name = path.partition(" as ")
        found.append((whole.split("::"), name or whole.split("::")[-1]))
    return found


# What a name of a module means: an item of a module, or a module itself.
Meaning = tuple[Module, Item | None]


def meaning(module: Module, path: list[str]) -> Meaning | None:
    """What a path in a module means."""
    first, *rest = path
    if first in ("crate", "self", "super"):
        at = {"crate": (), "self": module.path, "super": module.path[:-1]}[first]
        start = module_at(module.crate, at)
    elif first in uses_of_crates():
        start = module_at(first, ())
    else:
        start, rest = module, path
    if start is None or not rest:
        return (start, None) if start else None
    for name in rest[:-1]:
        found = named_in(start, name) if start else None
        start = found[0] if found and found[1] is None else None
    return named_in(start, rest[-1]) if start else None


def named_in(module: Module, name: str) -> Meaning | None:
    """What a name in a module means: its own item, its submodule, or what it hands on."""
    for item in module.items:
        if item.name == name and item.kind not in ("use", "mod", "impl", "ghost", "ghost use"):
            return module, item
        if item.name == name and item.kind == "mod":
            inner = module_at(module.crate, (*module.path, name))
            return (inner, None) if inner else None
    for item in module.items:
        if item.kind == "use" and item.is_public:
            for path, here in used_paths(item):
                if here == name:
                    return meaning(module, path)
    return None


def names_of(module: Module) -> list[str]:
    """The names that a module exports, in the order of its file."""
    names = []
    for item in module.items:
        if item.is_public and item.kind == "use":
            names += [here for _, here in used_paths(item)]
        elif item.is_public and item.name:
            names.append(item.name)
    return names


def public_items(crate: str) -> dict[str, list[tuple[Module, Item]]]:
    """All that a crate exports, by the shortest path of its module: at the same length the module
    of the lower crate comes first. Each item stands once."""
    root, order = module_at(crate, ()), list(uses_of_crates())
    found: dict[str, list[tuple[Module, Item]]] = {}
    seen: set[tuple[str, int]] = set()
    level = [(crate, root)] if root else []
    reached = {(first.crate, first.path) for _, first in level}
    while level:
        below: list[tuple[str, Module]] = []
        for path, module in level:
            for name in names_of(module):
                target = named_in(module, name)
                if target is None:
                    continue
                at, item = target
                if item is None and (at.crate, at.path) not in reached:
                    reached.add((at.crate, at.path))
                    below.append((f"{path}::{name}", at))
                elif item and (at.file, item.start) not in seen:
                    seen.add((at.file, item.start))
                    found.setdefault(path, []).append((at, item))
        level = sorted(below, key=lambda pair: order.index(pair[1].crate))
    return found


def parts_of_block(head: str) -> tuple[str, str, str]:
    """What the head of an `impl` or a trait has: its own parameters, in their brackets, the trait
    of an `impl`, and the type; empty texts for what is not there."""
    words, place = re.sub(r"^\s*(?:pub |unsafe )*(?:impl|trait)", "", head), 0
    if words.startswith("<"):
        depth = place = 1
        while depth:
            depth += (words[place] == "<") - (words[place] == ">" and words[place - 1] != "-")
            place += 1
    trait, _, of_type = words[place:].strip(" {").rpartition(" for ")
    return words[:place], trait.strip(), of_type


def impl_of(item: Item) -> tuple[str, str]:
    """The trait of an `impl`, or an empty text, and its type, without lifetimes and bounds."""
    return parts_of_block(item.head())[1:]


def bare(name: str) -> str:
    """The name of a type without its path, its borrow and its parameters."""
    return re.sub(r"<.*", "", name.lstrip("&")).rpartition("::")[2].strip()


def owner_of(item: Item | None) -> tuple[str, str]:
    """The names of the trait of an `impl`, or an empty text, and of its type; of any other item an
    empty text and its own name."""
    if item is None or item.kind != "impl":
        return "", item.name if item else ""
    trait, of_type = impl_of(item)
    return bare(trait), bare(of_type)


@functools.cache
def impls_of(crate: str) -> dict[str, list[tuple[str, Item, Module]]]:
    """The `impl` blocks of a crate by the name of their type, each with its trait, if any, and its
    module."""
    found: dict[str, list[tuple[str, Item, Module]]] = {}
    for module in modules_of(crate):
        for item in module.items:
            if item.kind == "impl":
                trait, of_type = impl_of(item)
                found.setdefault(bare(of_type), []).append((trait, item, module))
    return found


def first_sentence(text: str) -> str:
    """The first sentence of a comment on one line, without the sections of CSL that it names."""
    text = " ".join(text.split("\n\n")[0].split())
    text = re.sub(r" ?\(([^()]*; )?CSL 1\.0\.2[^()]*(\([^()]*\)[^()]*)*\)", "", text)
    text = re.split(r": - ", text)[0]
    ended = re.match(r".*?[^.]\.(?= +[A-Z`*\[‘'\"-]|$)", text)
    return (ended[0] if ended else text.rstrip(":") + ".").strip()
