"""The way from a module to its definitions: a file of `specs/` of its name, or else a line at the
end of its head."""
import itertools
import os
import re
from typing import Iterator

from kit import TOP, read, uses_of_crates
from specs import USE

# What the prover makes of types and derives is in no file.
GENERATED = {"declared", "contracts"}
# The root of a crate has no line.
ROOTS = ("lib", "main")
# The line, at the end of a head, and a path in it.
LINE = re.compile(r"^Definitions: (.*)\.\Z", re.M | re.S)
FILE = re.compile(r"(?:crates/(\w+)/)?specs/(\w+)\.antt")
# The made-up modules, each after a line with its path.
MADE_UP = "tools/document_tests/modules"


def made_up_modules() -> Iterator[tuple[str, str]]:
    """The path and the text of each made-up module."""
    _, *parts = re.split(r"^== (.*)\n", read(f"{TOP}/{MADE_UP}"), flags=re.M)
    yield from zip(parts[::2], parts[1::2])


def cited_files(text: str) -> Iterator[tuple[str, str]]:
    """The files of definitions that a module cites, each by its crate and its name."""
    crates = uses_of_crates()
    for crate, path, *_ in USE.findall(text):
        parts = path.split(".")
        if crate in crates and not GENERATED.intersection(parts):
            yield crate, parts[-1]


def names_of(module: str) -> set[str]:
    """The names that the file of a module may have: Page or EntryPage for `entry/page`."""
    parts = [part.title().replace("_", "") for part in module.split("/")]
    return {parts[-1], "".join(parts)}


def faults_of_module(path: str, text: str) -> Iterator[tuple[int, str]]:
    """What is wrong with the way from a module to its definitions, at the end of its head."""
    _, crate, _, module = path.removesuffix(".rt").split("/", 3)
    head = [line[4:] for line in itertools.takewhile(lambda row: row.startswith("//!"),
                                                     text.split("\n"))]
    end = max(len(head), 1)
    cited = set(cited_files(text))
    has_own = any((crate, name) in cited for name in names_of(module))
    line = LINE.search("\n".join(head))
    if line is None:
        if cited and not has_own and module not in ROOTS:
            yield end, "no file of its name is cited, and no line `Definitions: ..` ends the head"
        return
    if FILE.sub("", line[1]).replace(",", "").strip():
        yield end, "the line of definitions has more than paths of files"
    for found in FILE.finditer(line[1]):
        if not os.path.exists(f"{TOP}/crates/{found[1] or crate}/specs/{found[2]}.antt"):
            yield end, f"there is no {found[0]}"
        elif found[2] not in {name for _, name in cited}:
            yield end, f"nothing of {found[0]} is cited"
