"""The definitions in `specs/` as data: the modules with their heads, what each definition is, and
what it rests on."""
import glob
import os
import re

from kit import TOP, read, uses_of_crates

WORD = r"[^\s(){}\[\],;]+"
HEAD = re.compile(rf"( *)(?:(?:abbrev|unfoldable|pub) )*(record |data )?(?!→)({WORD})(?: .*)? : ")
# What brings definitions to a source, or to a file of definitions.
USE = re.compile(r"^ *(?:ghost |unfoldable |pub )*use Rattle\.(\w+)\.specs\.([\w.]+?)"
                 r"(?:\.\{([^}]*)\}| as ([\w-]+))?;?$", re.M)
CONSTRUCTOR = re.compile(rf" *((?:{WORD} )+): ")
# What imported names mean: a module of definitions, and the name there. A module under a name of
# its own has a dot after that, and no name there.
Imports = dict[str, tuple[str, str]]


def imports_of(text: str) -> Imports:
    """What the imports of a text bring."""
    found: Imports = {}
    for crate, path, names, alias in USE.findall(text):
        at = f"{crate}.{path}"
        for name in filter(None, map(str.strip, names.split(","))):
            there, _, here = name.partition(" as ")
            found[here or there] = (at, there)
        if alias or not names:
            found[f"{alias or path}."] = (at, "")
    return found


def head_of(lines: list[str]) -> str:
    """The head of a file: the comment that it begins with."""
    end = next((at for at, line in enumerate(lines) if not line.startswith("--")), len(lines))
    return "\n".join(line[3:] for line in lines[:end])


class Module:
    """A module of definitions: its head, the lines of each, by name, whose constructor a name is,
    and what it imports."""

    def __init__(self, file: str) -> None:
        self.blocks: dict[str, list[str]] = {}
        self.constructors: dict[str, str] = {}
        text = read(file)
        self.imports, lines = imports_of(text), text.split("\n")
        self.head = head_of(lines)
        self.read(lines)

    def read(self, lines: list[str]) -> None:
        """Gives each line to the definition that it is of."""
        name, kind, depth = "", "", 0
        for line in lines:
            if line and not re.match(r"--|(?:unfoldable |pub )*use |pub mod |module ",
                                     line.strip()):
                head = HEAD.match(line)
                if kind and len(line) - len(line.lstrip()) > depth:
                    made = CONSTRUCTOR.match(line) if kind == "data " else None
                    self.constructors |= dict.fromkeys(made[1].split(), name) if made else {}
                elif line.endswith("mutual"):
                    name, kind = "", ""
                elif head and head[3] not in self.blocks:
                    name, kind, depth = head[3], head[2] or "", len(head[1])
                    self.blocks[name] = []
                if name:
                    self.blocks[name].append(line)


def modules_of(crates: list[str]) -> dict[str, Module]:
    """The modules of definitions of these crates, each by its crate and path."""
    found = {}
    for crate in crates:
        root = f"{TOP}/crates/{crate}/specs"
        for file in sorted(glob.glob(f"{root}/**/*.antt", recursive=True)):
            found[f"{crate}.{os.path.relpath(file, root)[:-5].replace('/', '.')}"] = Module(file)
    return found


def named(modules: dict[str, Module], at: str, word: str) -> tuple[str, str] | None:
    """The module and the definition that a word in a module means, through whatever hands it on."""
    for _ in range(8):
        module = modules.get(at)
        if module is None:
            return None
        word = module.constructors.get(word, word)
        if word in module.blocks:
            return at, word
        if word in module.imports:
            at, word = module.imports[word]
            continue
        alias, dot, last = word.partition(".")
        if not dot or f"{alias}." not in module.imports:
            return None
        at, word = module.imports[f"{alias}."][0], last
    return None


def reached(modules: dict[str, Module], roots: list[tuple[str, str]]) -> set[tuple[str, str]]:
    """All definitions that these rest on, and they themselves."""
    found, left = set(roots), list(roots)
    while left:
        at, name = left.pop()
        for word in set(re.findall(WORD, "\n".join(modules[at].blocks[name]))):
            used = named(modules, at, word)
            if used and used not in found:
                found.add(used)
                left.append(used)
    return found


def crates_of_specs() -> list[str]:
    """The crates that have definitions, lowest first."""
    return [crate for crate in uses_of_crates()
            if os.path.isfile(f"{TOP}/crates/{crate}/specs/Lib.antt")]


def order_in(crate: str) -> list[str]:
    """The modules of a crate's definitions in the order of its `Lib`."""
    return re.findall(r"^pub mod (\w+)", read(f"{TOP}/crates/{crate}/specs/Lib.antt"), re.M)
