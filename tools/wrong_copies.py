"""Edits planted in copies of their functions. A copy stands beside its function under another name
and calls what the function calls, so any number of edits of one function, or of one cycle of calls,
stand in one check, and none keeps the prover from another's goals. A copy is in no cycle: where the
function calls itself, the copy calls the function. A copy that is not edited, the control of its
function, shows that the prover does a copy as it does the function.

A block of a trait takes no further methods, so of such a method the copy is a function with the
trait's clauses, in which the trait's ghost members and `self` are written out. One in a cycle, or
with a proof file of its own, has no copy."""
import glob
import os
import re
import shutil
from dataclasses import dataclass

from kit import read, write
from sources import Item, function_around, functions_of, impl_of
from wrong_bodies import Edit, function_at, module_path

CONTROL = "as_it_is"


class Control:
    """A copy of a function that is not edited, with what a check says of it, like an edit."""

    def __init__(self, function: str, name: str) -> None:
        self.name, self.label = name, f"a copy of {function}"
        self.functions: set[str] = set()
        self.places = frozenset({function})
        self.cycles: set[str] = set()
        self.is_code, self.is_proved = True, False
        self.open = self.why = self.lost = self.fault = ""

    mark = Edit.mark
    is_of = Edit.is_of


@dataclass
class Source:
    """A function in a file of a crate, and its name as rt prints it."""

    file: str
    found: Item
    function: str

    def text(self) -> str:
        """The text from its head to its end."""
        return self.found.text + "\n"

    def attributes(self) -> str:
        """The lines of its attributes, without those that only a function in a cycle has."""
        return "".join(f"{line}\n" for line in self.found.above()
                       if re.match(r" *#\[(?!cycle|inline)", line))

    def is_of_trait(self) -> bool:
        """Whether it is a method of a trait."""
        around = self.found.around
        return around is not None and (around.kind == "trait" or bool(impl_of(around)[0]))


def sources_of(edit: Edit) -> list[tuple[Source, list[tuple[str, str]]]]:
    """The functions that an edit changes, each with its pairs of old and new texts."""
    found: dict[tuple[str, str], tuple[Source, list[tuple[str, str]]]] = {}
    for file, old, new in edit.pairs:
        text = read(f"{edit.crate}/{file}")
        at = text.find(old)
        if around := function_around(text, at):
            function = function_at(edit.name, file, text, at)[0]
            one = found.setdefault((file, function), (Source(file, around, function), []))
            one[1].append((old, new))
    return list(found.values())


def can_be_copied(edit: Edit) -> bool:
    """Whether the edit changes functions alone, each in its own text, and each has a copy."""
    if not edit.is_code or any(old.startswith("use ") for _, old, _ in edit.pairs):
        return False
    sources = [source for source, _ in sources_of(edit)]
    return all(not source.is_of_trait() or method_of(source, edit.crate)[0] for source in sources)


def clauses_of(crate: str, of_trait: str, method: str) -> tuple[str, str]:
    """The clauses of a method in the declaration of a trait of the crate, and the text of its file,
    or empty texts."""
    for file in glob.glob(f"{crate}/src/**/*.rt", recursive=True):
        text = read(file)
        for found in functions_of(text):
            around, body = found.around, found.body()
            is_declared = around and (around.kind, around.name) == ("trait", of_trait)
            clauses = re.search(r"\b(?:requires|ensures)\b", text[found.start:body])
            if found.name == method and is_declared and clauses:
                return text[found.start + clauses.start():body], text
    return "", ""


def written_out(clauses: str, block: str) -> str:
    """Clauses of a trait with the ghost members that a block gives it in the place of their
    names."""
    members = r"^    ghost (\w+) = \{ λ ([\w ]+)\. (.*) \};$"
    for member, names, body in re.findall(members, block, re.M):
        def applied(found: re.Match[str]) -> str:
            """The member of these arguments."""
            values = dict(zip(names.split(), found[0].split()[1:]))
            return "(" + re.sub(r"(?<![\w.])\w+\b", lambda word: values.get(word[0], word[0]),
                                body) + ")"

        arguments = rf"(?: [\w.]+){{{len(names.split())}}}"
        clauses = re.sub(rf"(?<![\w.]){member}{arguments}", applied, clauses)
    return clauses


def names_lacking(text: str, other: str, clauses: str) -> str:
    """The lines `ghost use` by which a file has all names that clauses of another one use."""
    uses = r"^ghost use (Rattle\.[\w.]+)\.\{([^}]*)\};$"
    known = {name.strip() for _, names in re.findall(uses, text, re.M) for name in names.split(",")}
    lines = []
    for path, names in re.findall(uses, other, re.M):
        words = [name.strip() for name in names.split(",")]
        lacking = [word for word in words if word not in known and word.strip("◌") in clauses]
        lines += [f"ghost use {path}.{{{', '.join(lacking)}}};\n"] if lacking else []
    return "".join(lines)


def method_of(source: Source, crate: str, known: str = "") -> tuple[str, str]:
    """A method of a trait as a function, its head with `this` for `self` and the clauses of the
    trait, and the lines that these need besides known ones; or empty texts, if it has no copy."""
    found, around = source.found, source.found.around
    block = around and re.fullmatch(r"impl(?:<(.*)>)? (\w+) for ([\w<>]+)", around.head())
    own_proofs = f"{crate}/proofs/**/{source.function.replace('::', '/')}/"
    if not around or not block or found.cycle() or glob.glob(own_proofs, recursive=True):
        return "", ""
    head = r" *fn (\w+)(?:<(.*?)>)?\(\s*&('\w+ )?(mut )?self([^{]*) \{\n"
    own = re.match(head, source.text())
    clauses, other = clauses_of(crate, block[2], found.name)
    if not own or not clauses:
        return "", ""
    parts = (own[2] or "").split(", ")
    generics = [*(part for part in parts if part.startswith("'")), *filter(None, [block[1]]),
                *(part for part in parts if part and not part.startswith("'"))]
    given = f"<{', '.join(generics)}>" if generics else ""
    head = f"fn {own[1]}{given}(this: &{own[3] or ''}{own[4] or ''}{block[3]}{own[5]}"
    body = source.text()[own.end():].removesuffix("    }\n")
    text = f"{head}\n    {written_out(clauses, around.text)}\n{{\n{body}}}\n"
    return re.sub(r"\bself\b", "this", text), names_lacking(known + found.file, other, clauses)


def own_answers(text: str, prefix: str) -> str:
    """The answers of one function among those of a cycle's proof file, as those of a copy, which is
    in no cycle: without the function's name, and without the record of the cycle, `t`."""
    kept, is_kept = [], True
    for line in text.split("\n"):
        declared = re.match(r"(?:abbrev )?(?:pub )?(\S+) :", line)
        if declared and "::" in declared[1]:
            is_kept = f"{prefix}-" in declared[1] and not declared[1].startswith("decreases-")
        elif declared or line.startswith("use "):
            is_kept = True
        kept += [line] if is_kept else []
    text = "\n".join(kept).replace(f"{prefix}-", "")
    return re.sub(r"^(\S+ (?:g )?)t c =", r"\1c =", text, flags=re.M)


def rename(folder: str, old: str, new: str) -> None:
    """Renames the modules of goals that the proof files of a folder use."""
    for file in glob.glob(f"{folder}/*.antt"):
        text = read(file)
        for part in ("Goals", "Given"):
            text = text.replace(f"{old}{part}", f"{new}{part}")
        write(file, text)


def copy_proofs(proofs: str, path: str, name: str) -> None:
    """Gives a copy the proof files of its function, which is in no cycle."""
    for own in glob.glob(f"{proofs}/**/{path}/", recursive=True):
        to = f"{os.path.dirname(own.rstrip('/'))}/{name}"
        shutil.copytree(own, to)
        rename(to, f".{os.path.basename(path)}.", f".{name}.")


def copy_proofs_of_cycle(proofs: str, path: str, cycle: str, name: str) -> None:
    """Gives a copy its function's part of the proof files of a cycle."""
    for file in glob.glob(f"{proofs}/**/+{cycle}/*.antt", recursive=True):
        text = read(file)
        function = path.replace("/", "::")
        goal = rf"(?:\w+-)?((?:\w+::)*{function})-\S*"
        found = re.search(rf"^(?:abbrev )?(?:pub )?{goal} :", text, re.M)
        if not found:
            continue
        around = os.path.relpath(os.path.dirname(os.path.dirname(file)), proofs)
        inner = os.path.dirname(found[1].replace("::", "/"))
        to = os.path.normpath(f"{proofs}/{around}/{inner}/{name}")
        write(f"{to}/{os.path.basename(file)}", own_answers(text, found[1]))
        module = os.path.relpath(to, proofs).replace("/", ".")
        own = os.path.relpath(os.path.dirname(file), proofs).replace("/", ".")
        rename(to, f".proofs.{own}.", f".proofs.{module}.")


class Copies:
    """The copies of functions in a copy of their crate: of each file the text, the copies, each
    with its place, and further lines for its head."""

    def __init__(self, folder: str) -> None:
        self.folder, self.crate = folder, os.path.basename(folder)
        self.texts: dict[str, str] = {}
        self.copies: dict[str, list[tuple[int, str]]] = {}
        self.lines: dict[str, str] = {}

    def add(self, source: Source, word: str, pairs: list[tuple[str, str]]) -> str:
        """Adds a copy with these pairs of texts changed. Returns its name with its path."""
        around, _, own = source.function.rpartition("::")
        found, name = source.found, f"{own}__{word}"
        whole, start, end = found.file, found.start, found.end + 1
        text = source.text()
        for old, new in pairs:
            text = text.replace(old, new)
        if source.is_of_trait():
            edited = function_around(whole[:start] + text + whole[end:], start)
            known = self.lines.get(source.file, "")
            text, lines = method_of(Source(source.file, edited or found, source.function),
                                    self.folder, known)
            self.lines[source.file] = known + lines
            around = "::".join([self.crate, *module_path(source.file)])
            end = len(whole)
        text = re.sub(rf"\bfn {own}\b", f"fn {name}", text, count=1)
        self.texts[source.file] = whole
        self.copies.setdefault(source.file, []).append((end, f"\n{source.attributes()}{text}"))
        path = source.function.removeprefix(f"{self.crate}::").replace("::", "/")
        if cycle := found.cycle():
            copy_proofs_of_cycle(f"{self.folder}/proofs", path, cycle, name)
        elif not source.is_of_trait():
            copy_proofs(f"{self.folder}/proofs", path, name)
        return f"{around}::{name}"

    def edited(self) -> dict[str, str]:
        """The texts with all copies, by file."""
        made = {}
        for file, text in self.texts.items():
            for end, copied in sorted(self.copies[file], key=lambda copy: -copy[0]):
                text = text[:end] + copied + text[end:]
            at = text.find("ghost use ")
            made[file] = text[:at] + self.lines.get(file, "") + text[at:] if at >= 0 else text
        return made


def plant(folder: str, edits: list[Edit]) -> tuple[dict[str, str], list[Control]]:
    """Plants edits in copies of their functions, in a copy of their crate, and a control of each
    function. Returns the texts, by file, and the controls. The functions of each edit are its
    copies from here on."""
    copies = Copies(folder)
    controls: dict[tuple[str, str], Control] = {}
    for edit in edits:
        functions = set()
        for source, pairs in sources_of(edit):
            functions.add(copies.add(source, edit.entry.name, pairs))
            if (source.file, source.function) not in controls:
                control = Control(source.function, edit.name)
                control.functions = {copies.add(source, CONTROL, [])}
                controls[source.file, source.function] = control
        edit.functions, edit.cycles = functions, set()
    return copies.edited(), list(controls.values())
