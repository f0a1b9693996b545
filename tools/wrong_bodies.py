"""Edits of a crate's sources, as its file of edits has them, the functions that they change, and
what a check of these functions says of each.

edits/CRATE.edits has an entry for each edit: `## NAME`, with `[landing]` if each landing tries it,
or `[same]` if it means the same as before; comments, lines that begin with `#`; `file:` and pairs
of `old:` and `new:`, of one line each; then the inputs at which another answer comes, a `witness:`
each: `row FILE.rows: TEXT`, a row of tests/rows that has this line, `test NAME`, a test of
tests/unit, or `uses`, the examples of csl_uses; or `twin: NAME`, an edit of the same function that
means the same as before. An empty line ends an entry. The files of crates/CRATE/must-fail/ have the
lines of one entry each, without its heading."""
import glob
import os
import re
from dataclasses import dataclass, field
from typing import Iterable, Iterator

from kit import TOP, Failure, read
from sources import ABOVE, function_around, parts_of_block

# What is said of a proof file that names what an edit took away: it shows nothing of the contract.
LOST_NAME = r"has no field|is not in scope|has no `|was not admitted"
# Why a goal is open, as the prover says it, the strongest reason first: there are values at which
# it is false; the answer of a proof file does not fit; the search for a proof found none, or gave
# up at a limit. Only the first is never said of a right body.
FALSE, OTHER, NOT_PROVED, GAVE_UP = ("false by values", "the answer does not fit", "not proved",
                                     "gave up")
REASONS = [FALSE, OTHER, NOT_PROVED, GAVE_UP]
# The words of a step, a branch, a loop or a call.
STEPS = re.compile(r"\b(?:if|else|match|return|for|while|loop|let|break|continue)\b|=>|[?;{]"
                   r"|\b[a-z_]\w*(?=\()")


def reason_of(said: str, other: str) -> str:
    """Why a goal is open, by what the prover says of it, or the other reason."""
    if "allow values at which this goal is false" in said:
        return FALSE
    return GAVE_UP if re.search("gave up at one of its limits|stopped at its own", said) else other


def steps_of(text: str) -> list[str]:
    """The steps, branches, loops and calls of a text, without what is in literals."""
    return STEPS.findall(re.sub(r'"(?:\\.|[^"\\])*"', '""', text))


@dataclass
class Entry:
    """An edit as it is written: its crate and its name, its mark, which is `landing`, `same`,
    `must-fail` or none, its pairs of old and new texts, each with the file of the crate that it is
    of, its witnesses, and the name of its twin, or none."""

    crate: str
    name: str
    mark: str
    pairs: list[tuple[str, str, str]] = field(default_factory=list)
    witnesses: list[str] = field(default_factory=list)
    twin: str = ""

    @property
    def label(self) -> str:
        """The name of the edit among those of all crates."""
        return f"{self.crate}/{self.name}"

    def read(self, lines: list[str], place: str) -> None:
        """Reads the lines of an entry. The place is told with what is wrong in them."""
        file = old = None
        for line in lines:
            word, _, rest = line.partition(":")
            rest = rest.removeprefix(" ")
            if word == "file":
                file = rest.strip()
            elif word == "old" and file and old is None:
                old = rest
            elif word == "new" and file and old is not None:
                self.pairs.append((file, old, rest))
                old = None
            elif word == "witness":
                self.witnesses.append(rest.strip())
            elif word == "twin":
                self.twin = rest.strip()
            elif not line.startswith("#"):
                raise Failure(f"{place}: {self.name}: this is no line of an edit here: {line}")
        if not self.pairs or old is not None:
            raise Failure(f"{place}: {self.name}: there is no pair of `old:` and `new:`")

    def of_kit(self) -> str:
        """The edit in the form of the kit, which takes no entry."""
        return "".join(f"file: {file}\nold: {old}\nnew: {new}\n" for file, old, new in self.pairs)


def entries_of(crate: str, top: str = TOP) -> list[Entry]:
    """The entries of a crate's file of edits, of which no two have one name."""
    path, found = f"{top}/edits/{crate}.edits", {}
    if not os.path.exists(path):
        return []
    parts = re.split(r"\n\n+", read(path).strip("\n"))
    for heading, *lines in (part.split("\n") for part in parts if part):
        head = re.fullmatch(r"## (\w+)(?: \[(landing|same)\])?", heading)
        if head and head[1] not in found:
            found[head[1]] = Entry(crate, head[1], head[2] or "")
            found[head[1]].read(lines, f"edits/{crate}.edits")
        elif head or not all(line.startswith("# ") for line in [heading, *lines]):
            why = "is there twice" if head else "is no heading of an edit"
            raise Failure(f"edits/{crate}.edits: this {why}: {heading}")
    return list(found.values())


def entries_of_kit(crate: str, top: str = TOP) -> list[Entry]:
    """The edits of a crate that `rt ci` tries itself."""
    found = []
    for path in sorted(glob.glob(f"{top}/crates/{crate}/must-fail/*.edit")):
        found.append(Entry(crate, os.path.basename(path).removesuffix(".edit"), "must-fail"))
        found[-1].read(read(path).strip("\n").split("\n"), os.path.relpath(path, top))
    return found


def all_entries(top: str = TOP) -> Iterator[Entry]:
    """The edits of all crates."""
    crates = sorted(os.listdir(f"{top}/crates"))
    for name in sorted(os.listdir(f"{top}/edits")):
        if name.removesuffix(".edits") not in crates or name in crates:
            raise Failure(f"edits/{name} is no file of the edits of a crate")
    for crate in crates:
        yield from [*entries_of(crate, top), *entries_of_kit(crate, top)]


def parameters_in(text: str) -> set[str]:
    """The names of the parameters that a block declares: of `<'a, T: Into<U>, U>` T, U and a."""
    plain = text[1:-1].replace("->", "")
    while (less := re.sub(r"<[^<>]*>|\([^()]*\)", "", plain)) != plain:
        plain = less
    return set(re.findall(r"(?:^|,)\s*(?:const )?'?(\w+)", plain))


def words_of_type(text: str, own: set[str], between: str) -> str:
    """The words of a type in the name of a block, without paths, lifetimes, bounds, `_` and the
    block's own parameters."""
    plain = re.sub(r"'\w+|\w+::", "", text).split(":")[0]
    return between.join(word for word in re.findall(r"\w+", plain) if word not in {*own, "_"})


def owner(head: str) -> str:
    """The name that rt gives to the block of an `impl` or `trait` line: NumericPut for `impl Put
    for Numeric {`, AnyPut for `impl<T: Number> Put for T {`."""
    parameters, of_trait, of_type = parts_of_block(head)
    own = parameters_in(parameters)
    of_whom = "Any" if of_type.strip() in own else words_of_type(of_type, own, "+")
    return of_whom + words_of_type(of_trait, own, "")


def function_at(name: str, file: str, text: str, at: int) -> tuple[str, str]:
    """The function around a place of a crate's file, as rt prints its name, and its cycle of calls;
    empty texts outside of functions."""
    found = function_around(text, at)
    if not found:
        return "", ""
    path = [owner(found.around.head())] if found.around else [name, *module_path(file)]
    return "::".join([*path, found.name]), found.cycle()


def module_path(file: str) -> list[str]:
    """The path of the module that a source of a crate is."""
    return [part for part in file.removesuffix(".rt").split("/")[1:] if part not in ("lib", "main")]


def goal_at(file: str, line: int) -> str:
    """The function of the goal that a line of a cycle's proof file answers: `group::render` in `pub
    group::render-returns : ..`."""
    above = "\n".join(read(file).split("\n")[:line])
    names = re.findall(r"^(?:abbrev )?(?:pub )?(?:decreases-)?([\w:]+)-\S* :", above, re.M)
    return names[-1] if names else ""


def is_one_of(place: str, functions: Iterable[str]) -> bool:
    """Whether a path is that of one of these functions, of which it may name more of the way."""
    return any(f"::{place}".endswith(f"::{function}") for function in functions)


class Edit:
    """An edit of a crate of a checkout: its pairs of old and new texts, by file, the functions that
    they change, and the cycles of calls of these.

    After a check of these functions `open` is an open goal of one of them and `why` the reason,
    `lost` tells of a name that the edit took away from a proof file, `fault` says why the check
    could not read the edit, and `is_proved` tells whether it left no goal open and proved those
    functions, of which only those in a cycle with another's open goal need not be named."""

    def __init__(self, entry: Entry, top: str = TOP) -> None:
        self.entry, self.name, self.label = entry, entry.crate, entry.label
        self.crate, self.pairs = f"{top}/crates/{entry.crate}", entry.pairs
        self.forget()

    def forget(self) -> None:
        """Forgets what a check said, and that the edit was planted in copies of its functions."""
        self.open = self.why = self.lost = ""
        self.is_proved = False
        places = self.make({})
        self.fault = "" if places else "an old text of it is not there, or more than once"
        # A `use` line is of no function, and proves nothing.
        changed = [place for place, (_, old, _) in zip(places, self.pairs)
                   if not old.startswith("use ")]
        self.functions = {function for function, _ in changed}
        self.cycles = {cycle for _, cycle in changed if cycle}
        self.is_code = (bool(self.functions) and "" not in self.functions
                        and all(path.startswith("src/") for path, _, _ in self.pairs))
        self.places = frozenset(self.functions)

    def mark(self, goal: str, why: str) -> None:
        """Marks that a goal is open. The one with the strongest reason is kept."""
        if not self.open or REASONS.index(why) < REASONS.index(self.why):
            self.open, self.why = goal, why

    def make(self, texts: dict[str, str]) -> list[tuple[str, str]]:
        """Makes the edit in the crate's texts, by file, and returns the function and the cycle of
        each place. Changes nothing, and returns an empty list, if an old text is not there once."""
        made, places = dict(texts), []
        for file, old, new in self.pairs:
            path = f"{self.crate}/{file}"
            if file not in made and os.path.isfile(path):
                made[file] = read(path)
            if made.get(file, "").count(old) != 1:
                return []
            places.append(function_at(self.name, file, made[file], made[file].find(old)))
            made[file] = made[file].replace(old, new)
        texts.update(made)
        return places

    def is_apart(self, other: "Edit", cycles_apart: bool) -> bool:
        """Whether the edits change other functions and, if asked, functions of other cycles."""
        share_cycle = cycles_apart and self.cycles & other.cycles
        return self.functions.isdisjoint(other.functions) and not share_cycle

    def is_of(self, function: str) -> bool:
        """Whether a function that a check names, or one around it, is one that the edit changes."""
        return any(f"::{its_own}::" in f"::{function}::" for its_own in self.functions)


# Edits that can be made at once, with the edited texts, by file.
Batch = tuple[list[Edit], dict[str, str]]


def fault_of_twin(edit: Edit, others: list[Edit]) -> str:
    """Why the twin that an edit names is none, or an empty text. A twin means the same as before,
    and differs from the edit only in values: it has its steps, branches, loops and calls, literals
    aside. So if the prover has a proof of it, it refuses the edit for what this does."""
    twin = next((other for other in others if other.entry.name == edit.entry.twin), None)
    if twin is None or twin.entry.mark != "same":
        return f"no edit {edit.entry.twin} means the same as before"
    made: dict[str, str] = {}
    twins: dict[str, str] = {}
    if not edit.make(made) or not twin.make(twins):
        return "its old text or that of its twin is not there once"
    if twin.places != edit.places:
        return f"its twin changes {' '.join(sorted(twin.places))}"
    if all(re.sub(r"[\s()]", "", old) == re.sub(r"[\s()]", "", new) for _, old, new in twin.pairs):
        return "its twin is the unchanged body"
    if twins == made:
        return "its twin is the edit itself"
    steps = [[steps_of(text[file]) for file in sorted(text)] for text in (made, twins)]
    return "" if steps[0] == steps[1] else "its twin has other steps"


def batches_of(edits: list[Edit], cycles_apart: bool) -> list[Batch]:
    """Lists of edits of a crate that can be made at once. With `cycles_apart` no two are in one
    cycle of calls."""
    batches: list[Batch] = []
    for edit in edits:
        for held, texts in batches:
            if all(edit.is_apart(other, cycles_apart) for other in held) and edit.make(texts):
                held.append(edit)
                break
        else:
            batches.append(([edit], {}))
            edit.make(batches[-1][1])
    return batches


class Check:
    """What a check said of a crate in a folder, with these edits made in these texts."""

    def __init__(self, folder: str, edits: list[Edit], texts: dict[str, str], said: str) -> None:
        self.folder, self.edits, self.texts, self.said = folder, edits, texts, said
        self.name = edits[0].name
        self.is_ended = bool(re.search(r"^only=\d", said, re.M))
        # In a cycle of calls that several edits change, the goal says whose it is.
        cycles = [cycle for edit in edits for cycle in edit.cycles]
        self.is_shared = len(set(cycles)) < len(cycles)

    def function_at(self, file: str, line: int) -> str:
        """The function around a line of a source, or an empty text. A goal of a whole function is
        told at the first of its attributes."""
        text = self.texts.get(file, "")
        lines = text.split("\n")
        while line < len(lines) and ABOVE.match(lines[line - 1]):
            line += 1
        end = len("\n".join(lines[:line]))
        return function_at(self.name, file, text, end)[0]

    def edits_at(self, file: str, line: int) -> list[Edit]:
        """The edits whose functions an error at this line of a source or of a proof is about."""
        if not file.startswith("proofs/"):
            function = self.function_at(file, line)
            return [edit for edit in self.edits if is_one_of(function, edit.functions)]
        function = "::".join([self.name, *file.split("/")[1:-1]])
        goal = f"{self.name}::{goal_at(f'{self.folder}/{file}', line)}" if self.is_shared else ""

        def is_in_cycle(edit: Edit) -> bool:
            """Whether the proof is that of a cycle of the edit, and its goal is the edit's."""
            is_own_goal = not self.is_shared or is_one_of(goal, edit.functions)
            return is_own_goal and any(f"/+{cycle}/" in file for cycle in edit.cycles)

        return [edit for edit in self.edits
                if is_one_of(function, edit.functions) or is_in_cycle(edit)]

    def read_errors(self) -> list[Edit]:
        """Marks the edits of which an error tells a goal that is open. Returns those of which one
        tells that they cannot be read."""
        unread = []
        # (after a long name the rest is on the next line)
        error_at = (r"^(?:\./)?((?:src|proofs)/\S+?):(\d+):\d+: "
                    rf"(error.*(?:\n  .*(?:{LOST_NAME}).*)?)")
        for file, line, error in re.findall(error_at, self.said, re.M):
            for edit in self.edits_at(file, int(line)):
                if not file.startswith("proofs/"):
                    if edit not in unread:
                        edit.fault = f"{file}:{line}: {error}"
                        unread.append(edit)
                elif re.search(LOST_NAME, error):
                    edit.lost = f"{file}:{line}: {error}"
                else:
                    edit.mark(f"{file}:{line}: {error}", reason_of(error, OTHER))
        return unread

    def read_notes(self) -> None:
        """Marks the edits of which a note tells a goal that is open. In a cycle a goal without an
        answer is told so, at its place in the source."""
        note_at = r"^note: (?:\./)?(src/\S+?):(\d+):\d+: it is not proved that (.*)"
        for file, line, goal in re.findall(note_at, self.said, re.M):
            function = self.function_at(file, int(line))
            for edit in self.edits:
                if function and is_one_of(function, edit.functions):
                    edit.mark(f"{file}:{line}: {goal}", reason_of(goal, NOT_PROVED))

    def read_functions(self) -> None:
        """Marks the edits of whose functions a line says that they are not proved, and those whose
        functions are. The lines of functions without a proof file say what is open."""
        # A closure is named below its function, with a part `fn` in front.
        unproved = r"^fn (\S+): (.*`search` did not prove.*)"
        for function, error in re.findall(unproved, self.said, re.M):
            for edit in self.edits:
                if edit.is_of(function.replace("::fn::", "::")) and not edit.open:
                    edit.mark(error, reason_of(error, NOT_PROVED))
        # The functions of a cycle of calls are proved together or not at all: where another edit of
        # the cycle has an open goal, only the goals can tell.
        proved = re.findall(r"^fn (\S+): proved$", self.said, re.M)
        open_cycles = {cycle for edit in self.edits if edit.open for cycle in edit.cycles}
        for edit in self.edits:
            is_told = all(any(is_one_of(named, [function]) for named in proved)
                          for function in edit.functions)
            is_told = is_told or bool(edit.cycles & open_cycles)
            edit.is_proved = self.is_ended and edit.is_code and not edit.open and is_told


def read_check(folder: str, edits: list[Edit], texts: dict[str, str], said: str) -> list[Edit]:
    """Reads what a check said of a crate in a folder, with these edits made in these texts, and
    marks each edit of which a goal is open or whose functions are proved. Returns the edits that
    cannot be read, or all if the check did not end."""
    check = Check(folder, edits, texts, said)
    unread = [] if check.is_ended else [
        edit for edit in edits
        if any(f"has no function `{function}`" in said for function in edit.functions)]
    unread += check.read_errors()
    check.read_notes()
    check.read_functions()
    if not unread and not check.is_ended:
        for edit in edits:
            edit.fault = said.strip().rpartition("\n")[2]
        return edits
    return unread
