"""Wrong bodies in an unproved program. A body B of a function becomes `{ if chosen_body(7) { B' }
else { B } }`, where B' is the body as the seventh edit has it, and `tools/chosen_body.c`, which is
linked to the program, reads the number from its environment. So one build has any number of wrong
bodies, and without a number it is the program as it is. What is planted stands in a copy of the
checkout.

An edit changes bodies alone, and perhaps heads of functions and `use` lines, which are then changed
for all: names that are visible to more, and imports that nothing uses, change no answer."""
import os
import re

from kit import Failure, kit, read, words_of_try, write
from sources import function_around, functions_of, made
from unproved import Built, checked, compiled, compiled_c, link
from wrong_bodies import Entry, all_entries

CHOICE = """
unsafe extern "C" {
    safe fn chosen_body(number: u32) -> bool;
}
"""
# A body that an edit changes: its file, and where it begins and ends there.
Place = tuple[str, int, int]


def bodies_of(text: str) -> list[tuple[int, int]]:
    """Where the bodies of functions begin and end in a file, braces included."""
    places = ((function.body(), function.end) for function in functions_of(text))
    return [(start, end) for start, end in places if start < end - 1]


def is_in_body(text: str, old: str) -> bool:
    """Whether a text of a file, without the space before it, begins in a body."""
    at = text.index(old) + len(old) - len(old.lstrip())
    return any(start <= at < end for start, end in bodies_of(text))


def is_constant(text: str, start: int) -> bool:
    """Whether a body is that of a function which is computed while the program is compiled."""
    found = function_around(text, start)
    return bool(found and "const " in found.head().partition("fn ")[0])


class Planting:
    """The wrong bodies of a checkout's copy: of each body that is changed the numbers and the other
    bodies, the lines outside of bodies that are changed for all, and why an edit is not planted, by
    its number."""

    def __init__(self, checkout: str) -> None:
        self.checkout = checkout
        self.bodies: dict[Place, list[tuple[int, str]]] = {}
        self.lines: dict[tuple[str, str], str] = {}
        self.faults: dict[int, str] = {}
        self.texts: dict[str, str] = {}

    def text_of(self, file: str) -> str:
        """The text of a file of the copy, as it is without an edit."""
        if file not in self.texts:
            self.texts[file] = read(f"{self.checkout}/{file}")
        return self.texts[file]

    def add(self, number: int, entry: Entry) -> None:
        """Adds an edit under a number, or notes why it cannot be planted."""
        edited: dict[str, str] = {}
        lines: dict[tuple[str, str], str] = {}
        for path, old, new in entry.pairs:
            file = f"crates/{entry.crate}/{path}"
            if not os.path.isfile(f"{self.checkout}/{file}"):
                self.faults[number] = f"there is no {path}"
                return
            text = edited.get(file, self.text_of(file))
            if text.count(old) != 1:
                self.faults[number] = f"its old text is there {text.count(old)} times: {old}"
                return
            if not is_in_body(text, old):
                lines[file, old] = new
            edited[file] = text.replace(old, new)
        self.faults[number] = self.fault_of(edited, lines)
        if not self.faults[number]:
            del self.faults[number]
            self.lines.update(lines)
            for file, text in edited.items():
                self.add_bodies(number, file, text)

    def fault_of(self, edited: dict[str, str], lines: dict[tuple[str, str], str]) -> str:
        """Why an edit cannot be planted, or an empty text."""
        for (file, old), new in lines.items():
            changed_for_all = made(old.lstrip(), None)
            if not changed_for_all or changed_for_all[0] not in ("use", "fn"):
                return f"it changes what is in no body: {old}"
            if self.lines.get((file, old), new) != new:
                return f"another edit changes the same line: {old}"
        changed = 0
        for file, text in edited.items():
            before, after = bodies_of(self.text_of(file)), bodies_of(text)
            if len(before) != len(after):
                return f"it changes the number of functions in {file}"
            for (start, end), (other_start, other_end) in zip(before, after):
                is_changed = self.text_of(file)[start:end] != text[other_start:other_end]
                if is_changed and is_constant(text, other_start):
                    return "it changes a function that is a constant"
                changed += is_changed
        return "" if changed else "it changes no body"

    def add_bodies(self, number: int, file: str, text: str) -> None:
        """Adds the bodies of a file in which an edited text differs."""
        for (start, end), (other_start, other_end) in zip(bodies_of(self.text_of(file)),
                                                          bodies_of(text)):
            body = text[other_start:other_end]
            if self.text_of(file)[start:end] != body:
                self.bodies.setdefault((file, start, end), []).append((number, body))

    def text_with(self, file: str) -> str:
        """The text of a file with all its bodies."""
        text = self.text_of(file)
        places = sorted((key for key in self.bodies if key[0] == file), key=lambda place: -place[1])
        for _, start, end in places:
            others = "".join(f"if chosen_body({number}) {body} else "
                             for number, body in self.bodies[file, start, end])
            text = f"{text[:start]}{{\n{others}{text[start:end]}\n}}{text[end:]}"
        for (at, old), new in self.lines.items():
            text = text.replace(old, new) if at == file else text
        return text + (CHOICE if places else "")

    def write(self) -> None:
        """Writes the files with all bodies."""
        for file in {place[0] for place in self.bodies} | {file for file, _ in self.lines}:
            write(f"{self.checkout}/{file}", self.text_with(file))


def planting_of(checkout: str, entries: list[Entry]) -> Planting:
    """What there is to plant in a copy of the checkout, numbered from 1 on."""
    planting = Planting(checkout)
    for number, entry in enumerate(entries, 1):
        planting.add(number, entry)
    return planting


def with_choice(words: list[str], room: str) -> list[str]:
    """The words of a build, to which the choice of a body is linked too."""
    made = compiled_c("chosen_body", room)
    checked([f"{kit()}/toolchain/bin/llvm-ar", "rcs", f"{room}/chosen_body.a", made])
    at = words.index("--link")
    return [*words[:at], "--link", f"{room}/chosen_body.a", *words[at:]]


def name_at(checkout: str, names: list[str], said: str) -> str:
    """The name of the edit that the compiler does not take, by the first place that it tells."""
    for file, line in re.findall(r"^(\S+\.rt):(\d+):\d+: error", said, re.M):
        for path in (file, f"{checkout}/{file}"):
            if os.path.isfile(path):
                above = "\n".join(read(path).split("\n")[:int(line)])
                numbers = re.findall(r"\bchosen_body\((\d+)\)", above)
                return names[int(numbers[-1]) - 1] if numbers else ""
    return ""


def built(crate: str, listed: str, program: str, is_test: bool) -> Built:
    """Plants the edits that a file lists in a crate that was laid out, has the kit build and run
    it, its tests or its program for a moment, and leaves the program in a file."""
    name, checkout = os.path.basename(crate), os.path.dirname(os.path.dirname(crate))
    room, names = os.path.dirname(checkout), read(listed).split()
    entries = {entry.label: entry for entry in all_entries()}
    planting_of(checkout, [entries[name] for name in names]).write()
    try:
        made = compiled(crate, room,
                        with_choice(words_of_try(name, checkout, None if is_test else []), room))
    except Failure as why:
        named = name_at(checkout, names, str(why))
        raise Failure(f"with the wrong bodies, {named}: {why}") from None
    link(program, [*made.objects[-1:], f"{room}/chosen_body.o"])
    return made
