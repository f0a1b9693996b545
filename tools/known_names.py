"""The names that documents may cite: those of the sources, of definitions, lemmas and edits."""
import glob
import os
import re

import specs
from kit import TOP, read, uses_of_crates
from sources import Item, modules_of, owner_of
from wrong_bodies import all_entries

# Names of Rust and of std that stand in the repository for nothing of its own.
STANDARD = {"Ok", "Err", "None", "Some", "impl", "std", "ensures", "requires", "ghost", "true",
            "false", "Copy", "Clone", "Debug", "Display", "Default", "Drop", "Eq", "Hash", "Ord"}
# The members of a type, or the clauses of a function.
Members = dict[str, set[str]]


class Names:
    """All names: the members of each type, the clauses of each function by its last name, and the
    names of everything."""

    def __init__(self) -> None:
        self.members: Members = {}
        self.clauses: Members = {}
        self.every: set[str] = {*STANDARD, *uses_of_crates()}
        for crate in uses_of_crates():
            for module in modules_of(crate):
                self.every.update(module.path)
                for item in module.items:
                    self.add(item)
            self.add_proofs(crate)
        self.every.update(entry.name for entry in all_entries())
        for at, module in specs.modules_of(specs.crates_of_specs()).items():
            self.every.update([at.rpartition(".")[2], *module.blocks, *module.constructors])

    def add(self, item: Item) -> None:
        """Adds an item with its members."""
        trait, owner = owner_of(item)
        if item.kind == "impl":
            self.members.setdefault(owner, set()).update(self.members.get(trait, set()), [trait])
        if item.kind == "fn":
            self.add_function(item)
        elif item.kind in ("struct", "enum", "trait", "impl"):
            for member in item.members():
                self.members.setdefault(owner, set()).add(member.name)
                self.every.add(member.name)
                if member.kind == "fn":
                    self.add_function(member)
        self.every.update([item.name, owner])

    def add_function(self, item: Item) -> None:
        """Adds the names of a function's clauses and parameters."""
        named = {name for _, name, _ in item.clauses()}
        self.clauses.setdefault(item.name, set()).update(named)
        self.every.update(named, re.findall(r"(\w+):(?!:)", item.head()))

    def add_proofs(self, crate: str) -> None:
        """Adds the lemmas of a crate."""
        for file in glob.glob(f"{TOP}/crates/{crate}/proofs/**/*.antt", recursive=True):
            found = re.findall(rf"^(?:abbrev )?pub ({specs.WORD}) ", read(file), re.M)
            self.every.update([os.path.basename(file)[:-5], *found])

    def lacks_path(self, path: str) -> bool:
        """Whether a path such as `Type::name` leads to nothing. Of what is no type of the
        repository only the last name is looked up."""
        *_, owner, name = path.split("::")
        if owner in self.members:
            return name not in self.members[owner]
        return name not in self.every

    def is_of_call(self, name: str) -> bool:
        """Whether a name is that of a call, or of a type whose calls are meant."""
        return name in self.clauses or name in self.members or "::" in name

    def lacks_clause(self, calls: list[str], clause: str) -> bool:
        """Whether none of these calls has a clause of this name. Of calls that are no functions,
        as types, nothing can be told."""
        functions = [end for end in (call.split("::")[-1] for call in calls) if end in self.clauses]
        return bool(functions) and not any(clause in self.clauses[name] for name in functions)
