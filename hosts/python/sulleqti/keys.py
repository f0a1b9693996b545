"""Keys of a sort that limit the names that they sort by (CSL 1.0.2, Sorting: names-min,
names-use-first, names-use-last). Such a key by a macro gets a macro of its own, with them."""
from __future__ import annotations

import copy
from typing import Any, Dict, Iterator, List, Set, Tuple

from sulleqti.attributes import Tree
from sulleqti.document import Refused
from sulleqti.elements import Elements

# The options of names that each attribute of a key overrides.
LIMITS = {"names-min": ("et-al-min", "et-al-subsequent-min"),
          "names-use-first": ("et-al-use-first", "et-al-subsequent-use-first"),
          "names-use-last": ("et-al-use-last",)}
# The most nodes that all copies of macros have. Those of published styles have 1,000.
MOST_COPIED = 10_000


def nodes_in(value: Any) -> Iterator[Tuple[str, Tree]]:
    """The objects in a value, each with the name of its member."""
    if isinstance(value, list):
        for part in value:
            yield from nodes_in(part)
    elif isinstance(value, dict):
        for name, part in value.items():
            if isinstance(part, dict):
                yield name, part
            yield from nodes_in(part)


def calls_in(macro: Tree) -> Iterator[Tree]:
    """The texts in a macro that call a macro."""
    return (text for name, text in nodes_in(macro) if name == "text" and "macro" in text)


def with_names(macros: Dict[str, Tree]) -> Set[str]:
    """The macros that write names, themselves or by those that they call."""
    calls = {name: {call["macro"] for call in calls_in(macro)} for name, macro in macros.items()}
    more = {name for name, macro in macros.items() if "names" in dict(nodes_in(macro))}
    found: Set[str] = set()
    while more:
        found |= more
        more = {name for name, called in calls.items() if called & found} - found
    return found


def limit(value: Any, limits: Tree, is_direct: bool = False) -> None:
    """Sets the limits of all names in a value. Names without children right in a substitute take
    those of the names around them."""
    if isinstance(value, list):
        for part in value:
            limit(part, limits, is_direct)
    elif isinstance(value, dict):
        for name, part in value.items():
            if name == "names" and (part["children"] or not is_direct):
                if not any("name" in child for child in part["children"]):
                    part["children"].insert(0, {"name": {}})
                next(child for child in part["children"] if "name" in child)["name"].update(limits)
            limit(part, limits, name == "substitute")


class KeyMacros:
    """The macros of a style, which gain copies for its keys."""

    def __init__(self, macros: List[Tree], elements: Elements) -> None:
        self.list, self.places, self.copied = macros, elements.places, 0
        self.macros = {macro["name"]: macro for macro in macros}
        self.named = with_names(self.macros)
        self.known: Dict[Tuple[str, str], str] = {}

    def copy_of(self, macro: Tree, name: str) -> Tree:
        """A copy of a macro, of another name, which is a macro of the style from now on."""
        made = copy.deepcopy(macro)
        pairs = [(macro, made), *((old, new) for (_, old), (_, new)
                                  in zip(nodes_in(macro), nodes_in(made)))]
        self.places.update({id(new): self.places.get(id(old), self.places[id(macro)])
                            for old, new in pairs})
        self.copied += len(pairs)
        if self.copied > MOST_COPIED:
            raise Refused(f"{self.places[id(macro)]}: the keys limit the names of too many macros")
        made["name"] = name
        self.list.append(made)
        self.macros[name] = made
        return made

    def new_name(self, name: str) -> str:
        """A name that no macro has."""
        count, made = 1, f"{name} sorted"
        while made in self.macros:
            count += 1
            made = f"{name} sorted {count}"
        return made

    def limited(self, first: str, limits: Tree) -> str:
        """The name of a copy of a macro with these limits, which calls such copies too. Keys with
        the same limits share it."""
        if (first, repr(limits)) not in self.known:
            names: Dict[str, str] = {}
            rest, copies = [first], []
            while rest:
                name = rest.pop()
                if name not in names and name in self.named:
                    names[name] = self.new_name(name)
                    copies.append(self.copy_of(self.macros[name], names[name]))
                    rest += [text["macro"] for text in calls_in(self.macros[name])]
            for made in copies:
                limit(made, limits)
                for call in calls_in(made):
                    call["macro"] = names.get(call["macro"], call["macro"])
            self.known[first, repr(limits)] = names.get(first, first)
        return self.known[first, repr(limits)]
