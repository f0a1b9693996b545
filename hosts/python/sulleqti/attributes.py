"""The attributes of an element, each read once, as a value of JSON (docs/WIRE.md)."""
from __future__ import annotations

import collections
from typing import Any, Counter, Dict, Mapping, Tuple

from sulleqti.document import Node
from sulleqti.names import CALLED, NAMES

# A value of JSON with members.
Tree = Dict[str, Any]
# Attributes by their sorts: a `text`; an `affix`, absent if it is empty; a `flag`, which is
# true or false; a `number`; or the names that it may have, in a list of words if a `*` follows.
Sorts = Mapping[str, str]
FORMATTING = {"font-style": "FontStyle", "font-variant": "FontVariant",
              "font-weight": "FontWeight", "text-decoration": "TextDecoration",
              "vertical-align": "VerticalAlign"}
# The elements that have a text case.
CASED = ("text", "number", "label", "date-part", "name-part")
AFFIXES = {"prefix": "affix", "suffix": "affix"}
# The options of names, of a style or a layout. Those of `name` have other names for two of them.
INHERITED = {
    "and": "NameAnd", "name-delimiter": "text", "delimiter-precedes-et-al": "DelimiterBehavior",
    "delimiter-precedes-last": "DelimiterBehavior", "et-al-min": "number",
    "et-al-use-first": "number", "et-al-subsequent-min": "number",
    "et-al-subsequent-use-first": "number", "et-al-use-last": "flag", "name-form": "NameForm",
    "initialize": "flag", "initialize-with": "text", "name-as-sort-order": "NameAsSortOrder",
    "sort-separator": "text", "names-delimiter": "text"}
NAME_OPTIONS = {name: sort for name, sort in INHERITED.items()
                if name not in ("name-form", "name-delimiter", "names-delimiter")}


class Attributes:
    """The attributes of an element that are still to be read. `left` counts what the library leaves
    out."""

    def __init__(self, node: Node, left: Counter[str] | None = None) -> None:
        self.node, self.rest = node, dict(node.attrib)
        self.left = collections.Counter() if left is None else left

    def needed(self, name: str) -> str:
        """The text of an attribute that the element must have. It is still to be read."""
        if name not in self.rest:
            self.node.refuse(f"`{self.node.name}` needs the attribute `{name}`")
        return self.rest[name]

    def is_split(self) -> bool:
        """Whether the element has both formatting and affixes."""
        has_affixes = any(self.rest.get(name) for name in AFFIXES)
        return has_affixes and any(name in self.rest for name in FORMATTING)

    def taken(self, sorts: Sorts, needed: str | None = None) -> Tree:
        """Those of these attributes that the element has. It must have the needed one."""
        if needed:
            self.needed(needed)
        given = {name: self.rest.pop(name) for name in sorts if name in self.rest}
        return {name: self.value(name, sorts[name], text) for name, text in given.items()
                if text or sorts[name] != "affix"}

    def value(self, name: str, sort: str, text: str) -> Any:
        """The value of an attribute of this sort."""
        if sort in ("text", "affix"):
            return text
        if sort == "number":
            text = text.strip()
            if not (text.isascii() and text.isdigit() and len(text) < 10):
                self.node.refuse(f"`{name}` is no number: `{text}`")
            return int(text)
        words = text.split() if sort[-1] == "*" else [text]
        if not words:
            self.node.refuse(f"`{name}` is empty")
        for word in words:
            if word not in NAMES[sort.rstrip("*")]:
                what = CALLED.get(sort.rstrip("*"))
                why = f"the {what} `{word}`" if what else f"the value `{word}` of `{name}`"
                self.node.refuse(f"{why} is unknown")
        return words if sort[-1] == "*" else text == "true" if sort in ("flag", "true") else text

    def leave_out(self, *names: str) -> None:
        """Counts attributes that the library leaves out."""
        for name in names:
            self.left[f"`{name}`"] += self.rest.pop(name, None) is not None

    def formatting(self) -> Tree:
        """The formatting."""
        if self.rest.get("font-style") == "oblique":
            self.rest["font-style"] = "italic"
            self.left["`font-style` oblique (written as italic)"] += 1
        return self.taken(FORMATTING)

    def text_case(self) -> Tree:
        """The text case. It is left out of an element that prints more than one text."""
        found = self.taken({"text-case": "case"})
        if self.node.name in CASED:
            return found
        self.left[f"`text-case` of `{self.node.name}`"] += len(found)
        return {}

    def end(self, children: Tuple[str, ...] = ()) -> None:
        """Refuses any other attribute, and each child but these."""
        for name in self.rest:
            self.node.refuse(f"the attribute `{name}` of `{self.node.name}` is unknown")
        for child in self.node:
            if child.name not in children:
                child.refuse(f"`{child.name}` has no place in `{self.node.name}`")
