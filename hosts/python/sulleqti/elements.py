"""The elements of a layout or a macro, as nodes of JSON (docs/WIRE.md)."""
from __future__ import annotations

from typing import Any, Counter, Dict, List, NamedTuple, Sequence

from sulleqti.attributes import AFFIXES, NAME_OPTIONS, Attributes, Tree
from sulleqti.document import Node
from sulleqti.names import OTHER_SPELLINGS, TERMS

# The library writes the affixes of a node inside of the node's formatting.
INSIDE = "affixes outside of the formatting"
RENDERED = ("text", "number", "label", "date", "names", "choose", "group")
# What a text may print, with the attributes that go with it.
TARGETS = {"variable": {"variable": "TextVariable", "form": "LongShortForm"},
           "macro": {"macro": "text"},
           "term": {"term": "text", "form": "TermForm", "plural": "flag"},
           "value": {"value": "text"}}
# The variables that print as links. Their texts keep their case, as addresses do.
LINKS = ("DOI", "PMCID", "PMID", "URL")
TESTS = {"disambiguate": "true", "is-numeric": "Variable*", "is-uncertain-date": "DateVariable*",
         "locator": "Locator*", "position": "TestPosition*", "type": "Kind*",
         "variable": "Variable*"}


class Scope(NamedTuple):
    """Where an element is: the children that names around it hand down, and whether it is right in
    a substitute."""

    around: Sequence[Tree] = ()
    is_direct: bool = False


class Elements:
    """Reads elements. `left` counts what the library leaves out, `cases` the text cases, and
    `places` has the places of what is read, by its `id`."""

    def __init__(self, left: Counter[str]) -> None:
        self.left, self.cases = left, 0
        self.places: Dict[int, str] = {}

    def made(self, node: Node, value: Tree) -> Tree:
        """A value that is read from an element."""
        self.places[id(value)] = node.place
        return value

    def nodes(self, parent: Node, scope: Scope = Scope()) -> List[Tree]:
        """The nodes right inside of an element, without those that the library leaves out."""
        found = [self.node(child, scope) for child in parent]
        return [node for node in found if node is not None]

    def node(self, node: Node, scope: Scope) -> Tree | None:
        """An element, or `None` if the library leaves it out."""
        if node.name not in RENDERED:
            node.refuse(f"`{node.name}` is no element that prints")
        return getattr(self, node.name)(Attributes(node, self.left), scope)

    def dressed(self, given: Attributes, value: Tree, *inside: str,
                is_variable: bool = True) -> Tree:
        """A node with its formatting, affixes and display, in whose element there may be these
        others. In CSL its affixes are outside of its formatting, so they go to a group around a
        node that has both. (A group counts as a variable, so no group may be around a node that
        prints none.)"""
        is_split = given.is_split()
        value.update({**given.formatting(), **self.text_case(given)})
        outer = given.taken({**AFFIXES, "display": "Display"})
        given.end(inside)
        if is_split and is_variable:
            inner = {given.node.name: self.made(given.node, value)}
            return {"group": self.made(given.node, {**outer, "children": [inner]})}
        self.left[INSIDE] += is_split
        return {given.node.name: self.made(given.node, {**value, **outer})}

    def text_case(self, given: Attributes) -> Tree:
        """The text case."""
        found = given.text_case()
        self.cases += len(found)
        return found

    def look(self, given: Attributes) -> Tree:
        """The formatting and the affixes of what no group can be around."""
        self.left[INSIDE] += given.is_split()
        return {**given.formatting(), **given.taken(AFFIXES), **self.text_case(given)}

    # ---- texts, numbers, labels and dates

    def text(self, given: Attributes, _: Scope) -> Tree | None:
        """A text, or `None` if the library does not name its term."""
        targets = [target for target in TARGETS if target in given.rest]
        if len(targets) != 1:
            given.node.refuse("`text` needs one of the attributes `variable`, `macro`, `term`, "
                              "`value`")
        value = given.taken(TARGETS[targets[0]])
        if "term" in value:
            name = value["term"]
            if name not in TERMS:
                self.left[f"the term `{name}`"] += 1
                return None
            value["term"] = OTHER_SPELLINGS.get(name, name)
        value.update(given.taken({"quotes": "flag", "strip-periods": "flag"}))
        if value.get("variable") in LINKS:
            given.taken({"text-case": "case"})
        is_variable = value.get("variable", "year-suffix") != "year-suffix"
        return self.dressed(given, value, is_variable=is_variable)

    def number(self, given: Attributes, _: Scope) -> Tree:
        """A number."""
        sorts = {"variable": "NumericVariable", "form": "NumberForm"}
        return self.dressed(given, given.taken(sorts, "variable"))

    def label(self, given: Attributes, scope: Scope | None = None) -> Tree:
        """A label of a number, or, without a scope, of names."""
        sorts = {"form": "TermForm", "plural": "LabelPluralize", "strip-periods": "flag"}
        variable = {} if scope is None else given.taken({"variable": "NumericVariable"}, "variable")
        value = {**variable, **given.taken(sorts), **self.look(given)}
        given.end()
        return {"label": self.made(given.node, value)}

    def date_parts(self, node: Node) -> Tree:
        """The parts of a date, if it has any."""
        for child in node:
            if child.name != "date-part":
                child.refuse(f"`{child.name}` has no place in `date`")
        parts = [self.date_part(Attributes(child, self.left)) for child in node]
        return {"date-part": parts} if parts else {}

    def date_part(self, given: Attributes) -> Tree:
        """A part of a date."""
        value = given.taken({"name": "DatePartName"}, "name")
        value.update(given.taken({"form": value["name"], "strip-periods": "flag"}))
        value.update(self.look(given))
        given.leave_out("range-delimiter")
        given.end()
        return self.made(given.node, value)

    def date(self, given: Attributes, _: Scope) -> Tree:
        """A date: of its own parts, or localized."""
        value = given.taken({"variable": "DateVariable", "form": "DateForm",
                             "date-parts": "DateParts", "delimiter": "text"}, "variable")
        if "form" not in value and not len(given.node):
            given.node.refuse("`date` needs a form or parts")
        return self.dressed(given, {**value, **self.date_parts(given.node)}, "date-part")

    # ---- names

    def names(self, given: Attributes, scope: Scope) -> Tree:
        """Names. Without children they take those around them. The library does so itself only
        directly in a substitute."""
        value = given.taken({"variable": "NameVariable*", "delimiter": "text"}, "variable")
        node, inside = given.node, ("name", "et-al", "label", "substitute")
        read = {"name": self.name, "et-al": self.et_al, "label": self.label}
        for child in node:
            if child.name not in inside:
                child.refuse(f"`{child.name}` has no place in `names`")
        own = [(child, read[child.name](Attributes(child, self.left)) if child.name in read else {})
               for child in node]
        # (of each sort the first, since no other counts)
        first = {name: child for _, child in reversed(own) for name in child}
        handed = [child for _, child in own if any(first[name] is child for name in child)]
        children = [child or self.substitute(element, Scope(handed, is_direct=True))
                    for element, child in own]
        is_direct = scope.is_direct and not given.is_split()
        value["children"] = children or ([] if is_direct else list(scope.around))
        return self.dressed(given, value, *inside)

    def name(self, given: Attributes) -> Tree:
        """How names are written: the child `name` of `names`."""
        parts: Dict[str, Tree] = {}
        for child in given.node:
            if child.name != "name-part":
                child.refuse(f"`{child.name}` has no place in `name`")
            part = self.name_part(Attributes(child, self.left))
            if part["name"] in parts:
                child.refuse(f"the part `{part['name']}` of `name` is there twice")
            parts[part["name"]] = part
        self.left["affixes of `name`"] += bool(given.taken(AFFIXES))
        sorts = {"form": "NameForm", "delimiter": "text", **NAME_OPTIONS}
        value = {**given.taken(sorts), **given.formatting()}
        if parts:
            value["name-part"] = list(parts.values())
        given.end(("name-part",))
        return {"name": self.made(given.node, value)}

    def name_part(self, given: Attributes) -> Tree:
        """The look of a part of names."""
        value = {**given.taken({"name": "NamePartName"}, "name"), **self.look(given)}
        given.end()
        return self.made(given.node, value)

    def et_al(self, given: Attributes) -> Tree:
        """The child `et-al` of `names`."""
        value = {**given.taken({"term": "EtAlTerm"}), **given.formatting()}
        given.end()
        return {"et-al": self.made(given.node, value)}

    def substitute(self, node: Node, scope: Scope) -> Tree:
        """The child `substitute` of `names`."""
        Attributes(node, self.left).end(RENDERED)
        return {"substitute": self.nodes(node, scope)}

    # ---- groups and choices

    def group(self, given: Attributes, scope: Scope) -> Tree:
        """A group."""
        value = given.taken({"delimiter": "text"})
        value["children"] = self.nodes(given.node, Scope(scope.around))
        return self.dressed(given, value, *RENDERED)

    def branch(self, node: Node, around: Sequence[Tree]) -> Any:
        """A branch of a choice: the nodes of an `else`, or tests and nodes."""
        given, value = Attributes(node, self.left), {}
        if node.name != "else":
            value = given.taken(TESTS)
            if not value:
                node.refuse(f"`{node.name}` needs a test")
            value.update(given.taken({"match": "ChooseMatch"}))
        given.end(RENDERED)
        nodes = self.nodes(node, Scope(around))
        return nodes if node.name == "else" else self.made(node, {**value, "children": nodes})

    def choose(self, given: Attributes, scope: Scope) -> Tree:
        """A choice."""
        given.end(("if", "else-if", "else"))
        order = [child.name for child in given.node]
        middle = order[1:-1] if order[-1:] == ["else"] else order[1:]
        if order[:1] != ["if"] or set(middle) - {"else-if"}:
            given.node.refuse("`choose` needs an `if`, then any `else-if`, then at most one `else`")
        first, *rest = [self.branch(child, scope.around) for child in given.node]
        last = [rest.pop()] if order[-1] == "else" else []
        value = {"if": first, **({"else-if": rest} if rest else {}),
                 **({"else": last[0]} if last else {})}
        return {"choose": self.made(given.node, value)}
