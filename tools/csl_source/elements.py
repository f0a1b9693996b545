"""The nodes of a layout or a macro (sulleqti.elements), as the steps that build their values."""
from typing import Any, Sequence

from csl_source import library
from csl_source.code import (ONE, STEPS, Call, Converted, Expression, Fields, Local, Step, Struct,
                             Vector, comment, function, over, quoted, size, snake, unique)
from sulleqti.attributes import FORMATTING, INHERITED, Sorts, Tree
from sulleqti.elements import TARGETS, TESTS
from sulleqti.names import SORTS

# What a part is, and the type of it that a function returns.
RESULTS = {"element": "LayoutRenderingElement", "child": "NamesChild", "branch": "ChooseBranch",
           "nodes": "Vec<LayoutRenderingElement>"}
# The letters of a function's name.
MOST_LETTERS = 40


def string(text: str) -> Call:
    """A text of its own."""
    return Call("String::from_str", "alloc", quoted(text), tail="?")


def some(value: Expression | None) -> Expression | None:
    """A value that a field may lack, or `None` if the field is not set."""
    return value if value is None or value == "None" else Call("Some", value)


def any_variable(name: str) -> str:
    """A variable, as a value of any sort of them."""
    return f"{library.variants(SORTS[name])[name]}.into()"


def value_of(sort: str, value: Any) -> Expression:
    """The expression of a value of JSON of this sort."""
    if isinstance(value, (bool, int)):
        return str(value).lower()
    return string(value) if sort == "text" else library.variants(sort)[value]


def given(tree: Tree, name: str, sort: str, default: str | None = None) -> Expression | None:
    """The value of a member, or `None` if it is absent or the default."""
    return None if tree.get(name, default) == default else value_of(sort, tree[name])


def fields_of(tree: Tree, sorts: Sorts) -> Fields:
    """The fields that may lack a value of those of these members that are there."""
    return [(name.replace("-", "_"), some(value_of(sort, tree[name])))
            for name, sort in sorts.items() if name in tree]


def flag(tree: Tree, name: str) -> str | None:
    """The value of a member that is true, or `None`."""
    return "true" if tree.get(name) else None


def defaults_but(name: str, fields: Fields) -> Struct | None:
    """A struct with these fields, and all others as by default, or `None` if no field is set."""
    return Struct(name, fields, f"{name}::default()") if fields else None


def formatting(tree: Tree) -> Expression | None:
    """The formatting, or `None`."""
    if [tree.get(name) for name in FORMATTING] == ["italic", None, None, None, None]:
        return "Formatting::italic()"
    return defaults_but("Formatting", fields_of(tree, FORMATTING))


def affixes(tree: Tree) -> Call | None:
    """The affixes, or `None`."""
    texts = [quoted(tree[name]) for name in ("prefix", "suffix") if name in tree]
    name = "around" if len(texts) == 2 else "before" if "prefix" in tree else "after"
    return Call(f"Affixes::{name}", "alloc", *texts, tail="?") if texts else None


def name_options(tree: Tree) -> Struct | None:
    """The options of names, or `None`."""
    names = {"name_form": "form", "name_delimiter": "delimiter"}
    fields = [(names.get(name, name), value) for name, value in fields_of(tree, INHERITED)]
    return defaults_but("InheritableNameOptions", fields)


class Part:
    """A value of a style: the steps that build it, the last of which sets its variable, and what it
    is."""

    def __init__(self, steps: Sequence[Step], kind: str) -> None:
        self.steps, self.local, self.kind = steps, steps[-1][0], kind

    def lines(self) -> int:
        """How many lines it takes."""
        return sum(map(size, self.steps))

    def value(self) -> Local | Converted:
        """What a list or a function holds of it."""
        return self.local.into() if self.kind in ("element", "child") else self.local


class Elements:
    """Writes nodes. What a function has no room for becomes a function of its own, in `functions`.
    `taken` has the names of functions (`code.unique`)."""

    def __init__(self, taken: dict[str, int], indent: int) -> None:
        self.taken, self.indent = taken, indent
        self.functions: list[list[str]] = []
        self.place, self.owner = "", ""

    def begin(self, place: str, owner: str) -> None:
        """Begins a macro or a layout: a name for its functions, and what their comments say of
        them."""
        self.place, self.owner = place, owner

    def function(self, name: str, about: str, result: str, steps: Sequence[Step],
                 value: Expression) -> str:
        """Writes a function, and returns a call of it."""
        name = unique(name[:MOST_LETTERS].strip("_"), self.taken)
        lines = function(name, result, steps, value, self.indent)
        self.functions.append([*comment(about, self.indent), *lines])
        return f"{name}(alloc)?"

    def outlined(self, part: Part) -> str:
        """A call of a new function that returns the part."""
        name = f"{self.place}_{part.local.base.strip('_')}"
        about, value = f"A part of {self.owner}.", Call("Ok", part.value())
        return self.function(name, about, RESULTS[part.kind], part.steps, value)

    def gathered(self, parts: Sequence[Part]) -> tuple[list[Step], list[Expression]]:
        """The steps of parts, and what a list of them holds."""
        sizes, most = [part.lines() for part in parts], STEPS if len(parts) > 1 else ONE
        items: list[Expression] = [part.value() for part in parts]
        calls: dict[int, str] = {}
        lines = sum(sizes)
        for place in sorted(range(len(parts)), key=lambda index: -sizes[index]):
            if lines <= most or sizes[place] <= 2:
                break
            calls[place], lines = self.outlined(parts[place]), lines - sizes[place]
        steps = [step for place, part in enumerate(parts) if place not in calls
                 for step in part.steps]
        return steps, [calls.get(place, item) for place, item in enumerate(items)]

    def listed(self, nodes: Sequence[Tree], base: str = "nodes") -> tuple[list[Step], Expression]:
        """The steps that build a list of nodes, and the list."""
        if not nodes:
            return [], "Vec::new(alloc)"
        steps, items = self.gathered([self.part(node) for node in nodes])
        local = Local(base)
        return [*steps, (local, Vector(items))], local

    def part(self, node: Tree, before: str = "") -> Part:
        """A node, or, with `names_` before its name, a child of names."""
        (name, tree), = node.items()
        return getattr(self, before + name.replace("-", "_"))(tree)

    def dressed(self, tree: Tree, made: Expression, fields: Fields, steps: Sequence[Step],
                word: str) -> Part:
        """A node with its formatting, affixes and display, after these steps, in a variable that is
        named after a word."""
        name = made.head.split("::")[0]
        fields = [*fields, ("formatting", formatting(tree)), ("affixes", affixes(tree)),
                  *fields_of(tree, {"display": "Display"})]
        return Part([*steps, (Local(word), over(name, fields, made))], "element")

    # ---- texts, numbers, labels and dates

    def text(self, tree: Tree) -> Part:
        """A text."""
        target = next(name for name in TARGETS if name in tree)
        word = snake("", "value") if target == "value" else snake(tree[target], "text")
        fields = [("quotes", flag(tree, "quotes")), ("strip_periods", flag(tree, "strip-periods"))]
        return self.dressed(tree, self.printed(target, tree), fields, [], word)

    def printed(self, target: str, tree: Tree) -> Call:
        """A text without its look."""
        if target in ("macro", "value"):
            call = "macro_call" if target == "macro" else target
            return Call(f"Text::{call}", "alloc", quoted(tree[target]), tail="?")
        if target == "variable":
            variable, form = any_variable(tree["variable"]), "LongShortForm::Short"
            fields = [("var", variable), ("form", form)]
            return Call("Text::variable", variable) if tree.get("form") != "short" \
                else Call("Text::new", Struct("TextTarget::Variable", fields))
        term = library.terms()[tree["term"]][0]
        form, plural = given(tree, "form", "TermForm", "long"), flag(tree, "plural")
        if form is None and plural is None:
            return Call("Text::term", term)
        fields = [("term", term), ("form", form or "TermForm::Long"), ("plural", plural or "false")]
        return Call("Text::new", Struct("TextTarget::Term", fields))

    def number(self, tree: Tree) -> Part:
        """A number."""
        made = Call("Number::new", any_variable(tree["variable"]))
        fields = [("form", given(tree, "form", "NumberForm", "numeric"))]
        return self.dressed(tree, made, fields, [], snake(tree["variable"], "number"))

    def label_fields(self, tree: Tree) -> Fields:
        """What a label has beside its variable."""
        fields = [("form", given(tree, "form", "TermForm", "long")),
                  ("plural", given(tree, "plural", "LabelPluralize", "contextual")),
                  ("formatting", formatting(tree)), ("affixes", affixes(tree)),
                  ("strip_periods", flag(tree, "strip-periods"))]
        return [(name, value) for name, value in fields if value is not None]

    def label(self, tree: Tree) -> Part:
        """A label of a number."""
        variable, fields = any_variable(tree["variable"]), self.label_fields(tree)
        made: Expression = Call("Label::new", variable)
        if fields == [("form", "TermForm::Short")]:
            made = Call("Label::short", variable)
        elif fields:
            inner = Struct("VariablelessLabel", fields, "VariablelessLabel::default()")
            made = Struct("Label", [("label", inner)], made)
        return Part([(Local(f"{snake(tree['variable'], 'number')}_label"), made)], "element")

    def date_part(self, tree: Tree) -> Step:
        """The step that builds a part of a date."""
        fields = [*fields_of(tree, {"form": "DateAnyForm"}), ("formatting", formatting(tree)),
                  ("affixes", affixes(tree)), ("strip_periods", flag(tree, "strip-periods"))]
        made = Call("DatePart::new", library.variants("DatePartName")[tree["name"]])
        return Local(tree["name"]), over("DatePart", fields, made)

    def date_parts(self, tree: Tree) -> tuple[list[Step], Expression]:
        """The steps that build the list of a date's parts, and the list."""
        if "date-part" not in tree:
            return [], "Vec::new(alloc)"
        steps = [self.date_part(part) for part in tree["date-part"]]
        parts = Local("parts")
        return [*steps, (parts, Vector([local for local, _ in steps]))], parts

    def date(self, tree: Tree) -> Part:
        """A date: of its own parts, or localized."""
        steps, parts = self.date_parts(tree)
        names = {"form": "form", "date_parts": "parts", "delimiter": "delimiter"}
        sorts = {"form": "DateForm", "date-parts": "DateParts", "delimiter": "text"}
        fields = [(names[name], value) for name, value in fields_of(tree, sorts)]
        made = Call("Date::new", library.variants("DateVariable")[tree["variable"]], parts)
        return self.dressed(tree, made, fields, steps, snake(tree["variable"], "date"))

    # ---- names

    def names_name(self, tree: Tree) -> Part:
        """How names are written: the child `name` of `names`."""
        steps = [self.name_part(part) for part in tree.get("name-part", ())]
        own = {f"name-{name}": tree[name] for name in ("form", "delimiter") if name in tree}
        fields: Fields = [("options", name_options({**tree, **own})),
                          ("formatting", formatting(tree)),
                          ("parts", Vector([local for local, _ in steps]) if steps else None)]
        return Part([*steps, (Local("name"), over("Name", fields, "Name::new(alloc)"))], "child")

    def name_part(self, tree: Tree) -> Step:
        """The step that builds the look of a part of names."""
        fields = [("name", library.variants("NamePartName")[tree["name"]]),
                  ("formatting", formatting(tree) or "Formatting::default()"),
                  ("affixes", affixes(tree) or "Affixes::default()")]
        return Local(tree["name"]), Struct("NamePart", fields)

    def names_et_al(self, tree: Tree) -> Part:
        """The child `et-al` of `names`."""
        term = "OtherTerm::AndOthers" if tree.get("term") == "and others" else None
        fields = [("term", term), ("formatting", formatting(tree))]
        return Part([(Local("et_al"), over("EtAl", fields, "EtAl::default()"))], "child")

    def names_label(self, tree: Tree) -> Part:
        """The child `label` of `names`."""
        made = over("VariablelessLabel", self.label_fields(tree), "VariablelessLabel::default()")
        return Part([(Local("label"), made)], "child")

    def names_substitute(self, nodes: Sequence[Tree]) -> Part:
        """The child `substitute` of `names`."""
        steps, items = self.listed(nodes, "instead")
        made = Struct("Substitute", [("children", items)])
        return Part([*steps, (Local("substitute"), made)], "child")

    def names(self, tree: Tree) -> Part:
        """Names."""
        steps, items = self.gathered([self.part(child, "names_") for child in tree["children"]])
        children, persons = Local("children"), Local("persons")
        if items:
            steps.append((children, Vector(items)))
        fields = [("children", children if items else None),
                  *fields_of(tree, {"delimiter": "text"})]
        known = library.variants("NameVariable")
        steps.append((persons, Vector([known[name] for name in tree["variable"]])))
        made = Call("Names::new", "alloc", persons)
        return self.dressed(tree, made, fields, steps, snake(tree["variable"][0], "names"))

    # ---- groups and choices

    def group(self, tree: Tree) -> Part:
        """A group."""
        steps, nodes = self.listed(tree["children"])
        made = Call("Group::new", nodes)
        if tree.get("delimiter"):
            made = Call("Group::delimited", "alloc", quoted(tree["delimiter"]), nodes, tail="?")
        return self.dressed(tree, made, [], steps, "group")

    def test(self, name: str, value: Any) -> Expression:
        """The value of a test of a branch."""
        if value is True:
            return "true"
        sort = TESTS[name].rstrip("*")
        return Vector([any_variable(word) if sort == "Variable" else library.variants(sort)[word]
                       for word in value])

    def branch(self, tree: Tree) -> Part:
        """A branch of a choice that has tests."""
        tests = [({"type": "type_"}.get(name, name.replace("-", "_")),
                  some(self.test(name, tree[name]))) for name in TESTS if name in tree]
        steps, nodes = self.listed(tree["children"])
        fields = [*tests, ("match_", given(tree, "match", "ChooseMatch", "all"))]
        made = over("ChooseBranch", fields, Call("ChooseBranch::new", nodes))
        return Part([*steps, (Local("branch"), made)], "branch")

    def otherwise(self, nodes: Sequence[Tree]) -> Part:
        """The branch `else` of a choice."""
        steps, items = self.listed(nodes, "otherwise")
        return Part(steps or [(Local("otherwise"), items)], "nodes")

    def choose(self, tree: Tree) -> Part:
        """A choice."""
        branches = [self.branch(branch) for branch in [tree["if"], *tree.get("else-if", ())]]
        rest = [self.otherwise(tree["else"])] if "else" in tree else []
        steps, items = self.gathered([*branches, *rest])
        others = items[1:len(branches)]
        fields = [("else_if", Vector(others) if others else None),
                  ("otherwise", Call("Some", items[-1]) if rest else None)]
        made = over("Choose", fields, Call("Choose::new", "alloc", items[0]))
        return Part([*steps, (Local("choice"), made)], "element")
