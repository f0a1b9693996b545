"""Rust code as the formatter of `rt fmt` lays it out. An expression is a text, a `Local`, or one of
the other classes here."""
import textwrap
import unicodedata
from typing import Sequence, TypeVar, Union

# The formatter's limits: a line, the arguments of a call, the items of a list, the fields of a
# struct.
LINE, ARGUMENTS, ITEMS, FIELDS = 100, 60, 59, 18
# Rather than more lines than this for several parts, or for one, a function calls others.
STEPS, ONE = 26, 34
# A space at which no line of a comment ends.
NO_BREAK = "\N{NO-BREAK SPACE}"
KEYWORDS = set(
    "abstract alloc as async await become box break const continue crate data do dyn else ensures "
    "enum extern false final fn for gen ghost if impl in invariant let loop macro match mod move "
    "mut open override priv prove pub record ref requires return ruleset self static struct super "
    "syntax trait true try type typeof union unsafe unsized use virtual where while yield".split())

Expression = Union[str, "Local", "Converted", "Call", "Struct", "Vector", "Row"]
# A local variable, and what it is set to.
Step = tuple["Local", Expression]
# Fields of a struct by their names. One that is `None` is not set.
Fields = Sequence[tuple[str, Expression | None]]
# What a struct takes its other fields from.
Base = TypeVar("Base", bound=Expression | None)


def quoted(text: str) -> str:
    """A literal of a text. What has no shape of its own, such as a no-break space, is written by
    its number."""
    escapes = {"\\": r"\\", '"': r"\"", "\n": r"\n", "\r": r"\r", "\t": r"\t"}

    def escaped(character: str) -> str:
        """A character as it stands in a literal."""
        is_plain = character == " " or unicodedata.category(character)[0] not in "CZ"
        by_itself = character if is_plain else f"\\u{{{ord(character):x}}}"
        return escapes.get(character, by_itself)

    return f'"{"".join(map(escaped, text))}"'


def comment(text: str, indent: int, mark: str = "///") -> list[str]:
    """The lines of a comment."""
    begin = f"{' ' * indent}{mark} "
    lines = textwrap.wrap(text, LINE, break_on_hyphens=False, break_long_words=False,
                          initial_indent=begin, subsequent_indent=begin)
    return [line.replace(NO_BREAK, " ") for line in lines]


def snake(text: str, instead: str) -> str:
    """A text as a name of a variable or a function. `instead` is the name of a text without
    letters."""
    plain = "".join(char if char.isascii() and char.isalnum() else " " for char in text.lower())
    name = "_".join(plain.split())[:30].strip("_")
    name = name if name[:1].isalpha() else f"{instead}_{name}" if name else instead
    return name + "_" if name in KEYWORDS else name


def unique(base: str, taken: dict[str, int]) -> str:
    """A name that is not taken, and is from now on. `taken` has the names, each with the number
    that is tried next where it is wanted again."""
    name, count = base, taken.get(base, 2)
    while name in taken:
        name, count = f"{base.strip('_')}_{count}", count + 1
    taken[base] = count
    taken.setdefault(name, 2)
    return name


def flat(value: Expression) -> str | None:
    """An expression on one line, or `None` if it never is."""
    return value if isinstance(value, str) else value.flat()


def joined(items: Sequence[Expression], most: int) -> str | None:
    """Items on one line of so many characters at most, or `None`."""
    texts = []
    for item in items:
        text = flat(item)
        if text is None:
            return None
        texts.append(text)
    line = ", ".join(texts)
    return line if len(line) <= most else None


def lines_of(before: str, value: Expression, after: str, indent: int) -> list[str]:
    """The lines of an expression, between what stands before and after it."""
    space = " " * indent
    if isinstance(value, (Local, Converted)):
        value = value.flat()
    if isinstance(value, str):
        return [space + before + value + after]
    text = value.flat()
    if text is not None and len(space + before + text + after) <= LINE:
        return [space + before + text + after]
    return value.lines(before, after, indent)


def many(items: Sequence[Expression], indent: int) -> list[str]:
    """The lines of the items of a list, each on lines of its own."""
    return [line for item in items for line in lines_of("", item, ",", indent + 4)]


class Local:
    """A local variable. Its function gives it a name."""

    def __init__(self, base: str) -> None:
        self.name, self.base = base, base

    def flat(self) -> str:
        """The name."""
        return self.name

    def into(self) -> "Converted":
        """The variable, converted."""
        return Converted(self)


class Converted:
    """A local variable, converted."""

    def __init__(self, local: Local) -> None:
        self.local = local

    def flat(self) -> str:
        """The conversion on one line."""
        return f"{self.local.name}.into()"


class Call:
    """A call of a function, and what stands right after it."""

    def __init__(self, head: str, *arguments: Expression, tail: str = "", ends: str = "()") -> None:
        self.head, self.arguments = head, arguments
        self.begin, self.end = head + ends[0], ends[1] + tail

    def flat(self) -> str | None:
        """The call on one line, or `None`."""
        text = joined(self.arguments, ARGUMENTS)
        return None if text is None else f"{self.begin}{text}{self.end}"

    def lines(self, before: str, after: str, indent: int) -> list[str]:
        """The lines of the call. An only argument of several lines begins on the first."""
        space, begin, end = " " * indent, before + self.begin, self.end + after
        if len(self.arguments) == 1 and isinstance(self.arguments[0], (Call, Struct, Vector)):
            return lines_of(begin, self.arguments[0], end, indent)
        return [f"{space}{begin}", *many(self.arguments, indent), f"{space}{end}"]


class Struct:
    """A value of a struct: some fields, and all others from `base`."""

    def __init__(self, name: str, fields: Sequence[tuple[str, Expression]],
                 base: Expression | None = None) -> None:
        self.name, self.fields, self.base = name, fields, base

    def shown(self) -> list[tuple[str, Expression]]:
        """The values of the fields, and the base, each with what stands before it."""
        # (a field of a variable with its name)
        shown = [(f"{name}: " if name != flat(value) else "", value) for name, value in self.fields]
        return shown if self.base is None else [*shown, ("..", self.base)]

    def flat(self) -> str | None:
        """The value on one line, or `None`."""
        texts = []
        for before, value in self.shown():
            text = flat(value)
            if text is None:
                return None
            texts.append(before + text)
        line = ", ".join(texts)
        return f"{self.name} {{ {line} }}" if len(line) <= FIELDS else None

    def lines(self, before: str, after: str, indent: int) -> list[str]:
        """The lines of the value, each field on lines of its own."""
        space = " " * indent
        found = [f"{space}{before}{self.name} {{"]
        for head, value in self.shown():
            found += lines_of(head, value, "" if head == ".." else ",", indent + 4)
        return [*found, f"{space}}}{after}"]


class Vector:
    """A new list."""

    def __init__(self, items: Sequence[Expression]) -> None:
        self.items = items

    def flat(self) -> str | None:
        """The list on one line, or `None`."""
        if not self.items:
            return "Vec::new(alloc)"
        text = joined(self.items, ITEMS)
        return None if text is None else f"vec![in alloc; {text}]?"

    def lines(self, before: str, after: str, indent: int) -> list[str]:
        """The lines of the list, each item on lines of its own."""
        space = " " * indent
        return [f"{space}{before}vec![in alloc;", *many(self.items, indent), f"{space}]?{after}"]


class Row(Call):
    """A tuple, or a table of tuples."""

    def __init__(self, items: Sequence[Expression], ends: str = "()") -> None:
        super().__init__("", *items, ends=ends)


def over(name: str, fields: Fields, base: Base) -> Struct | Base:
    """A struct over a base, or the base alone if no field is set."""
    given = [(field, value) for field, value in fields if value is not None]
    return Struct(name, given, base) if given else base


def size(step: Step) -> int:
    """How many lines a step takes."""
    return len(lines_of("let it = ", step[1], ";", 4))


def function(name: str, result: str, steps: Sequence[Step], value: Expression,
             indent: int = 0) -> list[str]:
    """The lines of a function: each step sets a local variable."""
    space, ends = " " * indent, f") -> Result<{result}, Error> {{"
    found = [f"{space}fn {name}(alloc: Global{ends}"]
    if len(found[0]) > LINE:
        found = [f"{space}fn {name}(", f"{space}    alloc: Global,", f"{space}{ends}"]
    taken: dict[str, int] = {}
    for local, made in steps:
        local.name = unique(local.base, taken)
        found += lines_of(f"let {local.name} = ", made, ";", indent + 4)
    return [*found, *lines_of("", value, "", indent + 4), f"{space}}}"]
