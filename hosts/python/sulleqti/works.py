"""Works as CSL-JSON has them, as values of JSON (docs/WIRE.md)."""
from __future__ import annotations

import dataclasses
import difflib
import json
import math
import re
from typing import Any, Counter, Dict, Iterable, Iterator, List, Sequence, Tuple, Union

from sulleqti.attributes import Tree
from sulleqti.document import RESERVED, Refused, content_of
from sulleqti.names import NAMES, SORTS

# The most bytes of a file, the most persons of a variable, the most faults that have a hint and a
# line of their own, and the most letters of a text in them.
MOST_BYTES, MOST_PERSONS, MOST_HINTS, MOST_LETTERS = 32_000_000, 10_000, 100, 60
# Older names of variables, and the variables of which one is the short form of another.
OLDER = {"shortTitle": "title-short", "journalAbbreviation": "container-title-short"}
SHORT = {"title": "title-short", "container-title": "container-title-short"}
# What says nothing of the work itself. The citation answers some of it, and `multi` has other
# languages.
PASSED_OVER = {"id", "type", "categories", "custom", "citation-number", "locator",
               "first-reference-note-number", "year-suffix", "multi"}
NAME_TEXTS = ("family", "given", "literal", "dropping-particle", "non-dropping-particle", "suffix")
PERSON = {*NAME_TEXTS, "comma-suffix", "static-ordering", "parse-names", "multi"}
DATE = {"date-parts", "season", "circa", "literal", "raw"}
SEASONS = ("spring", "summer", "autumn", "winter")
ISO = re.compile(r"(-?\d{1,6})(?:-(\d\d?)(?:-(\d\d?))?)?([?~%]?)(?:/.*)?")
MARKUP = re.compile(r"</?(?:i|b|sub|sup|sc|span)(?:\s[^<>]*)?>", re.IGNORECASE)
# What some programs write before a DOI. The library writes it itself, where a style wants it.
BEFORE_DOI = re.compile(r"^(?:https?://(?:dx\.)?doi\.org/|doi:) *", re.IGNORECASE)
SPACES = re.compile("[ \t\r\n]+")
CONTROL = re.compile("[\0-\x1f\x7f-\x9f\u2028\u2029]")
NO_CASE = re.compile(r"<span\s+class=[\"']nocase[\"']\s*>", re.IGNORECASE)
HALVES = re.compile("[\ud800-\udfff]")
# What is left out of items.
RANGES, ORDER, TAGS = "ranges of dates", "`static-ordering`", "markup in texts"
KEPT_CASE = "`nocase` in texts"
NO_LIST = 'no list of items, as [{"id": "a", "type": "book"}]'
PARTS = "no date: a year, a month and a day go here"


class Wrong(Exception):
    """What is wrong with a part of an item, which is left out."""


def refuse_constant(name: str) -> None:
    """Refuses what Python takes for a number of JSON, and JSON does not."""
    raise ValueError(f"`{name}` is no value")


DECODER = json.JSONDecoder(parse_constant=refuse_constant)


@dataclasses.dataclass
class Work:
    """A work: its place in a file, its `id`, and its value."""
    place: str
    id: str
    tree: Tree


def on_one_line(text: str) -> str:
    """A text on one line, without control characters, halves of characters and marks of cases."""
    return HALVES.sub("\ufffd", CONTROL.sub(" ", SPACES.sub(" ", RESERVED.sub("", text))))


def cleaned(text: str) -> str:
    """The same without spaces at its ends."""
    return on_one_line(text).strip(" ")


def named(text: str) -> str:
    """A text of an item as a fault shows it."""
    text = cleaned(text)
    return f"`{text if len(text) <= MOST_LETTERS else text[:MOST_LETTERS] + '..'}`"


def text_of(value: Any) -> str:
    """A text, or a number as a text."""
    if isinstance(value, bool) or not isinstance(value, (str, int, float)):
        raise Wrong("a text goes here")
    if isinstance(value, float) and math.isinf(value):
        raise Wrong("the number is too large")
    return cleaned(str(value))


def number_of(value: Any) -> int:
    """A whole number, or a text of one."""
    text = text_of(value)
    if not re.fullmatch(r"-?\d{1,6}", text) or not text.isascii():
        raise Wrong(f"no date: {named(text)} is no number")
    return int(text)


def days_of(year: int, month: int) -> int:
    """The days of a month, where each fourth year is a leap year."""
    return 30 if month in (4, 6, 9, 11) else 31 if month != 2 else 28 if year % 4 else 29


class Reader:
    """Reads works. `left` counts what is left out of them by rule. What is wrong with one is left
    out too, and is in `wrong`, each with the name of the variable."""

    def __init__(self, left: Counter[str]) -> None:
        self.left, self.hints, self.written = left, 0, ""
        self.wrong: List[Tuple[str, str]] = []

    def tell(self, why: object) -> None:
        """Tells what is wrong with a part of the variable."""
        self.wrong.append((self.written, f"{named(self.written)}: {why}"))

    def near(self, name: str, names: Iterable[str]) -> str:
        """A hint at the name that is like this one."""
        self.hints += 1
        is_short = self.hints <= MOST_HINTS and len(name) <= MOST_LETTERS
        found = difflib.get_close_matches(name, list(names), 1) if is_short else []
        return f" (is it `{found[0]}`?)" if found else ""

    def work(self, value: Any, place: str) -> Work | None:
        """A work, or `None` if an item is none."""
        self.wrong.clear()
        if not isinstance(value, dict):
            self.wrong.append(("", "an item has to be an object"))
            return None
        name, kind = value.get("id"), value.get("type")
        if isinstance(name, bool) or not isinstance(name, (str, int)) or not cleaned(str(name)):
            self.wrong.append(("id", "an item needs an `id`"))
            return None
        is_known = isinstance(kind, str) and kind in NAMES["Kind"]
        if not isinstance(kind, str):
            self.wrong.append(("type", "an item needs a `type`"))
        elif not is_known:
            near = self.near(kind, NAMES["Kind"])
            self.wrong.append(("type", f"the type {named(kind)} is unknown{near}"))
        name, variables = cleaned(str(name)), dict(self.variables(value))
        kinds = {"type": [kind]} if is_known else {}
        language = variables.get("language")
        english = {"english": language.lower().startswith("en")} if language else {}
        return Work(place, name, {**kinds, "key": name, **english, "variables": variables})

    def variables(self, item: Dict[str, Any]) -> Iterator[Tuple[str, Any]]:
        """The variables of an item."""
        given = {OLDER.get(name, name): (name, value) for name, value in item.items()
                 if value not in (None, "")}
        for name, (self.written, value) in given.items():
            if name not in PASSED_OVER:
                try:
                    found = self.value(name, value, given)
                    if found != []:
                        yield name, found
                except Wrong as why:
                    self.tell(why)
        if "page" in given and "page-first" not in given:
            pages = cleaned(str(given["page"][1]))
            yield "page-first", re.split("[-\N{EN DASH},& ]", pages, maxsplit=1)[0]

    def value(self, name: str, value: Any, given: Dict[str, Tuple[str, Any]]) -> Any:
        """The value of a variable."""
        sort = SORTS.get(name)
        if sort is None:
            raise Wrong(f"the variable is unknown{self.near(name, [*SORTS, *OLDER])}")
        if sort == "NameVariable":
            return self.persons(value)
        if sort == "DateVariable":
            return self.date(value)
        if sort == "StandardVariable":
            short = given.get(SHORT.get(name, ""))
            forms = {"short": self.plain(short[1])} if short else {}
            text = self.plain(value)
            text = BEFORE_DOI.sub("", text, count=1) if name == "DOI" else text
            return {"long": text, **forms} if short else text
        text = text_of(value)
        if sort == "NumberVariable":
            text = re.sub(r"(?<=\d)\s*\N{EN DASH}\s*(?=\d)", "-", text)
        return text

    def plain(self, value: Any) -> str:
        """A text without the markup that some programs put into it."""
        text = text_of(value)
        found = MARKUP.sub("", text)
        is_cased = NO_CASE.search(text) is not None
        self.left[KEPT_CASE] += is_cased
        self.left[TAGS] += found != text and not is_cased
        return found

    def persons(self, value: Any) -> List[Tree]:
        """The persons of a variable."""
        if not isinstance(value, list):
            raise Wrong("a list of names goes here")
        if len(value) > MOST_PERSONS:
            raise Wrong(f"more than {MOST_PERSONS} names")
        found = []
        for person in value:
            try:
                found.append(self.person(person))
            except Wrong as why:
                self.tell(why)
        return found

    def tell_unknown(self, value: Tree, known: Iterable[str], why: str) -> None:
        """Tells each member that is not known."""
        for name in value:
            if name not in known:
                self.tell(f"{named(name)} {why}{self.near(name, known)}")

    def person(self, value: Any) -> Tree:
        """A person, or an institution. A particle that stays with the family name is the beginning
        of that name."""
        if not isinstance(value, dict):
            raise Wrong('a name has to be an object, as {"family": "Kwan", "given": "Kevin"}')
        self.tell_unknown(value, PERSON, "is no part of a name")
        parts = {key: text_of(value[key]) for key in NAME_TEXTS if value.get(key) not in (None, "")}
        if "literal" in parts:
            return {"family": parts["literal"]}
        family, given = parts.get("family"), parts.get("given")
        if not family:
            family, given = given, None
        if not family:
            raise Wrong("a name without `family`, `given` and `literal`")
        particle = parts.get("non-dropping-particle")
        if particle:
            is_joined = particle[-1] in "'\N{RIGHT SINGLE QUOTATION MARK}-"
            family = particle + ("" if is_joined else " ") + family
        self.left[ORDER] += bool(value.get("static-ordering"))
        found = {"family": family, "given": given, "prefix": parts.get("dropping-particle"),
                 "suffix": parts.get("suffix")}
        if found["suffix"] and value.get("comma-suffix"):
            found["comma-suffix"] = True
        return {name: part for name, part in found.items() if part}

    def date(self, value: Any) -> Tree:
        """A date. Of a range it is the first."""
        if isinstance(value, str):
            value = {"raw": value}
        if not isinstance(value, dict):
            raise Wrong("no date: an object goes here, as {\"date-parts\": [[2014, 5]]}")
        self.tell_unknown(value, DATE, "is no part of a date")
        words, is_circa = self.parts(value)
        season = None
        try:
            season = self.season(value, words)
        except Wrong as why:
            self.tell(why)
        is_circa = is_circa or value.get("circa") not in (None, False, "", 0)
        return {**dict(zip(("year", "month", "day"), words)),
                **({"season": season} if season else {}), **({"circa": True} if is_circa else {})}

    def parts(self, value: Dict[str, Any]) -> Tuple[List[int], bool]:
        """The year, the month and the day of a date, and whether it says that it is about then."""
        if value.get("date-parts") is not None:
            return self.numbers(value["date-parts"]), False
        text = text_of(value.get("raw") or value.get("literal") or "")
        found = ISO.fullmatch(text)
        if found is None:
            in_words = f"{named(text)} is in words; in numbers it is as [[2014, 5, 2]]"
            raise Wrong(f"no date: {in_words if text else 'it is empty'}")
        self.left[RANGES] += "/" in text
        words = [int(part) for part in found.groups()[:3] if part]
        self.check(words)
        return words, bool(found[4])

    def numbers(self, value: Any) -> List[int]:
        """The parts of the first date of a list."""
        if not isinstance(value, list) or not value or not all(isinstance(date, list) for date in
                                                               value):
            raise Wrong("no date: `date-parts` is a list of lists, as [[2014, 5, 2]]")
        self.left[RANGES] += len(value) > 1
        parts = list(value[0])
        while parts and parts[-1] in (None, ""):
            del parts[-1]
        if any(part in (None, "") for part in parts):
            raise Wrong(PARTS)
        words = [number_of(part) for part in parts]
        if words[:1] == [0]:
            raise Wrong("no date: there is no year 0")
        # (44 BC is -44 here, and -43 in the library, which has a year 0)
        words[:1] = [year + (year < 0) for year in words[:1]]
        self.check(words)
        return words

    def check(self, words: List[int]) -> None:
        """Refuses what is no date. A month from 13 on is a season."""
        if not 1 <= len(words) <= 3:
            raise Wrong(PARTS)
        if len(words) > 1 and words[1] not in (*range(1, 17), *range(21, 25)):
            raise Wrong(f"no date: the month is {words[1]}")
        if len(words) > 2 and not 1 <= words[2] <= days_of(*words[:2]):
            raise Wrong(f"no date: the day is {words[2]}")

    def season(self, value: Tree, words: List[int]) -> str | None:
        """The season, or `None`. A month that is one is taken from the words."""
        number = value.get("season")
        if len(words) > 1 and words[1] > 12:
            number = words[1] - (12 if words[1] < 20 else 20)
            del words[1:]
        if number in (None, ""):
            return None
        text = text_of(number).lower()
        text = {"fall": "autumn"}.get(text, text)
        if text not in SEASONS and text not in ("1", "2", "3", "4"):
            raise Wrong(f"the season {named(text)} is unknown")
        return text if text in SEASONS else SEASONS[int(text) - 1]


class WorksFile:
    """A file of items: what it holds, and the line of each place in it."""

    def __init__(self, path: str) -> None:
        self.path = path
        content = content_of(path, MOST_BYTES, "more than 32 MB: take fewer items")
        try:
            self.text = content.decode("utf-8-sig")
        except UnicodeDecodeError as why:
            raise Refused(f"{path}:{content[:why.start].count(10) + 1}: no UTF-8") from None
        # (a place whose line is known, from which the next is counted)
        self.known, self.line = 0, 1

    def place(self, at: int) -> str:
        """The file and the line of a place. Places are asked for in their order."""
        self.line += self.text.count("\n", self.known, at)
        self.known = at
        return f"{self.path}:{self.line}"

    def place_of(self, name: str, at: int, end: int) -> str:
        """The file and the line of a variable of the item between two places, or else of the
        item."""
        found = self.text.find(f'"{name}"', at, end)
        while found >= 0:
            after = self.skip(found + len(name) + 2)
            if self.text[after:after + 1] == ":":
                return f"{self.path}:{self.line + self.text.count(chr(10), at, found)}"
            found = self.text.find(f'"{name}"', after, end)
        return f"{self.path}:{self.line}"

    def skip(self, at: int) -> int:
        """The place of the next character that is no white space."""
        return re.compile(r"[ \t\r\n]*").match(self.text, at).end()

    def value(self, at: int) -> Tuple[Any, int]:
        """The value of JSON at a place, and the place after it."""
        try:
            return DECODER.raw_decode(self.text, at)
        except json.JSONDecodeError as why:
            raise Refused(f"{self.path}:{why.lineno}: no JSON: {why.msg}") from None
        except (ValueError, RecursionError) as why:
            reason = "it is nested too deep" if isinstance(why, RecursionError) else str(why)
            raise Refused(f"{self.place(at)}: no JSON: {reason}") from None

    def members(self, at: int) -> Iterator[Tuple[str, int]]:
        """The members of the object at a place, which is whole: each name, with the place of the
        value."""
        at = self.skip(at + 1)
        while self.text[at:at + 1] != "}":
            name, at = self.value(at)
            at = self.skip(self.skip(at) + 1)
            yield name, at
            at = self.skip(self.value(at)[1])
            if self.text[at:at + 1] == ",":
                at = self.skip(at + 1)

    def list_at(self) -> int:
        """The place of the list of items: the file, or the list `items` or `references` of an
        object."""
        at = self.skip(0)
        if self.text[at:at + 1] != "{":
            return at
        members = dict(self.members(at))
        for name in ("items", "references"):
            if name in members and self.text[members[name]] == "[":
                return members[name]
        return at

    def values(self) -> Iterator[Tuple[int, int, Any]]:
        """The values of the list, each with the places where it begins and ends. An object may be
        the only one."""
        at = self.list_at()
        if self.text[at:at + 1] != "[":
            value, end = self.value(at)
            if not isinstance(value, dict) or not {"id", "type"} & value.keys():
                raise Refused(f"{self.place(at)}: {NO_LIST}")
            yield at, end, value
            return
        at = self.skip(at + 1)
        while self.text[at:at + 1] != "]":
            value, end = self.value(at)
            yield at, end, value
            at = self.skip(end)
            mark = self.text[at:at + 1]
            if mark == ",":
                at = self.skip(at + 1)
            elif mark != "]":
                raise Refused(f"{self.place(at)}: no JSON: a `,` or a `]` goes here")
        end = self.skip(at + 1)
        if self.text[:1] == "[" and end < len(self.text):
            raise Refused(f"{self.place(end)}: no JSON: nothing goes after the list")


class WorksGiven:
    """Items that a program has, which are called by their places among them."""

    def __init__(self, items: Sequence[Any]) -> None:
        self.items = items

    def values(self) -> Iterator[Tuple[int, int, Any]]:
        """The items, each with its place."""
        yield from ((place, place, item) for place, item in enumerate(self.items, 1))

    def place(self, at: int) -> str:
        """How an item is called."""
        return f"item {at}"

    def place_of(self, _: str, at: int, __: int) -> str:
        """The same of a variable of it."""
        return self.place(at)


def works_of(items: Union[str, Sequence[Any]], left: Counter[str]) -> Tuple[List[Work], List[str]]:
    """The works of the file of this path, or of a list of items, and a line for each thing that is
    wrong, with its place. What is wrong is left out. Of items of one `id` the first counts."""
    source = WorksFile(items) if isinstance(items, str) else WorksGiven(items)
    reader = Reader(left)
    found: Dict[str, Work] = {}
    faults: List[str] = []
    try:
        for at, end, value in source.values():
            place = source.place(at)
            work = reader.work(value, place)
            if work and found.setdefault(work.id, work) is not work:
                reader.wrong[:] = [("id", f"an item of this `id` is there already: "
                                          f"{found[work.id].place}")]
            for name, why in reader.wrong:
                where = source.place_of(name, at, end) if len(faults) < MOST_HINTS else place
                owner = f"{work.id[:MOST_LETTERS]}: " if work else ""
                faults.append(f"{where}: {owner}{why}")
    except Refused as why:
        faults.append(str(why))
    return list(found.values()), faults
