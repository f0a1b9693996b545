"""The notation of tests/rows as JSON of docs/WIRE.md: styles, entries, cites and documents."""
import re
from typing import Any, Iterable, Iterator, NamedTuple

Json = Any


class NotInWire(Exception):
    """The notation has this, and JSON has not, as the state before a cite."""


class Form(NamedTuple):
    """A form: a word, a text, an attribute `name=value`, or a list `(name form*)`."""
    kind: str
    name: str
    inside: Any = None


LISTS = {"is-numeric", "is-uncertain-date", "locator", "position", "type", "variable"}
NUMBERS = {"et-al-min", "et-al-use-first", "et-al-subsequent-min", "et-al-subsequent-use-first",
           "citation-number", "first-reference-note-number", "near-note-distance", "line-spacing",
           "entry-spacing", "note"}
BOOLEANS = {"et-al-use-last", "initialize", "quotes", "strip-periods", "disambiguate",
            "initialize-with-hyphen", "punctuation-in-quote", "limit-day-ordinals-to-day-1",
            "near-note", "circa", "comma-suffix", "english", "hidden", "hanging-indent",
            "disambiguate-add-names", "disambiguate-add-givenname", "disambiguate-add-year-suffix"}
OPTIONS_OF_NAMES = {"and", "delimiter-precedes-et-al", "delimiter-precedes-last", "et-al-min",
                    "et-al-use-first", "et-al-subsequent-min", "et-al-subsequent-use-first",
                    "et-al-use-last", "initialize", "initialize-with", "name-as-sort-order",
                    "sort-separator", "name-form", "name-delimiter", "names-delimiter"}
# What a style has of a locale of its own.
OF_LOCALE = ("punctuation-in-quote", "limit-day-ordinals-to-day-1")
PERSON = {"family", "given", "prefix", "suffix", "comma-suffix"}


def lines_of(text: str) -> Iterator[str]:
    """The lines of a file, each with those that continue it; an empty one after each row."""
    whole = ""
    for line in text.splitlines():
        if line.startswith(" "):
            whole += f"\n{line}"
            continue
        if whole:
            yield whole
        whole = "" if line.startswith("#") else line
        if not line:
            yield ""
    yield whole
    yield ""


def text_at(text: str, at: int) -> tuple[str, int] | None:
    """The text in quotes that begins here, and where it ends."""
    found = re.compile(r"'|(#*)\"").match(text, at)
    if not found:
        return None
    end = "'" if found[0] == "'" else f'"{found[1]}'
    stop = text.index(end, found.end())
    return text[found.end():stop], stop + len(end)


def form_at(text: str, at: int) -> tuple[Form, int]:
    """The form that begins here, and where it ends."""
    if quoted := text_at(text, at):
        return Form("text", quoted[0]), quoted[1]
    word = re.compile(r"\(?([^ ()\"'=\n]*)").match(text, at)
    assert word
    name, at = word[1], word.end()
    if word[0].startswith("("):
        inside, at = forms_from(text, at)
        return Form("list", name, inside), at + 1
    if text[at:at + 1] != "=":
        return Form("word", name), at
    quoted = text_at(text, at + 1)
    if quoted is None:
        value = re.compile(r"[^ ()\n]*").match(text, at + 1)
        assert value
        quoted = value[0], value.end()
    return Form("attribute", name, quoted[0]), quoted[1]


def forms_from(text: str, at: int) -> tuple[list[Form], int]:
    """The forms from here to the end of the list that they are in, and where it ends."""
    found = []
    while at < len(text) and text[at] != ")":
        if text[at] in " \n":
            at += 1
            continue
        form, at = form_at(text, at)
        found.append(form)
    return found, at


def forms_of(text: str) -> list[Form]:
    """The forms of a text."""
    return forms_from(text, 0)[0]


def attribute(name: str, value: str, lists: Iterable[str] = ()) -> Json:
    """The value of an attribute."""
    if name in lists:
        return value.split()
    if name in NUMBERS:
        return int(value)
    if name in BOOLEANS or name == "plural" and value in ("true", "false"):
        return value == "true"
    return value


def attributes(forms: list[Form], lists: Iterable[str] = ()) -> dict[str, Json]:
    """The attributes among forms. The first of a name counts."""
    return {form.name: attribute(form.name, form.inside, lists) for form in reversed(forms)
            if form.kind == "attribute"}


def words(forms: list[Form]) -> list[str]:
    """The words among forms."""
    return [form.name for form in forms if form.kind == "word"]


def lists(forms: list[Form]) -> list[Form]:
    """The lists among forms."""
    return [form for form in forms if form.kind == "list"]


def nodes_of(forms: list[Form]) -> list[Json]:
    """The nodes among forms."""
    found: list[Json] = []
    for form in forms:
        if form.kind == "word":
            found.append({"text": {"variable": form.name}})
        elif form.kind == "text":
            found.append({"text": {"value": form.name}})
        elif form.kind == "list":
            found.append({form.name: node_of(form.name, form.inside)})
    return found


def node_of(name: str, forms: list[Form]) -> Json:
    """What a node of this name has."""
    if name == "choose":
        return choice_of(forms)
    made = attributes(forms)
    if name in ("number", "label"):
        made["variable"] = words(forms)[0]
    elif name == "date":
        made |= date_of(forms)
        if "variable" not in made:
            raise NotInWire("a date without a variable")
    elif name == "group":
        made["children"] = nodes_of(forms)
    elif name == "names":
        made["variable"] = words(forms)
        made["children"] = [{child.name: child_of(child)} for child in lists(forms)]
    return made


def choice_of(forms: list[Form]) -> Json:
    """The branches of a choice."""
    made: dict[str, Json] = {}
    for form in lists(forms):
        if form.name == "else":
            made["else"] = nodes_of(form.inside)
            continue
        branch = attributes(form.inside, LISTS) | {"children": nodes_of(form.inside)}
        if form.name == "if":
            made["if"] = branch
        else:
            made.setdefault("else-if", []).append(branch)
    return made


def date_of(forms: list[Form]) -> dict[str, Json]:
    """The variable and the parts of a date."""
    made: dict[str, Json] = {}
    for form in forms:
        if form.kind == "word" and form.name not in ("day", "month", "year"):
            made["variable"] = form.name
        elif form.kind in ("word", "list"):
            part = {"name": form.name} | attributes(form.inside or [])
            made.setdefault("date-part", []).append(part)
    return made


def child_of(child: Form) -> Json:
    """A child of names."""
    if child.name == "substitute":
        return nodes_of(child.inside)
    made = attributes(child.inside)
    parts = [{"name": words(part.inside)[0]} | attributes(part.inside)
             for part in lists(child.inside)]
    return made | ({"name-part": parts} if parts else {})


def locale_of(forms: list[Form]) -> dict[str, Json]:
    """What a locale has."""
    made: dict[str, Json] = {}
    for form in forms:
        if form.name in OF_LOCALE:
            made.setdefault(form.name, form.inside == "true")
        elif form.kind == "list" and form.name == "term":
            name, *texts = [part.name for part in form.inside if part.kind in ("word", "text")]
            term = {"name": name, "single": texts[0]} | attributes(form.inside)
            made.setdefault("terms", []).append(term | {"multiple": text for text in texts[1:2]})
        elif form.kind == "list" and form.name == "date":
            date = attributes(form.inside) | date_of(form.inside)
            if "date-parts" in date:
                raise NotInWire("a localized date with date-parts")
            made.setdefault("dates", []).append(date)
    return made


def style_of(forms: list[Form]) -> dict[str, Json]:
    """A style."""
    made, own = attributes(forms), locale_of(forms)
    language = made.pop("default-locale", None)
    made = {name: value for name, value in made.items() if name not in own}
    locales: list[Json] = [own] if own else []
    for form in lists(forms):
        if form.name == "macro":
            name = attributes(form.inside)["name"]
            made.setdefault("macros", []).append({"name": name, "children": nodes_of(form.inside)})
        elif form.name in ("citation", "bibliography"):
            # (the first of a name counts)
            made.setdefault(form.name,
                            attributes(form.inside) | {"children": nodes_of(form.inside)})
        elif form.name == "locale":
            locales.append(locale_of(form.inside))
    return made | {"locales": locales + ([language] if language else [])}


def key_of(forms: list[Form]) -> Json:
    """A key of a sort."""
    return attributes(forms) | {"variable": word for word in words(forms)[:1]}


def list_style_of(forms: list[Form]) -> dict[str, Json]:
    """A style with its options for documents."""
    made: dict[str, Json] = {"style": style_of(forms)}
    # (the first of a layout counts)
    for form in reversed(lists(forms)):
        if form.name not in ("around", "sort"):
            continue
        options = made.setdefault(words(form.inside)[0], {})
        if form.name == "sort":
            options["sort"] = [key_of(key.inside) for key in lists(form.inside)]
            continue
        own = attributes(form.inside)
        made |= {"class": own.pop(name) for name in ("class",) if name in own}
        names = ("prefix", "suffix", "delimiter")
        options["layout"] = {name: own.pop(name) for name in names if name in own}
        options.update(own)
    return made


def citation_of(forms: list[Form], names: dict[int, str]) -> Json:
    """A citation of a document, of works by their numbers."""
    note = attributes(forms).get("note")
    items = [item_of(item.inside, names) for item in lists(forms)]
    return {"items": items} | ({} if note is None else {"note-number": note})


def item_of(forms: list[Form], names: dict[int, str]) -> Json:
    """A cite of a citation."""
    made = attributes(forms) | {"work": names.get(int(words(forms)[0]), "none")}
    for form in lists(forms):
        if form.name != "locator":
            raise NotInWire("a tree around a cite")
        made["locator"] = locator_of(form.inside)
    return made


def person_of(form: Form) -> Json:
    """A person."""
    if form.kind == "text":
        family, comma, given = form.name.partition(", ")
        return {"family": family} | ({"given": given} if comma else {})
    made = attributes(form.inside)
    if set(made) - PERSON or "family" not in made:
        raise NotInWire(f"a person with {sorted(made)}")
    return made


def pieces_of(forms: list[Form]) -> Json:
    """A text, or its pieces."""
    pieces = [form.name if form.kind == "text" else {form.name: form.inside[0].name}
              for form in forms if form.kind in ("text", "list")]
    return pieces[0] if len(pieces) == 1 and isinstance(pieces[0], str) else pieces


def text_value(forms: list[Form]) -> Json:
    """The answer of a standard variable."""
    made, rest = attributes(forms), [form for form in forms if form.kind != "attribute"]
    if not set(made) <= {"short"}:
        raise NotInWire("a text that is no text alone")
    if not made:
        return pieces_of(rest)
    return {"short": made["short"]} | ({"long": pieces_of(rest)} if rest else {})


def date_value(forms: list[Form]) -> Json:
    """A date."""
    made: dict[str, Json] = dict(zip(("year", "month", "day"), map(int, words(forms))))
    for name, value in attributes(forms).items():
        made[name] = int(value) if name in ("month", "day") else value
    return made


def number_value(forms: list[Form]) -> Json:
    """The answer of a number or page variable."""
    made = attributes(forms)
    if set(made) - {"either"}:
        raise NotInWire(f"pages by {sorted(made)}")
    if made:
        return made["either"]
    if forms and forms[0].kind == "text":
        if re.search("[0-9]", forms[0].name):
            raise NotInWire("a text that may be a number, and is none")
        return forms[0].name
    return " ".join(form.name for form in forms)


def entry_of(forms: list[Form], sorts: dict[str, set[str]]) -> Json:
    """An entry, by the names of the variables of each sort."""
    made = attributes(forms)
    if not set(made) <= {"type", "english"}:
        raise NotInWire(f"an entry with {sorted(made)}")
    english = {"english": made["english"]} if "english" in made else {}
    variables: dict[str, Json] = {}
    for form in lists(forms):
        if form.name in sorts["name"]:
            variables[form.name] = [person_of(person) for person in form.inside]
        elif form.name in sorts["date"]:
            variables[form.name] = date_value(form.inside)
        elif form.name in sorts["standard"]:
            variables[form.name] = text_value(form.inside)
        else:
            variables[form.name] = number_value(form.inside)
    return {"type": made.get("type", "").split(), **english, "variables": variables}


def shown_of(forms: list[Form]) -> Json:
    """The forms of names of a cite."""
    made = attributes(forms)
    names = [[None if word == "none" else word for word in words(one.inside)]
             for one in lists(forms)]
    return {"default": made["default"], "variable": made.get("of", "").split(), "lists": names}


def locator_of(forms: list[Form]) -> Json:
    """A locator. Without a text, the caller writes it."""
    texts = [form.name for form in forms if form.kind == "text"]
    return {"label": words(forms)[0]} | {"value": text for text in texts}


def cite_of(forms: list[Form]) -> Json:
    """What a citation says of a cite."""
    made = attributes(forms)
    if set(made) & {"before", "suppressed", "suppressing", "dated", "sort"}:
        raise NotInWire("a cite after others, or to be sorted")
    ibid = made.pop("ibid", "different")
    if ibid != "different" and made.get("position") != "subsequent":
        raise NotInWire("a cite that is ibid, and first")
    if ibid != "different":
        made["position"] = ibid
    if "year-suffix" in made:
        made["year-suffix"] = letters_of(int(made["year-suffix"]))
    for form in lists(forms):
        if form.name == "locator":
            made["locator"] = locator_of(form.inside)
        elif form.name == "shown":
            made["names"] = shown_of(form.inside)
    return made


def reaches_suffix(nodes: Json, macros: dict[str, Json]) -> bool:
    """Whether nodes reach a text of the year suffix, through these macros too."""
    if isinstance(nodes, dict):
        called = macros.get(nodes.get("macro", ""), [])
        return (nodes.get("variable") == "year-suffix" or reaches_suffix(called, macros)
                or any(reaches_suffix(node, macros) for node in nodes.values()))
    return isinstance(nodes, list) and any(reaches_suffix(node, macros) for node in nodes)


def with_layout(style: Json, scope: str, layout: Json, cite: Json) -> Json:
    """A style whose layout of the scope is this one. A row's layout is none of its style's, so that
    those decide whether the first year has the suffix."""
    macros = {macro["name"]: macro["children"] for macro in style.get("macros", [])}
    before = style.get(scope, {})
    if "year-suffix" in cite and \
            reaches_suffix(layout, macros) != reaches_suffix(before, macros):
        raise NotInWire("a year suffix, by another layout")
    kept = {name: value for name, value in before.items() if name in OPTIONS_OF_NAMES}
    return style | {scope: kept | layout}


def letters_of(number: int) -> str:
    """The letters of a year suffix, from 0."""
    text = ""
    number += 1
    while number:
        number, letter = divmod(number - 1, 26)
        text = chr(97 + letter) + text
    return text
