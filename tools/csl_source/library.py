"""The names that a style may use, read from the sources of the library: a new variable, kind, term
or option is known at once."""
import functools
import glob
import json
import os
import re

from kit import TOP, read, uses_of_crates
from sources import items_in, texts_of
from sulleqti.names import OTHER_SPELLINGS

VARIABLES = ("StandardVariable", "NumberVariable", "PageVariable", "DateVariable", "NameVariable")
# The enums whose names the package has (hosts/python/sulleqti/names.json).
NAMED = (*VARIABLES, "Kind", "OtherTerm", "Locator", "FontStyle", "FontVariant", "FontWeight",
         "TextDecoration", "VerticalAlign", "Display", "LongShortForm", "TermForm", "NumberForm",
         "LabelPluralize", "DateForm", "DateParts", "DatePartName", "NameForm", "NameAnd",
         "DelimiterBehavior", "NameAsSortOrder", "NamePartName", "ChooseMatch", "TestPosition",
         "OrdinalMatch", "GrammarGender", "PageRangeFormat", "DemoteNonDroppingParticle",
         "Collapse", "GivenNameRule", "SecondFieldAlign", "SubstituteRule")


@functools.cache
def sources() -> list[str]:
    """The texts of `csl_style`, of the crates that it stands on, and of `csl_list`, in this
    order."""
    crates = ["csl_style", *uses_of_crates()["csl_style"], "csl_list"]
    return [text for crate in crates for _, text in texts_of(TOP, crate)]


@functools.cache
def arms(enum: str) -> dict[str, str]:
    """The variants of an enum, in the order of the library, each with the type that it holds, or an
    empty text."""
    items = (part for text in sources() if f"pub enum {enum} " in text for part in items_in(text))
    for item in items:
        if (item.kind, item.name) == ("enum", enum):
            texts = ((arm.name, arm.text.strip()) for arm in item.members())
            return {name: text.removeprefix(name).strip("(),") for name, text in texts}
    raise SystemExit(f"tools/style: no source of csl_style has `pub enum {enum}`")


def csl_name(variant: str) -> str:
    """The name of a variant in CSL: `small-caps` for `SmallCaps`."""
    return re.sub(r"(?<!^)(?=[A-Z])", "-", variant).lower()


@functools.cache
def read_names() -> dict[str, dict[str, str]]:
    """The variants that have names of their own in CSL, by the names that each `name` writes, as a
    table or as arms."""
    table = re.compile(r"names! \{\s+self of (\w+):(.*?)^ +\}", re.M | re.S)
    arm = re.compile(r'^ +((\w+)::\w+) => (?:Some\()?"([\w -]+)"\)?,$', re.M)
    month = re.compile(r'^ +(\d+) => Some\("(month-\d+)"\),$', re.M)
    found: dict[str, dict[str, str]] = {}
    for text in sources():
        for enum, rows in table.findall(text):
            for variant, name in re.findall(r'(\w+) "([\w -]+)"', rows):
                found.setdefault(enum, {})[name] = f"{enum}::{variant}"
        for variant, enum, name in arm.findall(text):
            found.setdefault(enum, {})[name] = variant
        for number, name in month.findall(text):
            found["OtherTerm"][name] = f"OtherTerm::Month({number})"
    for name, season in found.pop("Season").items():
        found["OtherTerm"][name] = f"OtherTerm::Season({season})"
    return found


@functools.cache
def variants(enum: str) -> dict[str, str]:
    """The variants of an enum, by the names that its `name` writes, else by their names in CSL."""
    names = read_names().get(enum)
    if names is None:
        names = {csl_name(arm): f"{enum}::{arm}" for arm, held in arms(enum).items() if not held}
    for other, usual in OTHER_SPELLINGS.items():
        if variant := names.get(other) or names.get(usual):
            names = names | {other: variant, usual: variant}
    return names


@functools.cache
def locators() -> dict[str, str]:
    """The kinds of locators that CSL names."""
    named = variants("Locator")
    return {name: variant for name, variant in named.items() if name != "custom"}


@functools.cache
def terms() -> dict[str, list[str]]:
    """What the library has for the name of a term. `page` is two terms here, one of a variable and
    one of a locator."""
    found: dict[str, list[str]] = {}
    for sort, enum in arms("Term").items():
        for name, variant in (locators() if enum == "Locator" else variants(enum)).items():
            found.setdefault(name, []).append(f"Term::{sort}({variant})")
    return found


@functools.cache
def languages() -> dict[str, tuple[str, tuple[str, str]]]:
    """The languages that the library has a locale of, by their names in CSL: the call that returns
    it, and its options `punctuation-in-quote` and `limit-day-ordinals-to-day-1`."""
    found: dict[str, tuple[str, tuple[str, str]]] = {}
    for path in sorted(glob.glob(f"{TOP}/crates/csl_languages/src/words/*.rt")):
        text = read(path)
        name = re.search(r"CSL's own locale\s+(?://! )?`([\w-]+)`", text)
        quotes, days = (re.search(rf"^ +{option}: (true|false),$", text, re.M)
                        for option in ("punctuation_in_quote", "limit_day_ordinals_to_day_1"))
        if not (name and quotes and days):
            lacks = "does not name its locale of CSL and both options"
            raise SystemExit(f"tools/style: {path} {lacks}")
        found[name[1]] = os.path.basename(path).removesuffix(".rt"), (quotes[1], days[1])
    # (English is what a style takes whose language is none of these)
    return {"en-US": found["en-US"]} | found


def names() -> str:
    """The text of names.json: all names that a style or a work may use, by their sorts."""
    found = {enum: list(variants(enum)) for enum in NAMED} | {"Language": list(languages())}
    found["Locator"].remove("custom")
    lines = [f'"{sort}": {json.dumps([name for name in known if not name.startswith("chicago")])}'
             for sort, known in found.items()]
    return "{\n" + ",\n".join(lines) + "\n}\n"
