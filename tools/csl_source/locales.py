"""The locales of a style, as tables of terms and the functions that read them."""
import re
from typing import Sequence

from csl_source import library
from csl_source.code import (Call, Expression, Fields, Local, Row, lines_of, over, quoted, snake,
                             unique)
from csl_source.elements import Elements, affixes, fields_of, formatting, given
from sulleqti.attributes import Tree
from sulleqti.locales import OPTIONS, ORDINAL

# The types of the rows of tables, by the functions that read them.
TYPES = {"add_terms": "(Term, &str)", "add_counted_terms": "(Term, &str, &str)",
         "set_genders": "(Term, GrammarGender)", "add_ordinals": "OrdinalRow"}
HELPERS = {
    "OrdinalRow": """\
/// The slot of an ordinal, its match, its gender and its text.
type OrdinalRow = (
    OrdinalSlot,
    Option<OrdinalMatch>,
    Option<GrammarGender>,
    &'static str,
);""",
    "add_terms": """\
/// Adds terms of one form, each with one text.
fn add_terms(
    alloc: Global,
    locale: &mut Locale,
    form: TermForm,
    rows: &[(Term, &str)],
) -> Result<(), Error> {
    for row in rows {
        let entry = TermEntry::new(alloc, row.0, form, row.1)?;
        locale.terms.push(entry)?;
    }
    Ok(())
}""",
    "add_counted_terms": """\
/// Adds terms of one form, each with a text for the singular and one for the plural.
fn add_counted_terms(
    alloc: Global,
    locale: &mut Locale,
    form: TermForm,
    rows: &[(Term, &str, &str)],
) -> Result<(), Error> {
    for row in rows {
        let entry = TermEntry::counted(alloc, row.0, form, row.1, row.2)?;
        locale.terms.push(entry)?;
    }
    Ok(())
}""",
    "set_genders": """\
/// Sets the genders of terms.
fn set_genders(locale: &mut Locale, rows: &[(Term, GrammarGender)]) {
    for entry in &mut locale.terms {
        for row in rows {
            if entry.term == row.0 {
                entry.gender = Some(row.1);
            }
        }
    }
}""",
    "add_ordinals": """\
/// Adds ordinals.
fn add_ordinals(alloc: Global, locale: &mut Locale, rows: &[OrdinalRow]) -> Result<(), Error> {
    for row in rows {
        locale.ordinals.push(OrdinalTerm {
            slot: row.0,
            matching: row.1,
            gender: row.2,
            text: String::from_str(alloc, row.3)?,
        })?;
    }
    Ok(())
}""",
}


def options_of(locales: Sequence[str | Tree]) -> dict[str, bool]:
    """The options of all locales together: the first that sets one counts. A tag is a locale of the
    library."""
    found: dict[str, bool] = {}
    for locale in locales:
        if isinstance(locale, str):
            flags = library.languages()[locale][1]
            locale = {name: flag == "true" for name, flag in zip(OPTIONS, flags)}
        found = {name: locale[name] for name in OPTIONS if name in locale} | found
    return found


class Locales:
    """Writes locales. Their dates are written by `elements`."""

    def __init__(self, elements: Elements) -> None:
        self.elements = elements
        self.taken: dict[str, int] = {}
        self.used: set[str] = set()
        self.written: list[list[str]] = []

    def of(self, locale: Tree, language: str, is_own: bool, options: dict[str, bool]) -> str:
        """Writes a locale with these options, and returns the call that makes it."""
        base = unique(snake(f"{'own ' if is_own else ''}{language}", "locale"), self.taken)
        steps: list[Expression] = [*Table(locale["terms"]).written(base.upper(), self)]
        steps += [Call("locale.dates.push", self.date(date, base), tail="?")
                  for date in locale["dates"]]
        steps += [f"locale.{name.replace('-', '_')} = true" for name, flag in options.items()
                  if flag]
        whose = "this style" if is_own else "the locale"
        about = f"{whose}{f' `{language}`' if language else ''}"
        return self.function(base, f"The terms, ordinals and dates of {about}.", steps)

    def function(self, base: str, about: str, steps: list[Expression]) -> str:
        """Writes the function that makes a locale in these steps, and returns the call of it."""
        indent = self.elements.indent
        space = " " * indent
        name = unique(f"{base}_locale", self.elements.taken)
        lines = [f"{space}/// {about}",
                 f"{space}fn {name}(alloc: Global) -> Result<Locale, Error> {{"]
        let = f"let {'mut ' if steps else ''}locale = "
        lines += lines_of(let, "Locale::new(alloc)", ";", indent + 4)
        for step in steps:
            lines += lines_of("", step, ";", indent + 4)
        lines += lines_of("", "Ok(locale)", "", indent + 4)
        self.written.append([*lines, f"{space}}}"])
        return f"{name}(alloc)?"

    def static(self, name: str, comment: str, kind: str, rows: list[Row]) -> None:
        """Writes a table."""
        space = " " * self.elements.indent
        head = f"static {name}: [{TYPES[kind]}; {len(rows)}] = "
        lines = lines_of(head, Row(rows, "[]"), ";", len(space))
        self.written.append([f"{space}/// {comment}", *lines])

    def date(self, tree: Tree, base: str) -> str:
        """Writes a function that returns a localized date, and returns the call of it."""
        form = library.variants("DateForm")[tree["form"]]
        steps, parts = self.elements.date_parts(tree)
        fields: Fields = [*fields_of(tree, {"delimiter": "text"}),
                          ("formatting", formatting(tree)), ("affixes", affixes(tree))]
        date = Local("date")
        steps = [*steps, (date, over("Date", fields, Call("Date::localized", form, parts)))]
        name, about = f"{base}_{tree['form']}_date", f"The date of the form `{tree['form']}`."
        return self.elements.function(name, about, "Date", steps, Call("Ok", date))

    def helpers(self) -> list[list[str]]:
        """The functions that read the tables, if there are such tables."""
        indent = " " * self.elements.indent
        return [[indent + line if line else "" for line in text.split("\n")]
                for name, text in HELPERS.items() if name in self.used]


class Table:
    """The terms, genders and ordinals of a locale."""

    def __init__(self, terms: Sequence[Tree]) -> None:
        # (by the form, and how many texts a term has)
        self.terms: dict[tuple[str, int], list[Row]] = {}
        self.genders: dict[str, str] = {}
        self.ordinals: list[Row] = []
        self.seen: set[tuple[str, str]] = set()
        for tree in terms:
            ordinal = ORDINAL.fullmatch(tree["name"])
            if ordinal:
                self.ordinal(tree, *ordinal.groups())
            else:
                self.term(tree)

    def ordinal(self, tree: Tree, long: str | None, number: str | None) -> None:
        """Reads an ordinal: one in words, of a number, or of all others."""
        slot = "OrdinalSlot::Default"
        if number is not None:
            slot = f"OrdinalSlot::{'Long' if long else 'Two'}({int(number)})"
        sorts = {"match": "OrdinalMatch", "gender-form": "GrammarGender"}
        options = dict(fields_of(tree, sorts))
        optional = [options.get(name, "None") for name in ("match", "gender_form")]
        self.ordinals.append(Row([slot, *optional, quoted(tree["single"])]))

    def term(self, tree: Tree) -> None:
        """Reads a term. The first of a name and a form counts."""
        form = given(tree, "form", "TermForm", "long") or "TermForm::Long"
        gender = given(tree, "gender", "GrammarGender")
        texts = [quoted(tree[key]) for key in ("single", "multiple") if key in tree]
        # (one term of a file may be of a variable and of a locator)
        for term in library.terms()[tree["name"].removeprefix("locator:")]:
            if (term, form) not in self.seen:
                self.terms.setdefault((form, len(texts)), []).append(Row([term, *texts]))
                self.seen.add((term, form))
            if gender and form == "TermForm::Long":
                self.genders.setdefault(term, gender)

    def written(self, base: str, locales: Locales) -> list[Call]:
        """Writes the tables, and returns the steps that read them."""
        steps = []
        for (form, texts), rows in self.terms.items():
            word = re.sub(r"(?<!^)(?=[A-Z])", "_", form.split("::")[1]).upper()
            name, kind, about = f"{base}_{word}", "add_terms", ""
            if texts == 2:
                name, kind = f"{name}_COUNTED", "add_counted_terms"
                about = ", in the singular and the plural"
            comment = f"Terms in the {word.lower().replace('_', ' ')} form{about}."
            locales.static(name, comment, kind, rows)
            locales.used.add(kind)
            steps.append(Call(kind, "alloc", "&mut locale", form, f"&{name}", tail="?"))
        if self.genders:
            rows = [Row(pair) for pair in self.genders.items()]
            locales.static(f"{base}_GENDERS", "The genders of terms.", "set_genders", rows)
            locales.used.add("set_genders")
            steps.append(Call("set_genders", "&mut locale", f"&{base}_GENDERS"))
        if self.ordinals:
            name = f"{base}_ORDINALS"
            locales.static(name, "Ordinals.", "add_ordinals", self.ordinals)
            locales.used |= {"OrdinalRow", "add_ordinals"}
            steps.append(Call("add_ordinals", "alloc", "&mut locale", f"&{name}", tail="?"))
        return steps
