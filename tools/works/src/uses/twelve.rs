//! Twelve works, some with equal cites, and a style for them.

use csl::literature::{self, Entry, EntryType, Person, QualifiedUrl};
use csl::style::{
    Affixes, CslMacro, Date, DatePart, DatePartName, DateVariable, Formatting, Group,
    InheritableNameOptions, Layout, LayoutRenderingElement, NameAnd, NameAsSortOrder, NameForm,
    NameVariable, Names, Number, NumberVariable, StandardVariable, Style, StyleSettings, Text,
};
use csl::{Error, Memory, english};
use std::alloc::Global;
use url::{ParseError, Url};

/// The family name and the given name of an author.
type Author = (&'static str, &'static str);

/// The authors of a work, its year, its title and its address.
type Row = (&'static [Author], i32, &'static str, Option<&'static str>);

/// The works, in no order. Two are of one author and year. Two have authors of one family name and
/// initial, two of one family name alone. Two have the same first of three authors. Two have an
/// address: one leads to a web page, one is a script.
static ROWS: [Row; 12] = [
    (&[("Kwan", "Kevin")], 2014, "Second Thoughts", None),
    (
        &[("Ng", "Ann"), ("Roe", "Dan"), ("Poe", "Cy")],
        2001,
        "Rivers",
        None,
    ),
    (&[("Miller", "Berta")], 2014, "Mills", None),
    (
        &[("Knuth", "Donald E.")],
        1992,
        "Literate Programming",
        None,
    ),
    (&[("Lee", "John")], 2010, "Winds", None),
    (
        &[
            ("Aho", "Alfred V."),
            ("Sethi", "Ravi"),
            ("Ullman", "Jeffrey D."),
        ],
        1986,
        "Compilers",
        None,
    ),
    (
        &[("Ng", "Ann"), ("Ode", "Bo"), ("Poe", "Cy")],
        2001,
        "Lakes",
        None,
    ),
    (
        &[("Berners-Lee", "Tim")],
        1999,
        "Weaving the Web",
        Some("https://www.w3.org/People/Berners-Lee/Weaving/"),
    ),
    (&[("Kwan", "Kevin")], 2014, "First Thoughts", None),
    (
        &[("Lee", "Jane")],
        2010,
        "Tides",
        Some("javascript:alert(1)"),
    ),
    (&[("Miller", "Anna")], 2014, "Grain", None),
    (
        &[("Kernighan", "Brian W."), ("Ritchie", "Dennis M.")],
        1978,
        "The C Programming Language",
        None,
    ),
];

fn authors(alloc: Global, rows: &[Author]) -> Result<Vec<Person>, Error> {
    let mut authors = Vec::new(alloc);
    for (family_name, given_name) in rows {
        authors.push(Person::new(alloc, *family_name, *given_name)?)?;
    }
    Ok(authors)
}

/// The text as an address, or `None` if it is no absolute URL. The scheme may be any.
fn address_of(alloc: Global, text: &str) -> Result<Option<QualifiedUrl>, Memory> {
    match Url::parse(alloc, text) {
        Ok(value) => Ok(Some(QualifiedUrl {
            value,
            visit_date: None,
        })),
        Err(ParseError::OutOfMemory | ParseError::Overflow) => Err(Memory),
        Err(_) => Ok(None),
    }
}

fn work(alloc: Global, row: &Row) -> Result<Entry, Error> {
    let (names, year, title, address) = *row;
    let authors = authors(alloc, names)?;
    let url = match address {
        Some(text) => address_of(alloc, text)?,
        None => None,
    };
    let work = Entry::titled(alloc, title, EntryType::Book, title)?
        .with_authors(authors)
        .with_date(literature::Date::of_year(year));
    match url {
        Some(url) => Ok(work.with_url(url)),
        None => Ok(work),
    }
}

/// The twelve works. The title of each is also its key.
pub fn twelve_works(alloc: Global) -> Result<Vec<Entry>, Error> {
    let mut works = Vec::new(alloc);
    for row in &ROWS {
        works.push(work(alloc, row)?)?;
    }
    Ok(works)
}

/// The options for names: `and` before the last one, and initials. Cites have family names alone,
/// and of three or more the first. In the bibliography the first person's family name comes first.
fn settings(alloc: Global) -> Result<StyleSettings, Error> {
    let names = InheritableNameOptions {
        and: Some(NameAnd::Text),
        initialize_with: Some(String::from_str(alloc, ". ")?),
        ..InheritableNameOptions::default()
    };
    let citation_names = InheritableNameOptions {
        form: Some(NameForm::Short),
        et_al_min: Some(3),
        et_al_use_first: Some(1),
        ..InheritableNameOptions::default()
    };
    let bibliography_names = InheritableNameOptions {
        name_as_sort_order: Some(NameAsSortOrder::First),
        ..InheritableNameOptions::default()
    };
    Ok(StyleSettings {
        names,
        citation_names,
        bibliography_names,
        ..StyleSettings::default()
    })
}

/// The macro `author-year`.
fn author_year(alloc: Global) -> Result<CslMacro, Error> {
    let names = Names::new(alloc, vec![in alloc; NameVariable::Author]?);
    let year = vec![in alloc; DatePart::new(DatePartName::Year)]?;
    let year = Date::new(DateVariable::Issued, year);
    let parts = vec![in alloc; names.into(), year.into()]?;
    let group = Group::delimited(alloc, ", ", parts)?;
    let children = vec![in alloc; group.into()]?;
    Ok(CslMacro::new(alloc, "author-year", children)?)
}

/// The macro `author-year-title`. The title is in italics.
fn author_year_title(alloc: Global) -> Result<CslMacro, Error> {
    let author_year = Text::macro_call(alloc, "author-year")?;
    let title = Text {
        formatting: Formatting::italic(),
        ..Text::variable(StandardVariable::Title.into())
    };
    let parts = vec![in alloc; author_year.into(), title.into()]?;
    let group = Group::delimited(alloc, ", ", parts)?;
    let children = vec![in alloc; group.into()]?;
    Ok(CslMacro::new(alloc, "author-year-title", children)?)
}

/// The layout of cites, as `(Kwan, 2014)`.
fn citation(alloc: Global) -> Result<Layout, Error> {
    let call = Text {
        affixes: Affixes::around(alloc, "(", ")")?,
        ..Text::macro_call(alloc, "author-year")?
    };
    Ok(Layout::new(vec![in alloc; call.into()]?))
}

/// The number of a work in brackets.
fn number(alloc: Global) -> Result<LayoutRenderingElement, Error> {
    let number = Number {
        affixes: Affixes::around(alloc, "[", "]")?,
        ..Number::new(NumberVariable::CitationNumber.into())
    };
    Ok(number.into())
}

/// The layout of the bibliography: the number, the authors, the year, the title and the address.
fn bibliography(alloc: Global) -> Result<Layout, Error> {
    let call = Text {
        affixes: Affixes::after(alloc, ".")?,
        ..Text::macro_call(alloc, "author-year-title")?
    };
    let address = Text::variable(StandardVariable::URL.into());
    let parts = vec![in alloc; number(alloc)?, call.into(), address.into()]?;
    let line = Group::delimited(alloc, " ", parts)?;
    Ok(Layout::new(vec![in alloc; line.into()]?))
}

/// A style that cites by author and year.
///
/// # Errors
/// [`Error::Memory`]: out of memory.
/// [`Error::Style`]: the style is rejected.
pub fn author_date_style(alloc: Global) -> Result<Style, Error> {
    let settings = settings(alloc)?;
    let macros = vec![in alloc; author_year(alloc)?, author_year_title(alloc)?]?;
    let locales = vec![in alloc; english(alloc)?]?;
    let citation = citation(alloc)?;
    let bibliography = Some(bibliography(alloc)?);
    Ok(Style::new(alloc, settings, macros, citation, bibliography, locales)?)
}
