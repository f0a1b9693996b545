//! Entries: `type=book`, and a list for each variable that the entry answers, as `(title "T")`,
//! `(issued 2014 5)`, `(page 321-8, 5)`, `(author "Kwan, Kevin")`.

use crate::fault::Fault;
use crate::form::{Form, Forms};
use crate::work::Work;
use csl::literature::{
    ChunkKind, ChunkedString, Date, FormatString, MaybeTyped, Numeric, NumericError, NumericValue,
    PageRanges, PageRangesPart, Person, StringChunk,
};
use csl::style::Variable;
use std::alloc::Global;

/// The one text of a list.
fn only_text<'t>(forms: &Forms<'t>) -> Result<&'t str, Fault> {
    match forms.items.as_slice() {
        [Form::Text(text)] => Ok(*text),
        _ => Err(Fault::Wrong("one text goes here")),
    }
}

/// The words among the forms, with one space between them.
fn words(forms: &Forms<'_>) -> Result<String, Fault> {
    let mut words = String::new(forms.alloc);
    for form in &forms.items {
        match form {
            Form::Word(word) => {
                if !words.is_empty() {
                    words.push(' ')?;
                }
                words.push_str(*word)?;
            }
            Form::Attribute(_, _) => {}
            Form::Text(word) | Form::List(word, _) => {
                return Err(forms.fault("not words, and not one text", *word));
            }
        }
    }
    Ok(words)
}

/// What a text parses as, or the text in its place.
fn either<T: Drop>(
    alloc: Global,
    text: &str,
    parsed: Result<T, NumericError>,
) -> Result<MaybeTyped<T>, Fault> {
    match parsed {
        Ok(value) => Ok(MaybeTyped::Typed(value)),
        Err(NumericError::NotNumeric) => Ok(MaybeTyped::String(String::from_str(alloc, text)?)),
        Err(NumericError::Memory) => Err(Fault::Memory),
    }
}

/// A number, as `(volume 20)`; a text in its place, as `(volume "20")`; or a text that may be a
/// number, as `(volume either=20)`.
pub fn number(forms: &Forms<'_>) -> Result<MaybeTyped<Numeric>, Fault> {
    forms.ensure_attributes(&["either"])?;
    if let Some(text) = forms.value("either") {
        return either(forms.alloc, text, Numeric::parse(forms.alloc, text));
    }
    if let Ok(text) = only_text(forms) {
        return Ok(MaybeTyped::String(String::from_str(forms.alloc, text)?));
    }
    let words = words(forms)?;
    Ok(MaybeTyped::Typed(Numeric::parse(forms.alloc, words.as_str())?))
}

/// A range in full: one that no page format shortens.
fn full_range(alloc: Global, text: &str) -> Result<PageRangesPart, Fault> {
    let (from, to) = text.split_once('-').ok_or(Fault::Wrong("not a range"))?;
    let from = Numeric::parse(alloc, from)?;
    Ok(PageRangesPart::EscapedRange(from, Numeric::parse(alloc, to)?))
}

/// A range from a page on: its end is a set without numbers, which no text parses as.
fn open_range(alloc: Global, text: &str) -> Result<PageRangesPart, Fault> {
    let end = Numeric {
        value: NumericValue::Set(Vec::new(alloc)),
        prefix: None,
        suffix: None,
    };
    Ok(PageRangesPart::Range(Numeric::parse(alloc, text)?, end))
}

/// Pages, as `(page 321-8, 5)`; a text in their place, as `(page "i-iv")`; a text that may be pages,
/// as `(page either="321-8")`; a range in full, as `(page full=42-5)`; or a range from a page on, as
/// `(page from=4000)`.
pub fn pages(forms: &Forms<'_>) -> Result<MaybeTyped<PageRanges>, Fault> {
    forms.ensure_attributes(&["full from either"])?;
    if let Some(text) = forms.value("either") {
        return either(forms.alloc, text, PageRanges::parse(forms.alloc, text));
    }
    if let Ok(text) = only_text(forms) {
        return Ok(MaybeTyped::String(String::from_str(forms.alloc, text)?));
    }
    let words = words(forms)?;
    let ranges = match (forms.value("full"), forms.value("from"), words.is_empty()) {
        (Some(range), None, true) => vec![in forms.alloc; full_range(forms.alloc, range)?]?,
        (None, Some(page), true) => vec![in forms.alloc; open_range(forms.alloc, page)?]?,
        (None, None, _) => PageRanges::parse(forms.alloc, words.as_str())?.ranges,
        _ => return Err(Fault::Wrong("pages are words, full or from")),
    };
    Ok(MaybeTyped::Typed(PageRanges { ranges }))
}

/// Adds a piece of a text.
fn add_piece(
    pieces: &mut Vec<StringChunk>,
    alloc: Global,
    text: &str,
    kind: ChunkKind,
) -> Result<(), Fault> {
    let value = String::from_str(alloc, text)?;
    Ok(pieces.push(StringChunk { value, kind })?)
}

/// The pieces of a text: `"a"`, `(verbatim "b")` and `(math "c")`.
fn pieces(forms: &Forms<'_>) -> Result<ChunkedString, Fault> {
    let mut pieces = Vec::new(forms.alloc);
    for form in &forms.items {
        match form {
            Form::Text(text) => add_piece(&mut pieces, forms.alloc, *text, ChunkKind::Normal)?,
            Form::List("verbatim", inside) => {
                add_piece(
                    &mut pieces,
                    forms.alloc,
                    only_text(inside)?,
                    ChunkKind::Verbatim,
                )?;
            }
            Form::List("math", inside) => {
                add_piece(
                    &mut pieces,
                    forms.alloc,
                    only_text(inside)?,
                    ChunkKind::Math,
                )?;
            }
            Form::Attribute(_, _) => {}
            Form::Word(word) | Form::List(word, _) => {
                return Err(forms.fault("a text is in quotes", *word));
            }
        }
    }
    Ok(ChunkedString(pieces))
}

/// A text, and its short form, if `short` sets one.
pub fn text(forms: &Forms<'_>) -> Result<FormatString, Fault> {
    forms.ensure_attributes(&["short"])?;
    let short = match forms.value("short") {
        Some(short) => Some(ChunkedString::plain(forms.alloc, short)?),
        None => None,
    };
    let value = pieces(forms)?;
    Ok(FormatString { value, short })
}

/// A month or a day. In a row they count from 1, in a date from 0.
fn counted_from_zero(forms: &Forms<'_>, word: Option<&str>) -> Result<Option<u8>, Fault> {
    let Some(word) = word else {
        return Ok(None);
    };
    match word.parse::<u8>() {
        Ok(number) if number > 0 => Ok(Some(number - 1)),
        _ => Err(forms.fault("not a month or a day", word)),
    }
}

/// A date: a year, a month and a day, as `(issued 2014 5 2)`. `day=2` is a day without a month,
/// `season=summer` a season; `circa=true` makes the date approximate.
pub fn date(forms: &Forms<'_>) -> Result<Date, Fault> {
    forms.ensure_attributes(&["day season circa"])?;
    let text = words(forms)?;
    let mut words = text.as_str().split(' ');
    let year = words.next().unwrap_or("");
    let Ok(year) = year.parse::<i32>() else {
        return Err(forms.fault("not a year", year));
    };
    let month = counted_from_zero(forms, words.next())?;
    let day = counted_from_zero(forms, words.next().or(forms.value("day")))?;
    if let Some(word) = words.next() {
        return Err(forms.fault("a date ends with its day", word));
    }
    let season = forms.choice("season")?;
    let circa = forms.is_true("circa")?;
    Date::new(year, month, day, season, circa).ok_or(Fault::Wrong("no such date"))
}

/// A person: `"Kwan, Kevin"`, `"Kwan"`, or by the parts of the name, as
/// `(person family=Humboldt given=Alexander prefix=von)`.
fn person(forms: &Forms<'_>, form: &Form<'_>) -> Result<Person, Fault> {
    match form {
        Form::Text(text) => match text.split_once(", ") {
            Some((family, given)) => Ok(Person::new(forms.alloc, family, given)?),
            None => Ok(Person::institution(forms.alloc, *text)?),
        },
        Form::List("person", parts) => {
            parts.ensure_attributes(&["family given prefix suffix comma-suffix"])?;
            parts.ensure_lists("")?;
            let family = parts.text("family")?;
            Ok(Person {
                name: family.ok_or(Fault::Wrong("a person without a family name"))?,
                given_name: parts.text("given")?,
                prefix: parts.text("prefix")?,
                suffix: parts.text("suffix")?,
                alias: None,
                comma_suffix: parts.is_true("comma-suffix")?,
            })
        }
        Form::Word(word) | Form::Attribute(word, _) | Form::List(word, _) => {
            Err(forms.fault("not a person", *word))
        }
    }
}

/// The persons of a list, in order.
pub fn persons(forms: &Forms<'_>) -> Result<Vec<Person>, Fault> {
    let mut persons = Vec::new(forms.alloc);
    for form in &forms.items {
        persons.push(person(forms, form)?)?;
    }
    Ok(persons)
}

/// Adds the answer to a variable.
fn add_answer(work: &mut Work, variable: Variable, forms: &Forms<'_>) -> Result<(), Fault> {
    match variable {
        Variable::Number(variable) => work.numbers.push((variable, number(forms)?))?,
        Variable::Page(variable) => work.pages.push((variable, pages(forms)?))?,
        Variable::Standard(variable) => work.texts.push((variable, text(forms)?))?,
        Variable::Date(variable) => work.dates.push((variable, date(forms)?))?,
        Variable::Name(variable) => work.names.push((variable, persons(forms)?))?,
    }
    Ok(())
}

/// The entry of these forms.
pub fn entry(forms: &Forms<'_>) -> Result<Work, Fault> {
    forms.ensure_attributes(&["type english no-memory-for"])?;
    let mut work = Work::new(forms.alloc);
    work.english = forms.boolean("english")?;
    work.refused = forms.choice("no-memory-for")?;
    if let Some(kinds) = forms.choices("type")? {
        work.kinds = kinds;
    }
    for form in &forms.items {
        match form {
            Form::List(name, inside) => {
                let variable = forms.named(*name)?;
                add_answer(&mut work, variable, inside)?;
            }
            Form::Attribute(_, _) => {}
            Form::Word(word) | Form::Text(word) => {
                return Err(forms.fault("an entry is a list for each variable", *word));
            }
        }
    }
    Ok(work)
}
