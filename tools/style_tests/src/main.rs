//! Runs the first program of `docs/CALLING.md`, and cites two entries in each style that
//! `tools/test_style` converts: one by one, and in a document.
#![tactic(auto)]

mod author_date;
mod first;
mod others;

use csl::entry::{IbidState, LocatorPayload, SpecificLocator, SpeculativeCiteProperties};
use csl::literature::{
    Date, Entry, EntryType, FormatString, MaybeTyped, Numeric, Person, Publisher,
};
use csl::style::{Locator, Style};
use csl::{BufWriteFormat, CitationNumber, CiteProperties, DisambiguateState, ElemChildren, Error};
use csl_list::{
    BibliographyDriver, CitationItem, CitationRequest, ListError, ListStyle, ListedWorks,
    RenderedBibliography, SecondFieldAlign,
};
use others::{french, notes, numeric};
use std::alloc::Global;
use std::io;

/// Why the program ends early.
#[derive(Debug, Drop, thiserror::Error)]
pub enum CiteError {
    #[error("{0}")]
    Csl(#[from] Error),
    #[error("{0}")]
    List(#[from] ListError),
    #[error("{0}")]
    Stream(#[from] io::Error),
}

/// What tells one cite from another.
#[derive(Clone, Copy)]
struct Cite {
    number: u32,
    is_first: bool,
    ibid: IbidState,
    locator: Option<(Locator, &'static str)>,
}

/// A first cite of the first entry.
const FIRST: Cite = Cite {
    number: 0,
    is_first: true,
    ibid: IbidState::Different,
    locator: None,
};

/// A book by three authors, issued on a first of August.
fn machine(alloc: Global) -> Result<Entry, Error> {
    let lovelace = Person::new(alloc, "Lovelace", "Ada")?;
    let babbage = Person::new(alloc, "Babbage", "Charles")?;
    let menabrea = Person::new(alloc, "Menabrea", "Luigi Federico")?;
    let authors = vec![in alloc; lovelace, babbage, menabrea]?;
    let publisher = Publisher {
        name: Some(FormatString::plain(alloc, "Taylor")?),
        location: None,
    };
    let mut book = Entry::titled(alloc, "machine", EntryType::Book, "Notes sur la machine")?
        .with_authors(authors)
        .with_publisher(publisher);
    book.date = Date::new(1843, Some(7), Some(0), None, false);
    book.edition = Some(MaybeTyped::Typed(Numeric::new(1)));
    Ok(book)
}

/// An anthology by two editors, the third volume of a work, issued in a March.
fn mixture(alloc: Global) -> Result<Entry, Error> {
    let somerville = Person::new(alloc, "Somerville", "Mary")?;
    let whewell = Person::new(alloc, "Whewell", "William")?;
    let editors = vec![in alloc; somerville, whewell]?;
    let mut anthology = Entry::titled(alloc, "mixture", EntryType::Anthology, "Mélanges")?
        .with_editors(editors)
        .with_volume(MaybeTyped::Typed(Numeric::new(3)));
    anthology.date = Date::new(1834, Some(2), None, None, false);
    Ok(anthology)
}

/// The properties of a cite.
fn properties(cite: Cite) -> CiteProperties<'static> {
    let mut properties = CiteProperties::first(DisambiguateState::None);
    properties.certain.is_first = cite.is_first;
    properties.speculative = SpeculativeCiteProperties {
        locator: match cite.locator {
            Some((kind, text)) => Some(SpecificLocator(kind, LocatorPayload::Str(text))),
            None => None,
        },
        citation_number: match CitationNumber::new(cite.number) {
            Some(number) => number,
            None => properties.speculative.citation_number,
        },
        ibid: cite.ibid,
        disambiguation: DisambiguateState::None,
    };
    properties
}

/// Prints a content as plain text and as HTML.
fn show(
    rt: &(impl Print + AllocGlobal),
    name: &str,
    content: &ElemChildren,
) -> Result<(), CiteError> {
    let html = content
        .to_text(rt.alloc(), BufWriteFormat::Html)
        .map_err(Error::from)?;
    println!(rt; "{name}: {content}")?;
    println!(rt; "{name}, HTML: {html}")?;
    Ok(())
}

/// Prints a cite.
fn show_cite(
    rt: &(impl Print + AllocGlobal),
    name: &str,
    style: &Style,
    entry: &Entry,
    cite: Cite,
) -> Result<(), CiteError> {
    let rendered = csl::cite(rt.alloc(), style, entry, &properties(cite)).map_err(Error::from)?;
    show(rt, name, &rendered.content)
}

/// Prints the line of an entry in the bibliography.
fn show_line(
    rt: &(impl Print + AllocGlobal),
    name: &str,
    style: &Style,
    entry: &Entry,
    number: u32,
) -> Result<(), CiteError> {
    let cite = Cite { number, ..FIRST };
    match csl::bibliography_entry(rt.alloc(), style, entry, &properties(cite)).map_err(
        Error::from,
    )? {
        Some(rendered) => show(rt, name, &rendered.content),
        None => Ok(println!(rt; "{name}: none")?),
    }
}

/// A citation of the works at these places.
fn request(alloc: Global, works: &[usize]) -> Result<CitationRequest<'static>, ListError> {
    let mut request = CitationRequest::new(alloc);
    for work in works {
        request.items.push(CitationItem::new(*work))?;
    }
    Ok(request)
}

/// Prints a document that cites the second work, and then both.
fn show_list(
    rt: &(impl Print + AllocGlobal),
    name: &str,
    style: &ListStyle,
    works: &[Entry],
) -> Result<(), CiteError> {
    let alloc = rt.alloc();
    let mut driver = BibliographyDriver::new(alloc);
    for works in [&[1_usize] as &[usize], &[0, 1]] {
        driver
            .citation(request(alloc, works)?)
            .map_err(ListError::from)?;
    }
    let list = driver.finish(alloc, style, works, ListedWorks::All)?;
    for citation in &list.citations {
        let content = &citation.content;
        println!(rt; "{name}, citation: {content}")?;
    }
    match &list.bibliography {
        Some(bibliography) => show_bibliography(rt, name, bibliography),
        None => Ok(println!(rt; "{name}, list: none")?),
    }
}

/// Prints how a bibliography looks, and its works.
fn show_bibliography(
    rt: &impl Print,
    name: &str,
    bibliography: &RenderedBibliography,
) -> Result<(), CiteError> {
    let hangs = if bibliography.hanging_indent {
        "hanging"
    } else {
        "even"
    };
    let align = match bibliography.second_field_align {
        Some(SecondFieldAlign::Flush) => "flush",
        Some(SecondFieldAlign::Margin) => "margin",
        None => "none",
    };
    let (entries, lines) = (bibliography.entry_spacing, bibliography.line_spacing);
    println!(rt; "{name}, list: {hangs}, {align}, {entries}, {lines}")?;
    for item in &bibliography.items {
        let content = &item.content;
        match &item.first_field {
            Some(first) => println!(rt; "{name}, item: {first} | {content}")?,
            None => println!(rt; "{name}, item: {content}")?,
        };
    }
    Ok(())
}

/// Prints cites and lines by author and date.
fn show_author_date(
    rt: &(impl Print + AllocGlobal),
    style: &Style,
    machine: &Entry,
    mixture: &Entry,
) -> Result<(), CiteError> {
    let page = Cite {
        locator: Some((Locator::Page, "5")),
        ..FIRST
    };
    show_cite(rt, "author-date, a page", style, machine, page)?;
    show_cite(rt, "author-date, editors", style, mixture, FIRST)?;
    show_line(rt, "author-date, line 1", style, machine, 0)?;
    show_line(rt, "author-date, line 2", style, mixture, 1)
}

/// Prints notes.
fn show_notes(
    rt: &(impl Print + AllocGlobal),
    style: &Style,
    machine: &Entry,
    mixture: &Entry,
) -> Result<(), CiteError> {
    let page = Cite {
        locator: Some((Locator::Page, "5")),
        ..FIRST
    };
    let later = Cite {
        is_first: false,
        ..FIRST
    };
    let ibid = Cite {
        ibid: IbidState::Ibid,
        ..later
    };
    let chapter = Cite {
        ibid: IbidState::IbidWithLocator,
        locator: Some((Locator::Chapter, "2")),
        ..later
    };
    let line = Cite {
        locator: Some((Locator::Line, "7")),
        ..later
    };
    show_cite(rt, "note, a page", style, machine, page)?;
    show_cite(rt, "note, ibid", style, machine, ibid)?;
    show_cite(rt, "note, ibid with a chapter", style, machine, chapter)?;
    show_cite(rt, "note, later with a line", style, machine, line)?;
    show_cite(rt, "note, editors", style, mixture, FIRST)?;
    show_cite(rt, "note, later", style, mixture, later)?;
    show_line(rt, "notes, line", style, mixture, 0)
}

/// Prints numbers and the lines that they lead to.
fn show_numeric(
    rt: &(impl Print + AllocGlobal),
    style: &Style,
    machine: &Entry,
    mixture: &Entry,
) -> Result<(), CiteError> {
    let second = Cite { number: 1, ..FIRST };
    show_cite(rt, "number 1", style, machine, FIRST)?;
    show_cite(rt, "number 2", style, mixture, second)?;
    show_line(rt, "number 1, line", style, machine, 0)?;
    show_line(rt, "number 2, line", style, mixture, 1)
}

fn main(rt: HostRuntime) -> Result<(), CiteError> {
    let alloc = rt.alloc();
    first::print_cite(&rt)?;
    let works = vec![in alloc; machine(alloc)?, mixture(alloc)?].map_err(Error::from)?;
    let (machine, mixture) = (&works[0], &works[1]);
    show_author_date(&rt, &author_date::style(alloc)?, machine, mixture)?;
    show_list(&rt, "author-date", &author_date::list_style(alloc)?, &works)?;
    show_notes(&rt, &notes::style(alloc)?, machine, mixture)?;
    show_list(&rt, "notes", &notes::list_style(alloc)?, &works)?;
    show_numeric(&rt, &numeric::style(alloc)?, machine, mixture)?;
    show_list(&rt, "numbers", &numeric::list_style(alloc)?, &works)?;
    show_line(
        &rt,
        "the library's French",
        &french::style(alloc)?,
        machine,
        0,
    )
}
