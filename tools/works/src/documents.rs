//! Whole documents by `csl_list`, in author-date styles: their citations and bibliographies.

use crate::bench::bibliography::MACROS;
use crate::bench::rows::macros;
use crate::error::WorkError;
use crate::refuse::twice;
use csl::entry::{LocatorPayload, SpecificLocator};
use csl::literature::{Date, FormatString, Person};
use csl::style::{
    DateVariable, Layout, LayoutRenderingElement, Locator, StandardVariable, Style, StyleSettings,
    Text,
};
use csl::{BufWriteFormat, ElemChildren, Entry, english};
use csl_list::{
    AuthorSubstitute, BibliographyDriver, BibliographyOptions, CitationItem, CitationOptions,
    CitationRequest, ListStyle, ListedWorks, RenderedList, SecondFieldAlign, SortKey,
    SubstituteRule, plain_affix,
};
use csl_samples::BuiltIn;
use std::alloc::Global;

/// The macros of cites, and of the number of a work.
const CITE: &str = "\
    (macro name=cite \
        (group delimiter=', ' (names author (name form=short and=text)) (text macro=issue-year) \
            locator)) \
    (macro name=issue-year (group (date issued year) year-suffix)) \
    (macro name=place (number citation-number suffix='. '))";

/// The macros of a bibliography: `entry` is a work without its number.
const SMALL: &str = "\
    (macro name=authors (names author (name name-as-sort-order=first and=text))) \
    (macro name=entry \
        (group delimiter='. ' (text macro=authors) (text macro=issue-year) title))";

/// A layout that calls macros.
fn calling(alloc: Global, names: &[&str]) -> Result<Layout, WorkError> {
    let mut calls: Vec<LayoutRenderingElement> = Vec::new(alloc);
    for name in names {
        calls.push(Text::macro_call(alloc, name)?.into())?;
    }
    Ok(Layout::new(calls))
}

/// The style of the macros of cites and of those of a bibliography.
fn style(alloc: Global, entry: &str) -> Result<Style, WorkError> {
    let text = format!(in alloc; "{CITE} {entry}")?;
    let macros = macros(alloc, text.as_str())?;
    let cite = calling(alloc, &["cite"])?;
    let work = calling(alloc, &["place", "entry"])?;
    let (settings, locales) = (StyleSettings::default(), vec![in alloc; english(alloc)?]?);
    Ok(Style::new(alloc, settings, macros, cite, Some(work), locales)?)
}

/// By authors, year and title.
fn keys(alloc: Global) -> Result<Vec<SortKey>, WorkError> {
    let authors = SortKey::by_macro(String::from_str(alloc, "authors")?);
    let year = SortKey::by_variable(DateVariable::Issued.into());
    let title = SortKey::by_variable(StandardVariable::Title.into());
    Ok(vec![in alloc; authors, year, title]?)
}

/// A style of these macros, with parentheses, keys, year suffixes and a dash for repeated names.
fn list_style(alloc: Global, entry: &str) -> Result<ListStyle, WorkError> {
    let citation = CitationOptions {
        prefix: String::from_str(alloc, "(")?,
        suffix: String::from_str(alloc, ")")?,
        delimiter: String::from_str(alloc, "; ")?,
        keys: keys(alloc)?,
        adds_year_suffix: true,
        ..CitationOptions::new(alloc)
    };
    let dash = AuthorSubstitute {
        text: String::from_str(alloc, "———")?,
        rule: SubstituteRule::CompleteAll,
    };
    let bibliography = BibliographyOptions {
        suffix: String::from_str(alloc, ".")?,
        keys: keys(alloc)?,
        second_field_align: Some(SecondFieldAlign::Flush),
        author_substitute: Some(dash),
        ..BibliographyOptions::new(alloc)
    };
    let style = style(alloc, entry)?;
    Ok(ListStyle::new(alloc, style, citation, Some(bibliography))?)
}

/// An article of this author, in this year.
fn article(alloc: Global, author: usize, year: i32, title: usize) -> Result<Entry, WorkError> {
    let name = format!(in alloc; "Author {author}")?;
    let author = Person::new(alloc, name.as_str(), "Ada B.")?;
    let title = format!(in alloc; "Moss, part {title}")?;
    let article = BuiltIn::QuantizedVortex.entry(alloc)?;
    let mut article = article.with_authors(vec![in alloc; author]?);
    article.title = Some(FormatString::plain(alloc, title.as_str())?);
    Ok(article.with_date(Date::of_year(year)))
}

/// Adds the HTML of a content, and a line end.
fn push_line(alloc: Global, text: &mut String, content: &ElemChildren) -> Result<(), WorkError> {
    let html = content.to_text(alloc, BufWriteFormat::Html)?;
    text.push_str(html.as_str())?;
    text.push_str(" / ")?;
    Ok(())
}

/// The citations and works of a list as HTML, each with a slash after it.
fn text_of(alloc: Global, list: &RenderedList) -> Result<String, WorkError> {
    let mut text = String::new(alloc);
    for citation in &list.citations {
        push_line(alloc, &mut text, &citation.content)?;
    }
    if let Some(bibliography) = &list.bibliography {
        for item in &bibliography.items {
            if let Some(first) = &item.first_field {
                push_line(alloc, &mut text, first)?;
            }
            push_line(alloc, &mut text, &item.content)?;
        }
    }
    Ok(text)
}

/// A citation of a page of a work, with a text before it.
fn citation_of_page<'d>(alloc: Global, work: usize) -> Result<CitationRequest<'d>, WorkError> {
    let item = CitationItem {
        locator: Some(SpecificLocator(Locator::Page, LocatorPayload::Str("33"))),
        prefix: Some(plain_affix(alloc, "see ")?),
        ..CitationItem::new(work)
    };
    let mut request = CitationRequest::new(alloc);
    request.items.push(item)?;
    Ok(request)
}

/// A citation of two works.
fn citation_of_two<'d>(
    alloc: Global,
    one: usize,
    other: usize,
) -> Result<CitationRequest<'d>, WorkError> {
    let mut request = CitationRequest::new(alloc);
    request.items.push(CitationItem::new(one))?;
    request.items.push(CitationItem::new(other))?;
    Ok(request)
}

/// The list of a document of three works, of which two have one cite. If memory runs out in
/// rendering, renders it once more.
pub fn list(alloc: Global) -> Result<String, WorkError> {
    let style = list_style(alloc, SMALL)?;
    let mut works = Vec::new(alloc);
    for (title, author) in [2, 1, 1].iter().enumerate() {
        works.push(article(alloc, *author, 2014, title)?)?;
    }
    let mut driver = BibliographyDriver::new(alloc);
    driver.citation(citation_of_page(alloc, 1)?)?;
    driver.citation(citation_of_two(alloc, 2, 0)?)?;
    let list = twice(|| Ok(driver.finish(alloc, &style, &works, ListedWorks::All)?))?;
    text_of(alloc, &list)
}

/// Makes the list of a document of `size` works by so many authors, in so many years, with a
/// citation of each two neighbours, and counts the bytes of its HTML.
fn list_size(alloc: Global, size: usize, authors: usize, years: usize) -> Result<usize, WorkError> {
    let style = list_style(alloc, MACROS)?;
    let mut works = Vec::new(alloc);
    let mut driver = BibliographyDriver::new(alloc);
    for number in 0..size {
        let year = 1500 + (number % years) as i32;
        works.push(article(alloc, number % authors, year, number)?)?;
        driver.citation(citation_of_two(alloc, number, (number + 1) % size)?)?;
    }
    let list = driver.finish(alloc, &style, &works, ListedWorks::All)?;
    Ok(text_of(alloc, &list)?.len())
}

/// A document of `size` works by ten authors in one year, so that most cites are equal.
pub fn equal_cites(alloc: Global, size: usize) -> Result<usize, WorkError> {
    list_size(alloc, size, 10, 1)
}

/// A document of `size` works by one author, in 500 years.
pub fn one_author(alloc: Global, size: usize) -> Result<usize, WorkError> {
    list_size(alloc, size, 1, 500)
}
