//! A whole bibliography, as a driver makes one: a style for the cites and one for the lines, the
//! entries, and the HTML of each, which is kept.

use crate::bench::bibliography;
use crate::error::WorkError;
use csl::literature::Person;
use csl::style::Style;
use csl::{BufWriteFormat, CiteProperties, DisambiguateState, Entry};
use csl_samples::{BuiltIn, BuiltInStyle};
use std::alloc::Global;

/// An article of a journal, by an author of its own.
fn entry(alloc: Global, number: usize) -> Result<Entry, WorkError> {
    let name = format!(in alloc; "Author {number}")?;
    let author = Person::new(alloc, name.as_str(), "Ada B.")?;
    let article = BuiltIn::QuantizedVortex.entry(alloc)?;
    Ok(article.with_authors(vec![in alloc; author]?))
}

/// The HTML of an entry's first cite in a style.
fn html(alloc: Global, style: &Style, entry: &Entry) -> Result<String, WorkError> {
    let cite_props = CiteProperties::first(DisambiguateState::None);
    let rendered = csl::cite(alloc, style, entry, &cite_props)?;
    Ok(rendered.content.to_text(alloc, BufWriteFormat::Html)?)
}

/// Makes `size` entries, and the HTML of each by an author-date style and by the layout of a
/// bibliography. Keeps all of them, and counts the texts that have the author's name.
pub fn whole(alloc: Global, size: usize) -> Result<usize, WorkError> {
    let styles = [
        BuiltInStyle::AuthorDate.style(alloc)?,
        bibliography::style(alloc)?,
    ];
    let mut texts = Vec::new(alloc);
    for number in 0..size {
        let entry = entry(alloc, number)?;
        for style in &styles {
            texts.push(html(alloc, style, &entry)?)?;
        }
    }
    Ok(texts.iter().filter(|it| it.contains("Author ")).count())
}
