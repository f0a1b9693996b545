//! The answers to what a row asks of a document: its citations and its bibliography.

use crate::fault::Fault;
use crate::names::Name;
use crate::question::{As, OfList};
use crate::tree_words::{add_children, add_word};
use csl::{BufWriteFormat, ElemChildren};
use csl_list::{RenderedBibliography, RenderedList};
use std::alloc::Global;

/// Appends a content.
fn add_content(words: &mut String, content: &ElemChildren, form: As) -> Result<(), Fault> {
    match form {
        As::Plain => Ok(content.write_buf(words, BufWriteFormat::Plain)?),
        As::Html => Ok(content.write_buf(words, BufWriteFormat::Html)?),
        As::Tree => add_children(words, content, true),
    }
}

/// Appends a work of the bibliography by its place, which counts from 1. A first field that is apart
/// is before a bar.
fn add_item(
    words: &mut String,
    bibliography: &RenderedBibliography,
    place: usize,
    form: As,
) -> Result<(), Fault> {
    let Some(item) = bibliography.items.get(place.wrapping_sub(1)) else {
        return Ok(words.push_str("(no such item)")?);
    };
    if let Some(first) = &item.first_field {
        add_content(words, first, form)?;
        words.push_str(" | ")?;
    }
    add_content(words, &item.content, form)
}

/// Appends the numbers of the works of the bibliography, which count from 1, in their order.
fn add_order(
    words: &mut String,
    alloc: Global,
    bibliography: &RenderedBibliography,
) -> Result<(), Fault> {
    for item in &bibliography.items {
        let number = item.work.saturating_add(1);
        let number = format!(in alloc; "{number}")?;
        add_word(words, number.as_str())?;
    }
    Ok(())
}

/// Appends how the bibliography looks, as the attributes of the style.
fn add_looks(
    words: &mut String,
    alloc: Global,
    bibliography: &RenderedBibliography,
) -> Result<(), Fault> {
    let (lines, entries) = (bibliography.line_spacing, bibliography.entry_spacing);
    if bibliography.hanging_indent {
        add_word(words, "hanging-indent=true")?;
    }
    if let Some(align) = bibliography.second_field_align {
        add_word(words, "second-field-align=")?;
        words.push_str(align.name())?;
    }
    let spacing = format!(in alloc; "line-spacing={lines} entry-spacing={entries}")?;
    add_word(words, spacing.as_str())
}

/// The answer to a question about a document.
pub fn answer_of_list(
    alloc: Global,
    list: &RenderedList,
    question: OfList,
) -> Result<String, Fault> {
    let mut words = String::new(alloc);
    match (question, &list.bibliography) {
        (OfList::Citation(place, form), _) => {
            match list.citations.get(place.wrapping_sub(1)) {
                Some(citation) => add_content(&mut words, &citation.content, form)?,
                None => words.push_str("(no such citation)")?,
            }
        }
        (OfList::Error, _) => words.push_str("none")?,
        (_, None) => words.push_str("(no bibliography)")?,
        (OfList::Item(place, form), Some(own)) => add_item(&mut words, own, place, form)?,
        (OfList::Order, Some(own)) => add_order(&mut words, alloc, own)?,
        (OfList::Looks, Some(own)) => add_looks(&mut words, alloc, own)?,
    }
    Ok(words)
}
