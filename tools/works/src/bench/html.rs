//! HTML, written and read.

use crate::error::WorkError;
use crate::trees::text;
use csl::{BufWriteFormat, ElemChildren, leaf_text_of_html};
use std::alloc::Global;

/// A text with every reserved character of HTML.
const RESERVED: &str = "a<b & \"c\">";

/// A text of the same length without reserved characters.
const PLAIN: &str = "a-b - .c._";

/// The HTML of a tree of `size` copies of a text.
fn html_of(alloc: Global, words: &str, size: usize) -> Result<String, WorkError> {
    let mut children = Vec::new(alloc);
    for _ in 0..size {
        children.push(text(alloc, words)?)?;
    }
    Ok(ElemChildren(children).to_text(alloc, BufWriteFormat::Html)?)
}

/// Writes a tree of texts with reserved characters as HTML and reads it back. Counts the bytes of
/// both.
pub fn html(alloc: Global, size: usize) -> Result<usize, WorkError> {
    let html = html_of(alloc, RESERVED, size)?;
    let leaves = leaf_text_of_html(alloc, html.as_str())?;
    Ok(html.len() + leaves.len())
}

/// Writes a tree of texts without reserved characters as HTML, and counts the bytes.
pub fn html_plain(alloc: Global, size: usize) -> Result<usize, WorkError> {
    Ok(html_of(alloc, PLAIN, size)?.len())
}
