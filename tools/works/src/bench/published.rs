//! An article by a published style, N times: its cite, or its line of the bibliography. `tools/speed
//! --style` writes the style's module anew; the one that stands here has the built-in styles.

use crate::bench::published_style;
use crate::bench::render::text_size;
use crate::error::WorkError;
use csl::{BufWriteFormat, CiteProperties, DisambiguateState};
use csl_samples::BuiltIn;
use std::alloc::Global;

/// Cites the article `size` times, and counts the bytes of the plain texts.
pub fn published_cites(alloc: Global, size: usize) -> Result<usize, WorkError> {
    let style = published_style::style(alloc)?;
    let article = BuiltIn::QuantizedVortex.entry(alloc)?;
    let mut bytes = 0;
    for _ in 0..size {
        bytes += text_size(alloc, &style, &article)?;
    }
    Ok(bytes)
}

/// Writes the article's line `size` times, and counts the bytes of the plain texts. A style without
/// a bibliography has none.
pub fn published_lines(alloc: Global, size: usize) -> Result<usize, WorkError> {
    let style = published_style::style(alloc)?;
    let article = BuiltIn::QuantizedVortex.entry(alloc)?;
    let cite_props = CiteProperties::first(DisambiguateState::None);
    let mut bytes = 0;
    for _ in 0..size {
        if let Some(line) = csl::bibliography_entry(alloc, &style, &article, &cite_props)? {
            bytes += line.content.to_text(alloc, BufWriteFormat::Plain)?.len();
        }
    }
    Ok(bytes)
}
