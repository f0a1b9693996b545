//! The bibliography of an author-date style, as in large styles: twenty-one macros, nodes nested up
//! fifteen deep with the macros expanded, choices and substitutes.

use crate::bench::render::{simplified_size, text_size};
use crate::bench::rows::style_of;
use crate::error::WorkError;
use csl::style::Style;
use csl_samples::BuiltIn;
use std::alloc::Global;

/// The macros: `entry` is a line of the bibliography.
pub const MACROS: &str = "\
    (macro name=entry \
        (group delimiter='. ' (text macro=authors-and-year) (text macro=work) \
            (text macro=access))) \
    (macro name=authors-and-year (group delimiter=' ' (text macro=authors) (text macro=year))) \
    (macro name=authors \
        (names composer (name and=text name-as-sort-order=first) (substitute \
            (text macro=writers)))) \
    (macro name=writers \
        (names author (name and=text name-as-sort-order=first) (substitute (text macro=editors)))) \
    (macro name=editors \
        (names editor (name and=text name-as-sort-order=first) (substitute \
            (text macro=translators)))) \
    (macro name=translators \
        (names translator (name and=text name-as-sort-order=first) (substitute \
            (text macro=title)))) \
    (macro name=title (choose (if variable=title title) (else 'Untitled'))) \
    (macro name=year (choose (if variable=issued (date issued year)) (else 'n.d.'))) \
    (macro name=work \
        (group delimiter='. ' (text macro=title-of-work) (text macro=original) \
            (text macro=source))) \
    (macro name=title-of-work \
        (choose (if type=book title) (else (text variable=title quotes=true)))) \
    (macro name=original (group delimiter=' ' 'First published' (date original-date year))) \
    (macro name=source \
        (choose (if type=article-journal (text macro=journal)) (else (text macro=book)))) \
    (macro name=journal \
        (group delimiter=', ' (text macro=container) (text macro=numbering) (text macro=pages))) \
    (macro name=container \
        (choose (if variable=container-title container-title) (else (text macro=title)))) \
    (macro name=numbering (group delimiter=', ' (text macro=volume) (text macro=issue))) \
    (macro name=volume (group delimiter=' ' (label volume form=short) (number volume))) \
    (macro name=issue (choose (if variable=issue (number issue)) (else (number number)))) \
    (macro name=pages (group delimiter=' ' (label page form=short) page)) \
    (macro name=book (group delimiter=', ' (text macro=editors) (text macro=publisher))) \
    (macro name=publisher (group delimiter=': ' publisher-place publisher)) \
    (macro name=access (choose (if variable=DOI DOI) (else URL)))";

/// The style of these macros.
pub fn style(alloc: Global) -> Result<Style, WorkError> {
    style_of(alloc, MACROS, "entry")
}

/// Cites an article of a journal `size` times in the style, in English, and counts the bytes of the
/// plain texts.
pub fn bibliography(alloc: Global, size: usize) -> Result<usize, WorkError> {
    let style = style(alloc)?;
    let article = BuiltIn::QuantizedVortex.entry(alloc)?;
    let mut bytes = 0;
    for _ in 0..size {
        bytes += text_size(alloc, &style, &article)?;
    }
    Ok(bytes)
}

/// Cites the article `size` times, makes the normal form of each content, and counts the bytes of
/// text in these.
pub fn bibliography_simplified(alloc: Global, size: usize) -> Result<usize, WorkError> {
    let style = style(alloc)?;
    let article = BuiltIn::QuantizedVortex.entry(alloc)?;
    let mut bytes = 0;
    for _ in 0..size {
        bytes += simplified_size(alloc, &style, &article)?;
    }
    Ok(bytes)
}
