//! The citation of a note style, as in large styles: a full reference of twenty-five macros, with
//! persons in substitutes and choices by kind.

use crate::bench::render::text_size;
use crate::bench::rows::style_of;
use crate::error::WorkError;
use csl_samples::BuiltIn;
use std::alloc::Global;

const MACROS: &str = "\
    (macro name=note \
        (group delimiter=', ' (text macro=contributors) (text macro=title) \
            (text macro=secondary) (text macro=source) (text macro=access))) \
    (macro name=contributors (names author (name and=text) (substitute (text macro=editors)))) \
    (macro name=editors (names editor (name and=text) (substitute (text macro=translators)))) \
    (macro name=translators \
        (names translator (name and=text) (substitute (text macro=no-person)))) \
    (macro name=no-person (choose (if variable=title (text macro=title)) (else 'Anonymous'))) \
    (macro name=title (choose (if type=book title) (else (text variable=title quotes=true)))) \
    (macro name=secondary (group delimiter=', ' (text macro=edited) (text macro=translated))) \
    (macro name=edited (group delimiter=' ' 'ed.' (text macro=editor))) \
    (macro name=editor (names editor (name and=text) (substitute))) \
    (macro name=translated (group delimiter=' ' 'trans.' (text macro=translator))) \
    (macro name=translator (names translator (name and=text) (substitute))) \
    (macro name=source \
        (choose (if type=article-journal (text macro=article)) (else (text macro=book)))) \
    (macro name=article (group delimiter=': ' (text macro=periodical) (text macro=pages))) \
    (macro name=periodical \
        (group delimiter=' ' (text macro=container) (text macro=volume) (text macro=date))) \
    (macro name=container \
        (choose (if variable=container-title container-title) (else (text macro=title)))) \
    (macro name=volume (group delimiter=', no. ' (number volume) (text macro=issue))) \
    (macro name=issue (choose (if variable=issue issue) (else (number number)))) \
    (macro name=date (choose (if variable=issued (date issued year)) (else 'n.d.'))) \
    (macro name=pages (choose (if variable=page page) (else (number number-of-pages)))) \
    (macro name=book \
        (group delimiter=', ' (text macro=inside) (text macro=publication) (text macro=pages))) \
    (macro name=inside (group delimiter=' ' 'in' container-title)) \
    (macro name=publication (group delimiter=': ' publisher-place (text macro=publisher))) \
    (macro name=publisher (group delimiter=', ' publisher (text macro=date))) \
    (macro name=access (choose (if variable=DOI DOI) (else (text macro=archive)))) \
    (macro name=archive (group delimiter=', ' archive URL))";

/// Cites an article of a journal `size` times by a full note, in English, and counts the bytes of
/// the plain texts.
pub fn full_note(alloc: Global, size: usize) -> Result<usize, WorkError> {
    let style = style_of(alloc, MACROS, "note")?;
    let article = BuiltIn::QuantizedVortex.entry(alloc)?;
    let mut bytes = 0;
    for _ in 0..size {
        bytes += text_size(alloc, &style, &article)?;
    }
    Ok(bytes)
}
