//! A work and a cite from JSON.

use crate::error::WorkError;
use crate::refuse::twice;
use csl::entry::LocatorPayload;
use csl::literature::LongShortForm;
use csl::style::{NameVariable, StandardVariable};
use csl::{DisambiguateState, EntryLike};
use csl_wire::{WireError, value_of_text};
use csl_wire_cite::{WireEntry, WorkLimits, cite_of, entry_of};
use std::alloc::Global;

/// A work with an answer of each sort.
const WORK: &str = r#"{"type": ["book"], "key": "kwan", "variables": {
    "title": {"long": ["Crazy ", {"verbatim": "rich"}], "short": "Crazy"}, "volume": "9a",
    "edition": "second edition", "page": "321-328, 7",
    "author": [{"family": "Kwan", "given": "Kevin", "prefix": "van", "suffix": "Jr."}],
    "issued": {"year": 2014, "month": 5}}}"#;

/// A cite with the forms of its names.
const CITE: &str = r#"{"position": "ibid", "locator": {"label": "page", "value": "7"},
    "names": {"default": "short", "variable": ["author"], "lists": [["long", null]]}}"#;

/// A name that is misspelled.
const MISSPELLED: &str = r#"{"variables": {"titel": "Crazy"}}"#;

fn error_of(error: WireError) -> WorkError {
    match error {
        WireError::Memory => WorkError::Memory,
        WireError::Refused(_) => WorkError::Unexpected("the value is refused"),
    }
}

/// The work of a text.
fn read(alloc: Global, text: &str) -> Result<WireEntry, WireError> {
    let value = value_of_text(alloc, text)?;
    entry_of(alloc, &value, WorkLimits::of_strangers())
}

/// Reads a work from JSON, and one that is refused. If memory runs out in the first, reads it once
/// more.
pub fn entry(alloc: Global) -> Result<String, WorkError> {
    let entry = twice(|| read(alloc, WORK).map_err(error_of))?;
    let form = LongShortForm::Short;
    let title = entry.resolve_standard_variable(alloc, form, StandardVariable::Title)?;
    let pieces = match &title {
        Some(title) => title.as_ref().0.len(),
        None => 0,
    };
    let persons = entry
        .resolve_name_variable(alloc, NameVariable::Author)?
        .len();
    let key = entry.key.as_str();
    match read(alloc, MISSPELLED) {
        Ok(_) => Err(WorkError::Unexpected("a misspelled name is read")),
        Err(WireError::Memory) => Err(WorkError::Memory),
        Err(WireError::Refused(refusal)) => {
            let place = refusal.pointer(alloc)?;
            Ok(format!(in alloc; "{key}, {pieces} piece, {persons} person; {place}: {refusal}")?)
        }
    }
}

/// The locator of a cite from JSON, and the number of lists of forms.
pub fn cite(alloc: Global) -> Result<String, WorkError> {
    let value = twice(|| value_of_text(alloc, CITE).map_err(error_of))?;
    let cite = cite_of(alloc, &value, WorkLimits::of_strangers()).map_err(error_of)?;
    let lists = match &cite.properties.speculative.disambiguation {
        DisambiguateState::NameDisambiguation(names) => names.name_forms().len(),
        _ => 0,
    };
    let text = match cite.properties.speculative.locator {
        Some(locator) => match locator.1 {
            LocatorPayload::Str(text) => text,
            LocatorPayload::Transparent => "",
        },
        None => "",
    };
    Ok(format!(in alloc; "locator {text}, {lists} list")?)
}
