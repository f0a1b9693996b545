//! What a work answers, as texts.

use crate::described::Description;
use crate::wire::{json, told};
use csl_elements::{
    DateVariable, NameVariable, NumberVariable, PageVariable, StandardVariable, Variable,
};
use csl_entry::EntryLike;
use csl_wire::WireError;
use csl_wire_cite::{WireEntry, WorkLimits, entry_of};
use lit_model::{ChunkKind, ChunkedString, LongShortForm, MaybeTyped, Person};
use std::alloc::Global;
use std::process::Abort;

/// The entry of a text, as that of a stranger.
pub(crate) fn read_entry(
    rt: &impl Abort,
    alloc: Global,
    text: &str,
) -> Result<WireEntry, WireError> {
    entry_of(alloc, &json(rt, alloc, text), WorkLimits::of_strangers())
}

/// Appends a text by its pieces, with `+` between them. A backtick is before one that is verbatim, and
/// `$` before mathematics.
fn pieces<R: Abort>(out: &mut Description<'_, R>, text: &ChunkedString) {
    for (index, piece) in text.0.iter().enumerate() {
        out.push(if index > 0 { "+" } else { "" });
        out.push(match piece.kind {
            ChunkKind::Normal => "",
            ChunkKind::Verbatim => "`",
            ChunkKind::Math => "$",
        });
        out.push(piece.value.as_str());
    }
}

/// Appends a text in both forms.
fn standard<R: Abort>(out: &mut Description<'_, R>, entry: &WireEntry, name: StandardVariable) {
    for form in [LongShortForm::Long, LongShortForm::Short] {
        let text = entry.resolve_standard_variable(out.alloc, form, name);
        if let Some(text) = text.expect(out.rt, "memory") {
            pieces(out, text.as_ref());
        }
        out.push(if form == LongShortForm::Long {
            " / "
        } else {
            ""
        });
    }
}

fn number<R: Abort>(out: &mut Description<'_, R>, entry: &WireEntry, name: NumberVariable) {
    let found = entry.resolve_number_variable(out.alloc, name);
    match found.expect(out.rt, "memory") {
        Some(MaybeTyped::Typed(number)) => out.shown("number ", number.as_ref()),
        Some(MaybeTyped::String(text)) => out.shown("text ", &text),
        None => {}
    }
}

fn pages<R: Abort>(out: &mut Description<'_, R>, entry: &WireEntry) {
    let found = entry.resolve_page_variable(out.alloc, PageVariable::Page);
    match found.expect(out.rt, "memory") {
        Some(MaybeTyped::Typed(pages)) => out.shown("pages ", &pages),
        Some(MaybeTyped::String(text)) => out.shown("text ", &text),
        None => {}
    }
}

/// Appends the parts of a name: `family|given|prefix|suffix`, and a comma if one precedes the suffix.
fn person<R: Abort>(out: &mut Description<'_, R>, person: &Person) {
    out.push(person.name.as_str());
    for part in [&person.given_name, &person.prefix, &person.suffix] {
        out.push("|");
        out.push(part.as_deref().unwrap_or("-"));
    }
    out.push(if person.comma_suffix { "|," } else { "" });
}

fn persons<R: Abort>(out: &mut Description<'_, R>, entry: &WireEntry, name: NameVariable) {
    let persons = entry.resolve_name_variable(out.alloc, name);
    for (index, it) in persons.expect(out.rt, "memory").iter().enumerate() {
        out.push(if index > 0 { "; " } else { "" });
        person(out, it.as_ref());
    }
}

/// Appends the parts of a date, with months and days from 0.
fn date<R: Abort>(out: &mut Description<'_, R>, entry: &WireEntry, name: DateVariable) {
    let found = entry.resolve_date_variable(out.alloc, name);
    if let Some(date) = found.expect(out.rt, "memory") {
        let date = date.as_ref();
        out.debug(date.year());
        out.value(date.month());
        out.value(date.day());
        out.value(date.season());
        out.value(date.approximate());
    }
}

/// What the entry with these variables answers to the variable of this name, nothing if it does not
/// answer, or the refusal.
pub(crate) fn answer_to(rt: &impl Abort, alloc: Global, name: &str, variables: &str) -> String {
    let text = format!(in alloc; "{{\"variables\": {variables}}}").expect(rt, "memory");
    let entry = match read_entry(rt, alloc, text.as_str()) {
        Ok(entry) => entry,
        Err(error) => return told(rt, alloc, error),
    };
    let mut out = Description::new(rt, alloc);
    match Variable::from_name(name).expect(rt, "a variable") {
        Variable::Standard(name) => standard(&mut out, &entry, name),
        Variable::Number(name) => number(&mut out, &entry, name),
        Variable::Page(_) => pages(&mut out, &entry),
        Variable::Name(name) => persons(&mut out, &entry, name),
        Variable::Date(name) => date(&mut out, &entry, name),
    }
    out.into_text()
}
