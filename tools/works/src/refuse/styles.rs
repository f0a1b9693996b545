//! Styles of macros and a locale.

use crate::error::WorkError;
use crate::nodes::letter;
use crate::refuse::twice;
use csl::style::{
    CslMacro, Layout, Locale, OtherTerm, Style, StyleError, StyleSettings, Term, TermEntry,
    TermForm, Text,
};
use std::alloc::Global;

/// The name of a macro, and the name of the macro that it calls.
type Row = (&'static str, &'static str);

/// Macros that each call the next. The last calls an absent macro.
pub static CHAIN: [Row; 3] = [("title", "label"), ("label", "dots"), ("dots", "absent")];

/// Two macros that call each other, after a macro that calls one of them.
pub static CYCLE: [Row; 3] = [("x", "a"), ("a", "b"), ("b", "a")];

const ET_AL: Term = Term::Other(OtherTerm::EtAl);

/// The macros of the rows.
fn macros(alloc: Global, rows: &[Row]) -> Result<Vec<CslMacro>, WorkError> {
    let mut macros = Vec::new(alloc);
    for row in rows {
        let nodes = vec![in alloc; Text::macro_call(alloc, row.1)?.into()]?;
        macros.push(CslMacro::new(alloc, row.0, nodes)?)?;
    }
    Ok(macros)
}

/// A locale with one term.
fn locale(alloc: Global) -> Result<Locale, WorkError> {
    let term = TermEntry::new(alloc, ET_AL, TermForm::Long, "and others")?;
    Ok(Locale {
        terms: vec![in alloc; term]?,
        ..Locale::new(alloc)
    })
}

/// A style of the rows' macros, or its error: a macro may lead back to itself.
fn style(alloc: Global, rows: &[Row]) -> Result<Result<Style, StyleError>, WorkError> {
    let macros = macros(alloc, rows)?;
    let locales = vec![in alloc; locale(alloc)?]?;
    let citation = Layout::new(letter(alloc)?);
    let settings = StyleSettings::default();
    Ok(Style::new(alloc, settings, macros, citation, None, locales))
}

/// The names of a style's macros, and its term.
fn parts(alloc: Global, style: &Style) -> Result<String, WorkError> {
    let mut parts = String::new(alloc);
    for named in style.macros() {
        write!(&mut parts, "{} ", named.name)?;
    }
    if let Some(term) = style.term(ET_AL, TermForm::Long, false) {
        parts.push_str(term)?;
    }
    Ok(parts)
}

/// The macros' names and the term of a style of the rows, or the name of a macro that leads back to
/// itself.
fn parts_or_error(alloc: Global, rows: &[Row]) -> Result<String, WorkError> {
    match style(alloc, rows)? {
        Ok(style) => parts(alloc, &style),
        Err(StyleError::CyclicMacro(name)) => {
            Ok(format!(in alloc; "{name} leads back to itself")?)
        }
        Err(error) => Err(error.into()),
    }
}

/// Makes a style of the rows, and returns its parts or its error as a text. If memory runs out,
/// makes it once more from new parts.
pub fn style_of(alloc: Global, rows: &[Row]) -> Result<String, WorkError> {
    twice(|| parts_or_error(alloc, rows))
}
