//! Styles in English whose macros are in the notation of rows.

use crate::bench::cites::in_english;
use crate::error::WorkError;
use crate::reader::form::{Form, Forms};
use crate::reader::nodes::macro_of;
use csl::style::{CslMacro, Style, Text};
use std::alloc::Global;

/// The macros of a text, each a list `(macro name=year (date issued year))`.
pub fn macros(alloc: Global, text: &str) -> Result<Vec<CslMacro>, WorkError> {
    let forms = Forms::read(alloc, text)?;
    let mut macros = Vec::new(alloc);
    for form in &forms.items {
        match form {
            Form::List("macro", inside) => macros.push(macro_of(inside)?)?,
            _ => return Err(WorkError::Unexpected("this is no macro")),
        }
    }
    Ok(macros)
}

/// A style in English with the macros of a text, whose citation layout calls this macro.
pub fn style_of(alloc: Global, text: &str, first: &str) -> Result<Style, WorkError> {
    let call = Text::macro_call(alloc, first)?;
    in_english(alloc, macros(alloc, text)?, call.into(), 0)
}
