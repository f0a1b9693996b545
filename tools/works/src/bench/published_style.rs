//! The style that is counted where no other is given.

use crate::error::WorkError;
use csl::style::Style;
use csl_samples::BuiltInStyle;
use std::alloc::Global;

/// The built-in style `author-date`.
pub fn style(alloc: Global) -> Result<Style, WorkError> {
    Ok(BuiltInStyle::AuthorDate.style(alloc)?)
}
