//! The English locale, and a style made by constructors.

use crate::error::WorkError;
use crate::nodes::style;
use crate::refuse::twice;
use csl::english;
use csl::style::{
    Affixes, CslMacro, Group, LayoutRenderingElement, NameVariable, Names, StandardVariable, Text,
};
use std::alloc::Global;

/// Makes the English locale, and counts its parts. If memory runs out, makes it once more.
pub fn locale(alloc: Global) -> Result<String, WorkError> {
    let locale = twice(|| Ok(english(alloc)?))?;
    let (terms, ordinals) = (locale.terms.len(), locale.ordinals.len());
    let dates = locale.dates.len();
    Ok(format!(in alloc; "{terms} terms, {ordinals} ordinals, {dates} dates")?)
}

/// The macro `author`, of the authors' names.
fn author(alloc: Global) -> Result<CslMacro, WorkError> {
    let names = Names::new(alloc, vec![in alloc; NameVariable::Author]?);
    Ok(CslMacro::new(alloc, "author", vec![in alloc; names.into()]?)?)
}

/// A group of the authors, by the macro, and of the title in brackets.
fn cite(alloc: Global) -> Result<LayoutRenderingElement, WorkError> {
    let author = Text::macro_call(alloc, "author")?;
    let title = Text {
        affixes: Affixes::around(alloc, "[", "]")?,
        ..Text::variable(StandardVariable::Title.into())
    };
    let group = Group::delimited(alloc, " ", vec![in alloc; author.into(), title.into()]?)?;
    Ok(group.into())
}

/// The first macro name that a style of one cite calls but does not define, or `none`. The style is
/// with or without the macro that the cite calls.
fn missing(alloc: Global, has_macro: bool) -> Result<String, WorkError> {
    let mut macros = Vec::new(alloc);
    if has_macro {
        macros.push(author(alloc)?)?;
    }
    let nodes = vec![in alloc; cite(alloc)?]?;
    let style = style(alloc, macros, nodes)?;
    Ok(String::from_str(alloc, style.missing_macro().unwrap_or("none"))?)
}

/// The missing macro of a style made by constructors, with its macro and without. If memory runs
/// out in the first, makes it once more.
pub fn constructed(alloc: Global) -> Result<String, WorkError> {
    let with = twice(|| missing(alloc, true))?;
    let without = missing(alloc, false)?;
    Ok(format!(in alloc; "lacks {with}, and {without} without its macro")?)
}
