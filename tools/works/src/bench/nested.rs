//! Layouts with deeply nested nodes.

use crate::bench::entry::article;
use crate::bench::render::{named_count, suppressed_size, text_size};
use crate::bench::strangers::allowed;
use crate::bench::styles::{branching, call, linked, numbered};
use crate::error::WorkError;
use crate::nodes::{names_or, style, title};
use csl::style::{
    CslMacro, Group, LayoutRenderingElement, NameVariable, Names, StandardVariable, Style,
};
use std::alloc::Global;

/// The limit of a layout's expanded size: above the size of each published style.
const MOST: u64 = 16_384;

/// Renders a style's citation layout for an article of one author, and counts the bytes of the plain
/// text.
fn size_for_one(alloc: Global, style: &Style) -> Result<usize, WorkError> {
    text_size(alloc, style, &article(alloc, 1)?)
}

/// Renders a title in `size` nested groups, and counts the bytes of the plain text.
pub fn groups(alloc: Global, size: usize) -> Result<usize, WorkError> {
    let mut nodes = vec![in alloc; title()]?;
    for _ in 0..size {
        nodes = vec![in alloc; Group::new(nodes).into()]?;
    }
    size_for_one(alloc, &style(alloc, Vec::new(alloc), nodes)?)
}

/// A style of these macros, whose citation layout calls the first.
fn first_of(alloc: Global, macros: Vec<CslMacro>) -> Result<Style, WorkError> {
    let nodes = vec![in alloc; call(alloc, 0)?]?;
    style(alloc, macros, nodes)
}

/// Renders a chain of `size` macros, the last with a title, and counts the bytes of the plain text.
pub fn macros(alloc: Global, size: usize) -> Result<usize, WorkError> {
    let macros = linked(alloc, size, 1, StandardVariable::Title.into())?;
    size_for_one(alloc, &first_of(alloc, macros)?)
}

/// The authors.
fn authors(alloc: Global) -> Result<LayoutRenderingElement, WorkError> {
    let variables = vec![in alloc; NameVariable::Author]?;
    Ok(Names::new(alloc, variables).into())
}

/// A style of a node in `size` nested substitutes of editors.
fn substituted_style(
    alloc: Global,
    size: usize,
    node: LayoutRenderingElement,
) -> Result<Style, WorkError> {
    let mut nodes = vec![in alloc; node]?;
    for _ in 0..size {
        let editors = vec![in alloc; NameVariable::Editor]?;
        nodes = vec![in alloc; names_or(alloc, editors, nodes)?]?;
    }
    style(alloc, Vec::new(alloc), nodes)
}

/// Renders the author of an article without editors, in `size` nested substitutes of editors, and
/// counts the bytes of the plain text.
pub fn substitutes(alloc: Global, size: usize) -> Result<usize, WorkError> {
    size_for_one(alloc, &substituted_style(alloc, size, authors(alloc)?)?)
}

/// Renders the title of such an article in the same substitutes, without the author, and counts the
/// bytes of the plain text.
pub fn substitutes_suppressed(alloc: Global, size: usize) -> Result<usize, WorkError> {
    suppressed_size(alloc, &substituted_style(alloc, size, title())?)
}

/// A style of `size` nested substitutes of editors, each with a group in it. The last group has the
/// title.
fn grouped_style(alloc: Global, size: usize) -> Result<Style, WorkError> {
    let mut nodes = vec![in alloc; title()]?;
    for _ in 0..size {
        let editors = vec![in alloc; NameVariable::Editor]?;
        let group = vec![in alloc; Group::new(nodes).into()]?;
        nodes = vec![in alloc; names_or(alloc, editors, group)?]?;
    }
    style(alloc, Vec::new(alloc), nodes)
}

/// Renders the title of an article without editors, in `size` nested substitutes with a group, and
/// counts the bytes of the plain text.
pub fn grouped_substitutes(alloc: Global, size: usize) -> Result<usize, WorkError> {
    size_for_one(alloc, &grouped_style(alloc, size)?)
}

/// Renders the same without the author, and counts the bytes of the plain text.
pub fn grouped_substitutes_suppressed(alloc: Global, size: usize) -> Result<usize, WorkError> {
    suppressed_size(alloc, &grouped_style(alloc, size)?)
}

/// A style of `size` macros. Each calls the next twice. The last has two texts of the genre, which
/// no entry here has. The citation layout calls the first macro. Expanded it has `2^size` texts.
fn doubling_style(alloc: Global, size: usize) -> Result<Style, WorkError> {
    first_of(
        alloc,
        linked(alloc, size, 2, StandardVariable::Genre.into())?,
    )
}

/// Renders a layout of `size` macros, each of which calls the next twice, and counts the bytes of
/// the plain text. There are none. Without the memory of its macros a dry run would not end.
pub fn doubling(alloc: Global, size: usize) -> Result<usize, WorkError> {
    size_for_one(alloc, &doubling_style(alloc, size)?)
}

/// Collects the variables and kinds that this layout names, and counts the standard variables.
/// Nothing is rendered.
pub fn doubling_named(alloc: Global, size: usize) -> Result<usize, WorkError> {
    named_count(alloc, &doubling_style(alloc, size)?)
}

/// The size of a style's citation layout with each macro expanded, or 0 if it is larger than
/// [`MOST`]. `tools/speed` counts this call alone.
fn expanded_size(style: &Style) -> u64 {
    style.expanded_size(style.citation(), MOST).unwrap_or(0)
}

/// The expanded size of this layout. Nothing is rendered.
pub fn doubling_size(alloc: Global, size: usize) -> Result<usize, WorkError> {
    Ok(expanded_size(&doubling_style(alloc, size)?) as usize)
}

/// Asks about a style whose citation prints the title, with `size` macros for sort keys, each of which
/// calls the next twice.
pub fn sort_key_asked(alloc: Global, size: usize) -> Result<usize, WorkError> {
    let macros = linked(alloc, size, 2, StandardVariable::Title.into())?;
    allowed(alloc, &style(alloc, macros, vec![in alloc; title()]?)?)
}

/// Asks about such a style with 9 such macros, the nodes of the first of the size 1,532, and `size` more,
/// each of which calls the first.
pub fn macros_asked(alloc: Global, size: usize) -> Result<usize, WorkError> {
    let mut macros = linked(alloc, 9, 2, StandardVariable::Title.into())?;
    for number in 9..9 + size {
        macros.push(numbered(alloc, number, vec![in alloc; call(alloc, 0)?]?)?)?;
    }
    allowed(alloc, &style(alloc, macros, vec![in alloc; title()]?)?)
}

/// Whether a layout of `size` macros, each of which calls the next in two branches of a choose, is
/// within the limits for strangers: 1 or 0. Nothing is rendered. Of the branches the larger counts.
pub fn branching_size(alloc: Global, size: usize) -> Result<usize, WorkError> {
    allowed(alloc, &first_of(alloc, branching(alloc, size)?)?)
}
