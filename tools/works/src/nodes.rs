//! Layout nodes, and styles without locales.

use crate::error::WorkError;
use csl::style::{
    CslMacro, Layout, LayoutRenderingElement, NameVariable, Names, StandardVariable, Style,
    StyleSettings, Substitute, Text,
};
use std::alloc::Global;

/// A text of the title.
pub fn title() -> LayoutRenderingElement {
    Text::variable(StandardVariable::Title.into()).into()
}

/// A list of one text, `a`.
pub fn letter(alloc: Global) -> Result<Vec<LayoutRenderingElement>, WorkError> {
    Ok(vec![in alloc; Text::value(alloc, "a")?.into()]?)
}

/// The names of the variables, with these nodes in their substitute.
pub fn names_or(
    alloc: Global,
    variables: Vec<NameVariable>,
    nodes: Vec<LayoutRenderingElement>,
) -> Result<LayoutRenderingElement, WorkError> {
    let substitute = Substitute { children: nodes };
    let names = Names {
        children: vec![in alloc; substitute.into()]?,
        ..Names::new(alloc, variables)
    };
    Ok(names.into())
}

/// A style of these macros and of a citation layout of these nodes, without locales.
pub fn style(
    alloc: Global,
    macros: Vec<CslMacro>,
    nodes: Vec<LayoutRenderingElement>,
) -> Result<Style, WorkError> {
    let settings = StyleSettings::default();
    let citation = Layout::new(nodes);
    Ok(Style::new(alloc, settings, macros, citation, None, Vec::new(alloc))?)
}
