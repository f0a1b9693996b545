//! Rendering, cites of two entries, and the variables and kinds that a layout names.

use crate::bench::entry::article;
use crate::bench::literature::page_ranges;
use crate::error::WorkError;
use crate::nodes::{style, title};
use crate::refuse::text_of;
use csl::entry::SpecialForm;
use csl::literature::MaybeTyped;
use csl::style::{
    CslMacro, Group, Layout, LayoutRenderingElement, PageRangeFormat, PageVariable, Style,
    StyleSettings, Text,
};
use csl::tree::simplify_fully;
use csl::{
    BufWriteFormat, CiteProperties, DisambiguateState, EntryLike, InstanceContext, RenderError,
    Rendered, cite_pair, named_by,
};
use std::alloc::Global;

/// The name of the one macro.
const MACRO: &str = "title";

/// `size` groups of a title, with a text of the macro after each.
fn nodes(alloc: Global, size: usize) -> Result<Vec<LayoutRenderingElement>, WorkError> {
    let mut nodes = Vec::new(alloc);
    for _ in 0..size {
        let children = vec![in alloc; title()]?;
        nodes.push(Group::new(children).into())?;
        nodes.push(Text::macro_call(alloc, MACRO)?.into())?;
    }
    Ok(nodes)
}

/// A style of one macro of a title, with `size` groups of a title and texts of the macro in its
/// citation layout.
fn titles(alloc: Global, size: usize) -> Result<Style, WorkError> {
    let children = vec![in alloc; title()]?;
    let macros = vec![in alloc; CslMacro::new(alloc, MACRO, children)?]?;
    style(alloc, macros, nodes(alloc, size)?)
}

/// Renders the first cite of an entry. `tools/speed` counts this call alone.
fn rendered<T: EntryLike>(
    alloc: Global,
    style: &Style,
    entry: &T,
) -> Result<Rendered, RenderError> {
    let cite_props = CiteProperties::first(DisambiguateState::None);
    csl::cite(alloc, style, entry, &cite_props)
}

/// Renders the first cite of an entry, and counts the bytes of the plain text.
pub fn text_size<T: EntryLike>(
    alloc: Global,
    style: &Style,
    entry: &T,
) -> Result<usize, WorkError> {
    let rendered = rendered(alloc, style, entry)?;
    Ok(
        rendered
            .content
            .to_text(alloc, BufWriteFormat::Plain)?
            .len(),
    )
}

/// Renders the first cite of an entry, and counts the bytes of text in the normal form of its
/// content.
pub fn simplified_size<T: EntryLike>(
    alloc: Global,
    style: &Style,
    entry: &T,
) -> Result<usize, WorkError> {
    let rendered = rendered(alloc, style, entry)?;
    Ok(simplify_fully(alloc, &rendered.content)?.str_len())
}

/// Renders an article of one author without the author, and counts the bytes of the plain text.
pub fn suppressed_size(alloc: Global, style: &Style) -> Result<usize, WorkError> {
    let cite_props = CiteProperties::first(DisambiguateState::None);
    let instance = InstanceContext {
        entry: &article(alloc, 1)?,
        cite_props: &cite_props,
        sorting: None,
        kind: Some(SpecialForm::SuppressAuthor),
    };
    Ok(text_of(alloc, style, instance)?.len())
}

/// Renders `size` groups of a title and texts of a macro for an article, and counts the children of
/// the content.
pub fn render(alloc: Global, size: usize) -> Result<usize, WorkError> {
    let style = titles(alloc, size)?;
    let article = article(alloc, 1)?;
    Ok(rendered(alloc, &style, &article)?.content.0.len())
}

/// A style that renders only pages, in the minimal format.
fn paged(alloc: Global) -> Result<Style, WorkError> {
    let pages = Text::variable(PageVariable::Page.into());
    let citation = Layout::new(vec![in alloc; pages.into()]?);
    let settings = StyleSettings {
        page_range_format: Some(PageRangeFormat::Minimal),
        ..StyleSettings::default()
    };
    let (macros, locales) = (Vec::new(alloc), Vec::new(alloc));
    Ok(Style::new(alloc, settings, macros, citation, None, locales)?)
}

/// Renders the pages of an article with `size` page ranges, and counts the bytes of the plain text.
pub fn pages_rendered(alloc: Global, size: usize) -> Result<usize, WorkError> {
    let style = paged(alloc)?;
    let mut article = article(alloc, 1)?;
    article.page_range = Some(MaybeTyped::Typed(page_ranges(alloc, size)?));
    text_size(alloc, &style, &article)
}

/// Collects the variables and kinds that the citation layout of a style names, and counts the
/// standard variables. `tools/speed` counts this call alone.
pub fn named_count(alloc: Global, style: &Style) -> Result<usize, WorkError> {
    Ok(named_by(alloc, style, style.citation())?.standards.len())
}

/// Collects the variables and kinds that groups of a title and texts of a macro name, and counts
/// the standard variables.
pub fn named(alloc: Global, size: usize) -> Result<usize, WorkError> {
    named_count(alloc, &titles(alloc, size)?)
}

/// Renders groups of a title and texts of a macro for a pair of the same article, and counts the
/// bytes of the HTML.
pub fn pair(alloc: Global, size: usize) -> Result<usize, WorkError> {
    let style = titles(alloc, size)?;
    let article = article(alloc, 1)?;
    let cite_props = CiteProperties::first(DisambiguateState::None);
    let pair = cite_pair(alloc, &style, &cite_props, &article, &article)?;
    Ok(pair.left_html.len() + pair.right_html.len())
}
