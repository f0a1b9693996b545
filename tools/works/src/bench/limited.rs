//! Strangers' styles and works that would write without bound, under a limit of a million bytes.

use crate::bench::entry::article;
use crate::bench::lists::{editions_of, many_ordinals, ordinal_editions};
use crate::bench::literature::{authors, page_ranges, repetition};
use crate::bench::strangers::repeated;
use crate::error::WorkError;
use csl::literature::{MaybeTyped, Person};
use csl::style::{
    InheritableNameOptions, Layout, LayoutRenderingElement, Locale, Name, NameVariable, Names,
    Number, NumberOrPageVariable, PageVariable, StyleSettings,
};
use csl::{
    CiteProperties, Context, DisambiguateState, Entry, InstanceContext, RenderCsl, Scope, Style,
};
use std::alloc::Global;

/// The bytes of a request.
const LIMIT: u64 = 1_000_000;

/// The bytes of the text of a cite by these nodes, or 0 if the limit refuses it. The style is within
/// the limits of a stranger's.
fn text_size(
    alloc: Global,
    nodes: Vec<LayoutRenderingElement>,
    locales: Vec<Locale>,
    entry: &Entry,
) -> Result<usize, WorkError> {
    let (settings, macros) = (StyleSettings::default(), Vec::new(alloc));
    let style = Style::new(alloc, settings, macros, Layout::new(nodes), None, locales)?;
    if !style.rendered_within(style.citation(), 2_000, 20_000, 64) {
        return Err(WorkError::Unexpected("above the limits"));
    }
    let cite_props = CiteProperties::first(DisambiguateState::None);
    let instance = InstanceContext {
        entry,
        cite_props: &cite_props,
        sorting: None,
        kind: None,
    };
    let mut ctx = Context::new(alloc, &style, instance, Scope::Citation)?;
    ctx.limit(LIMIT);
    if style.citation().render(&mut ctx).is_err() {
        let room = ctx.room();
        drop(ctx);
        return if room == 0 {
            Ok(0)
        } else {
            Err(WorkError::Memory)
        };
    }
    Ok(ctx.finish()?.content.str_len())
}

/// The authors, with these options.
fn named(
    alloc: Global,
    options: InheritableNameOptions,
) -> Result<LayoutRenderingElement, WorkError> {
    let name = Name {
        options,
        ..Name::new(alloc)
    };
    let names = Names {
        children: vec![in alloc; name.into()]?,
        ..Names::new(alloc, vec![in alloc; NameVariable::Author]?)
    };
    Ok(names.into())
}

/// A hundred authors, 251 times, between them a text of `size` bytes.
pub fn long_delimiter(alloc: Global, size: usize) -> Result<usize, WorkError> {
    let nodes = repeated(alloc, 251, || {
        let options = InheritableNameOptions {
            delimiter: Some(repetition(alloc, "x", size, "")?),
            ..InheritableNameOptions::default()
        };
        named(alloc, options)
    })?;
    let mut article = article(alloc, 1)?;
    article.authors = Some(authors(alloc, 100)?);
    text_size(alloc, nodes, Vec::new(alloc), &article)
}

/// An author of 3,300 initials, 251 times, each with a text of `size` bytes.
pub fn long_initials(alloc: Global, size: usize) -> Result<usize, WorkError> {
    let nodes = repeated(alloc, 251, || {
        let options = InheritableNameOptions {
            initialize_with: Some(repetition(alloc, "x", size, "")?),
            ..InheritableNameOptions::default()
        };
        named(alloc, options)
    })?;
    let mut article = article(alloc, 1)?;
    let given = repetition(alloc, "A ", 3_300, "B")?;
    article.authors = Some(vec![in alloc; Person::new(alloc, "Kwan", given.as_str())?]?);
    text_size(alloc, nodes, Vec::new(alloc), &article)
}

/// 1,923 numbers of `size` page ranges.
pub fn numbers_of_ranges(alloc: Global, size: usize) -> Result<usize, WorkError> {
    let pages = NumberOrPageVariable::Page(PageVariable::Page);
    let nodes = repeated(alloc, 1_923, || Ok(Number::new(pages).into()))?;
    let mut article = article(alloc, 1)?;
    article.page_range = Some(MaybeTyped::Typed(page_ranges(alloc, size)?));
    text_size(alloc, nodes, Vec::new(alloc), &article)
}

/// Editions of `size` numbers as ordinals that fill the layout, in a locale of 1,200 ordinals.
pub fn ordinals_of_numbers(alloc: Global, size: usize) -> Result<usize, WorkError> {
    let locales = vec![in alloc; many_ordinals(alloc)?]?;
    let nodes = ordinal_editions(alloc, 2_000)?;
    text_size(alloc, nodes, locales, &editions_of(alloc, size)?)
}
