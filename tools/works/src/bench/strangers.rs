//! Styles that are as expensive as the limits for strangers' styles allow. Each work makes a style
//! whose citation layout has at most the expanded size `size` and the depth [`DEPTH`], and renders
//! it for an article.

use crate::bench::cites::{in_english, year};
use crate::bench::entry::article;
use crate::bench::literature::authors;
use crate::bench::render::{suppressed_size, text_size};
use crate::bench::styles::{call, linked};
use crate::error::WorkError;
use crate::nodes::{names_or, style, title};
use csl::Entry;
use csl::literature::EntryType;
use csl::style::{
    Choose, ChooseBranch, CslMacro, Date, DateForm, DatePart, DatePartName, DateVariable, Group,
    Label, Layout, LayoutRenderingElement, Locale, NameVariable, Names, NumberOrPageVariable,
    OtherTerm, PageVariable, StandardVariable, Style, StyleSettings, Term, Text,
};
use std::alloc::Global;

/// The limit of the depth, as `docs/SAFETY.md` gives it.
pub const DEPTH: usize = 64;

/// How many substitutes in one another the depth allows, each with a group in it.
const LEVELS: usize = 31;

/// The size of such a level: a names node with one variable and a substitute, and a group.
const LEVEL: usize = 6;

/// How many items a macro's list has, and how many texts a long text.
pub const ITEMS: usize = 100;

/// How many macros a style finds by a hash map, nearly: one with more finds them by an ordered map.
const HASHED: usize = 250;

/// The names of macros, but for the numbers at their ends.
const USUAL: &str = "a macro of many of its sort ";

/// The same, for names that all have one hash where a hash map has the kit's seed.
const COLLIDING: &str = "x5F73gs_U.LWl3qDDUwmVmkM";

/// 1 if the whole style is within the limits for strangers, else 0.
pub fn allowed(alloc: Global, style: &Style) -> Result<usize, WorkError> {
    Ok(usize::from(style.all_within(alloc, 2_000, 20_000, DEPTH)?))
}

/// A style, if its citation layout is within the limits.
fn limited(style: Style, size: usize) -> Result<Style, WorkError> {
    if style.expanded_within(style.citation(), size as u64, DEPTH) {
        Ok(style)
    } else {
        Err(WorkError::Unexpected("above the limits"))
    }
}

/// Renders a style within the limits for an article of one author, and counts the bytes of the plain
/// text.
pub fn size_within(alloc: Global, style: Style, size: usize) -> Result<usize, WorkError> {
    text_size(alloc, &limited(style, size)?, &article(alloc, 1)?)
}

/// Renders a style within the limits for an article of one author, without the author, and counts
/// the bytes of the plain text.
fn suppressed_within(alloc: Global, style: Style, size: usize) -> Result<usize, WorkError> {
    suppressed_size(alloc, &limited(style, size)?)
}

/// How many parts of a size the layout has room for, beside itself and what it already has.
pub fn room(size: usize, taken: usize, part: usize) -> usize {
    size.saturating_sub(1 + taken) / part
}

/// A node's list of `times` nodes, which the function makes.
pub fn repeated<F: FnMut() -> Result<LayoutRenderingElement, WorkError>>(
    alloc: Global,
    times: usize,
    mut node: F,
) -> Result<Vec<LayoutRenderingElement>, WorkError> {
    let mut nodes = Vec::new(alloc);
    for _ in 0..times {
        nodes.push(node()?)?;
    }
    Ok(nodes)
}

/// Nodes in a group, in the substitute of editors.
fn of_editors(
    alloc: Global,
    nodes: Vec<LayoutRenderingElement>,
) -> Result<LayoutRenderingElement, WorkError> {
    let editors = vec![in alloc; NameVariable::Editor]?;
    let group = vec![in alloc; Group::new(nodes).into()]?;
    names_or(alloc, editors, group)
}

/// Nodes in `levels` groups, each in the substitute of editors, which the article lacks.
fn in_substitutes(
    alloc: Global,
    levels: usize,
    inside: Vec<LayoutRenderingElement>,
) -> Result<LayoutRenderingElement, WorkError> {
    let mut nodes = inside;
    for _ in 1..levels {
        let names = of_editors(alloc, nodes)?;
        nodes = vec![in alloc; names]?;
    }
    of_editors(alloc, nodes)
}

/// A style of chains of substitutes side by side, each with the title at its end. It shows in the first
/// alone: a variable that a substitute has shown is suppressed from there on.
fn chains_style(alloc: Global, size: usize) -> Result<Style, WorkError> {
    let chains = repeated(alloc, room(size, 0, LEVELS * LEVEL + 1), || {
        in_substitutes(alloc, LEVELS, vec![in alloc; title()]?)
    })?;
    style(alloc, Vec::new(alloc), chains)
}

/// Renders chains of substitutes, and counts the bytes of the plain text.
pub fn chains(alloc: Global, size: usize) -> Result<usize, WorkError> {
    size_within(alloc, chains_style(alloc, size)?, size)
}

/// Renders chains of substitutes without the author, and counts the bytes of the plain text.
pub fn chains_suppressed(alloc: Global, size: usize) -> Result<usize, WorkError> {
    suppressed_within(alloc, chains_style(alloc, size)?, size)
}

/// A style of one chain of substitutes around labels of pages, which the article lacks, and the title.
fn leaves_style(alloc: Global, size: usize) -> Result<Style, WorkError> {
    let pages = NumberOrPageVariable::Page(PageVariable::Page);
    let mut leaves = repeated(alloc, room(size, LEVELS * LEVEL + 1, 1), || {
        Ok(Label::short(pages).into())
    })?;
    leaves.push(title())?;
    let chain = vec![in alloc; in_substitutes(alloc, LEVELS, leaves)?]?;
    style(alloc, Vec::new(alloc), chain)
}

/// Renders labels in a chain of substitutes, and counts the bytes of the plain text.
pub fn leaves(alloc: Global, size: usize) -> Result<usize, WorkError> {
    size_within(alloc, leaves_style(alloc, size)?, size)
}

/// Renders labels in a chain of substitutes without the author, and counts the bytes of the plain
/// text.
pub fn leaves_suppressed(alloc: Global, size: usize) -> Result<usize, WorkError> {
    suppressed_within(alloc, leaves_style(alloc, size)?, size)
}

/// A titled entry with a chain of `depth` parents.
fn with_parents(alloc: Global, depth: usize) -> Result<Entry, WorkError> {
    let mut entry = Entry::titled(alloc, "part", EntryType::Misc, "Part")?;
    for _ in 0..depth {
        let parents = vec![in alloc; entry]?;
        entry = Entry::titled(alloc, "part", EntryType::Misc, "Part")?;
        entry.parents = parents;
    }
    Ok(entry)
}

/// Renders labels in a chain of substitutes for an entry with [`ITEMS`] parents in one another, and
/// counts the bytes of the plain text.
pub fn leaves_of_parents(alloc: Global, size: usize) -> Result<usize, WorkError> {
    let style = limited(leaves_style(alloc, size)?, size)?;
    text_size(alloc, &style, &with_parents(alloc, ITEMS)?)
}

/// Renders the authors of an article of [`ITEMS`] authors many times, and counts the bytes of the
/// plain text.
pub fn all_authors(alloc: Global, size: usize) -> Result<usize, WorkError> {
    let names = repeated(
        alloc,
        room(size, 0, 3),
        || Ok(Names::new(alloc, vec![in alloc; NameVariable::Author]?).into()),
    )?;
    let style = limited(style(alloc, Vec::new(alloc), names)?, size)?;
    let mut article = article(alloc, 1)?;
    article.authors = Some(authors(alloc, ITEMS)?);
    text_size(alloc, &style, &article)
}

/// Renders many calls of a macro of one node of this weight, and counts the bytes of the plain text.
fn calls_of(
    alloc: Global,
    size: usize,
    node: LayoutRenderingElement,
    weight: usize,
) -> Result<usize, WorkError> {
    let nodes = vec![in alloc; node]?;
    let macros = vec![in alloc; CslMacro::new(alloc, "macro 0", nodes)?]?;
    let calls = repeated(alloc, room(size, 0, 3 + weight), || call(alloc, 0))?;
    size_within(alloc, style(alloc, macros, calls)?, size)
}

/// Renders calls of a macro of a date of [`ITEMS`] years, and counts the bytes of the plain text.
pub fn date_parts(alloc: Global, size: usize) -> Result<usize, WorkError> {
    let years = parts_named(alloc, ITEMS, DatePartName::Year)?;
    let date = Date::new(DateVariable::Issued, years);
    calls_of(alloc, size, date.into(), ITEMS)
}

/// `size` parts of a date with the same name.
pub fn parts_named(
    alloc: Global,
    size: usize,
    name: DatePartName,
) -> Result<Vec<DatePart>, WorkError> {
    let mut parts = Vec::new(alloc);
    for _ in 0..size {
        parts.push(DatePart::new(name))?;
    }
    Ok(parts)
}

/// Renders a date that fills the layout with days, over a localized date of `size` months and a year,
/// and counts the bytes of the plain text.
pub fn localized_parts(alloc: Global, size: usize) -> Result<usize, WorkError> {
    let mut parts = parts_named(alloc, size, DatePartName::Month)?;
    parts.push(DatePart::new(DatePartName::Year))?;
    let mut locale = Locale::new(alloc);
    locale.dates.push(Date::localized(DateForm::Text, parts))?;
    let days = parts_named(alloc, room(size, 1, 1), DatePartName::Day)?;
    let date = Date {
        form: Some(DateForm::Text),
        ..Date::new(DateVariable::Issued, days)
    };
    let citation = Layout::new(vec![in alloc; date.into()]?);
    let (settings, macros) = (StyleSettings::default(), Vec::new(alloc));
    let locales = vec![in alloc; locale]?;
    let style = Style::new(alloc, settings, macros, citation, None, locales)?;
    size_within(alloc, style, size)
}

/// Renders calls of a macro of a choice that tests the title [`ITEMS`] times, and counts the bytes of
/// the plain text.
pub fn tests(alloc: Global, size: usize) -> Result<usize, WorkError> {
    let mut titles = Vec::new(alloc);
    for _ in 0..ITEMS {
        titles.push(StandardVariable::Title.into())?;
    }
    let branch = ChooseBranch {
        variable: Some(titles),
        ..ChooseBranch::new(vec![in alloc; title()]?)
    };
    calls_of(alloc, size, Choose::new(alloc, branch).into(), 3 + ITEMS)
}

/// Renders calls of a macro of names of [`ITEMS`] times the same variable, and counts the bytes of
/// the plain text.
pub fn name_variables(alloc: Global, size: usize) -> Result<usize, WorkError> {
    let mut variables = Vec::new(alloc);
    for _ in 0..ITEMS {
        variables.push(NameVariable::Author)?;
    }
    let names = Names::new(alloc, variables);
    calls_of(alloc, size, names.into(), 1 + ITEMS)
}

/// Renders calls of a macro of a text of ten times [`ITEMS`] letters, and counts the bytes of the
/// plain text.
pub fn long_texts(alloc: Global, size: usize) -> Result<usize, WorkError> {
    let mut text = String::new(alloc);
    for _ in 0..ITEMS {
        text.push_str("abcdefghij")?;
    }
    let text = Text::value(alloc, text.as_str())?;
    calls_of(alloc, size, text.into(), 0)
}

/// Renders a term many times in a locale of `size` other terms, and counts the bytes of the plain
/// text.
pub fn locale_terms(alloc: Global, size: usize) -> Result<usize, WorkError> {
    let terms = repeated(alloc, room(size, 2, 1), || {
        Ok(Text::term(Term::Other(OtherTerm::And)).into())
    })?;
    let style = in_english(alloc, Vec::new(alloc), Group::new(terms).into(), size)?;
    size_within(alloc, style, size)
}

/// Renders the longest chain of macros within the size, each of which calls the next twice. The last
/// is empty, so a dry run has nothing to reject, and rendering enters each call. A date comes before
/// them, so that the year suffix is asked for too. Counts the bytes of the plain text.
pub fn doubled(alloc: Global, size: usize) -> Result<usize, WorkError> {
    let mut count = 1;
    while 4 << count < size {
        count += 1;
    }
    let mut macros = linked(alloc, count, 2, StandardVariable::Genre.into())?;
    if let Some(last) = macros.last_mut() {
        last.children = Vec::new(alloc);
    }
    let nodes = vec![in alloc; year(alloc, DateVariable::Issued)?, call(alloc, 0)?]?;
    size_within(alloc, style(alloc, macros, nodes)?, size)
}

/// At most `most` macros of a title, with these names and numbers, and `times` calls of them in turn.
fn named_macros(
    alloc: Global,
    times: usize,
    most: usize,
    prefix: &str,
) -> Result<(Vec<CslMacro>, Vec<LayoutRenderingElement>), WorkError> {
    let mut macros = Vec::new(alloc);
    let mut calls = Vec::new(alloc);
    for place in 0..times {
        let number = 10_000_000 + place % most;
        let name = format!(in alloc; "{prefix}{number}")?;
        if place < most {
            let nodes = vec![in alloc; title()]?;
            macros.push(CslMacro::new(alloc, name.as_str(), nodes)?)?;
        }
        calls.push(Text::macro_call(alloc, name.as_str())?.into())?;
    }
    Ok((macros, calls))
}

/// Renders macros with such names, called in a group, and counts the bytes of the plain text.
fn grouped_macros(alloc: Global, size: usize, prefix: &str) -> Result<usize, WorkError> {
    let (macros, calls) = named_macros(alloc, room(size, 2, 3), size, prefix)?;
    let nodes = vec![in alloc; Group::new(calls).into()]?;
    size_within(alloc, style(alloc, macros, nodes)?, size)
}

/// Renders at most so many macros with such names, called in a chain of substitutes, without the author,
/// and counts the bytes of the plain text. A call takes a level, too.
fn suppressed_macros(
    alloc: Global,
    size: usize,
    most: usize,
    prefix: &str,
) -> Result<usize, WorkError> {
    let levels = LEVELS - 1;
    let times = room(size, levels * LEVEL, 3);
    let (macros, calls) = named_macros(alloc, times, most, prefix)?;
    let nodes = vec![in alloc; in_substitutes(alloc, levels, calls)?]?;
    suppressed_within(alloc, style(alloc, macros, nodes)?, size)
}

/// Renders many macros in a group.
pub fn many_macros(alloc: Global, size: usize) -> Result<usize, WorkError> {
    grouped_macros(alloc, size, USUAL)
}

/// Renders many macros in a chain of substitutes, without the author.
pub fn many_macros_suppressed(alloc: Global, size: usize) -> Result<usize, WorkError> {
    suppressed_macros(alloc, size, size, USUAL)
}

/// Renders many macros in a group, whose names all have one hash.
pub fn colliding_macros(alloc: Global, size: usize) -> Result<usize, WorkError> {
    grouped_macros(alloc, size, COLLIDING)
}

/// Renders many macros in a chain of substitutes, without the author. Their names all have one hash.
pub fn colliding_macros_suppressed(alloc: Global, size: usize) -> Result<usize, WorkError> {
    suppressed_macros(alloc, size, size, COLLIDING)
}

/// Renders calls of [`HASHED`] macros in a chain of substitutes, without the author. Their names all have
/// one hash.
pub fn few_colliding_macros_suppressed(alloc: Global, size: usize) -> Result<usize, WorkError> {
    suppressed_macros(alloc, size, HASHED, COLLIDING)
}
