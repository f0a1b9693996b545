//! What a layout and the macros that it calls ask for, and how much they are, in words.

use crate::entry_answers::add_kind;
use crate::fault::Fault;
use crate::missing::{add_first_missing, add_missing};
use crate::question::OfLayout;
use crate::tree_words::{add_value, add_word};
use csl::style::{Layout, Named};
use csl::{Style, named_beside, named_by, named_by_tests};
use std::alloc::Global;

/// Appends the answer about a layout.
pub fn add_of_layout(
    words: &mut String,
    alloc: Global,
    style: &Style,
    layout: &Layout,
    question: OfLayout,
) -> Result<(), Fault> {
    match question {
        OfLayout::MissingTerms => add_missing(words, alloc, style, layout),
        OfLayout::MissingTerm => add_first_missing(words, style, layout),
        OfLayout::Named => add_named(words, alloc, style, layout),
        OfLayout::Tested => {
            let tested = named_by_tests(alloc, style, layout)?;
            add_sets(words, alloc, &tested)
        }
        OfLayout::Told(variable) => {
            let told = named_beside(alloc, style, layout, variable)?;
            add_sets(words, alloc, &told)
        }
        OfLayout::Size => add_size(words, style, layout),
        OfLayout::Depth => add_depth(words, style, layout),
        OfLayout::Above(most) => { add_whether(words, style.expanded_size(layout, most).is_none()) }
        OfLayout::Rendered(size, all, depth) => {
            add_whether(words, are_least(style, layout, size, all, depth))
        }
    }
}

fn add_whether(words: &mut String, is_so: bool) -> Result<(), Fault> {
    Ok(words.push_str(if is_so { "yes" } else { "no" })?)
}

/// Appends the variables of each type and the kinds of sets, in their order.
fn add_sets(words: &mut String, alloc: Global, named: &Named) -> Result<(), Fault> {
    for variable in &named.numbers {
        add_word(words, variable.name())?;
    }
    for variable in &named.pages {
        add_word(words, variable.name())?;
    }
    for variable in &named.standards {
        add_word(words, variable.name())?;
    }
    for variable in &named.names {
        add_word(words, variable.name())?;
    }
    for variable in &named.dates {
        add_word(words, variable.name())?;
    }
    if named.kinds.is_empty() {
        return Ok(());
    }
    let mut kinds = String::new(alloc);
    for kind in &named.kinds {
        add_kind(&mut kinds, *kind)?;
    }
    add_value(words, "type", kinds.as_str())
}

/// Appends what a layout names. A copy of the sets names the same.
fn add_named(
    words: &mut String,
    alloc: Global,
    style: &Style,
    layout: &Layout,
) -> Result<(), Fault> {
    let named = named_by(alloc, style, layout)?;
    add_sets(words, alloc, &named)?;
    let copy = named.clone(alloc)?;
    drop(named);
    let mut again = String::new(alloc);
    add_sets(&mut again, alloc, &copy)?;
    if again.as_str() != words.as_str() {
        words.push_str(", a copy: ")?;
        words.push_str(again.as_str())?;
    }
    Ok(())
}

/// Appends the size of a layout. It is the least limit that the layout is within.
fn add_size(words: &mut String, style: &Style, layout: &Layout) -> Result<(), Fault> {
    let size = style.expanded_size(layout, u64::MAX).unwrap_or(0);
    let depth = style.expanded_depth(layout, usize::MAX).unwrap_or(0);
    let less = size.saturating_sub(1);
    write!(words, "{size}")?;
    if style.expanded_size(layout, size) != Some(size)
        || style.expanded_size(layout, less).is_some()
        || !style.expanded_within(layout, size, depth)
        || style.expanded_within(layout, less, depth)
    {
        words.push_str(", which is not the least limit")?;
    }
    Ok(())
}

/// Appends the depth of a layout. It is the least limit that the layout is within.
fn add_depth(words: &mut String, style: &Style, layout: &Layout) -> Result<(), Fault> {
    let size = style.expanded_size(layout, u64::MAX).unwrap_or(0);
    let depth = style.expanded_depth(layout, usize::MAX).unwrap_or(0);
    let less = depth.saturating_sub(1);
    write!(words, "{depth}")?;
    if style.expanded_depth(layout, depth) != Some(depth)
        || style.expanded_depth(layout, less).is_some()
        || !style.expanded_within(layout, size, depth)
        || style.expanded_within(layout, size, less)
    {
        words.push_str(", which is not the least limit")?;
    }
    Ok(())
}

/// Whether the layout is within these limits, and not if one of them is less. A limit that is the
/// largest number is none.
fn are_least(style: &Style, layout: &Layout, size: u64, all: u64, depth: usize) -> bool {
    style.rendered_within(layout, size, all, depth)
        && !style.rendered_within(layout, size.saturating_sub(1), all, depth)
        && !style.rendered_within(layout, 0, all, depth)
        && (all == u64::MAX || !style.rendered_within(layout, size, all.saturating_sub(1), depth))
        && (depth == usize::MAX
            || !style.rendered_within(layout, size, all, depth.saturating_sub(1)))
}
