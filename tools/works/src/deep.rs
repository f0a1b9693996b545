//! Works over deep values. Each returns a count.

use crate::bench::cites::year;
use crate::bench::render::{named_count, text_size};
use crate::bench::styles::call;
use crate::error::WorkError;
use crate::nodes::{letter, names_or, style, title};
use crate::refuse::text_of;
use crate::trees::{elem, texts};
use csl::literature::{Date, EntryType, FormatString};
use csl::style::{
    Choose, ChooseBranch, CslMacro, DateVariable, Display, Group, LayoutRenderingElement,
};
use csl::tree::simplify_fully;
use csl::{
    BufWriteFormat, CiteProperties, DisambiguateState, ElemChildren, Entry, InstanceContext,
};
use std::alloc::Global;

/// `depth` nested blocks around two texts.
fn blocks(alloc: Global, depth: usize) -> Result<ElemChildren, WorkError> {
    let mut children = texts(alloc)?;
    for _ in 0..depth {
        children = vec![in alloc; elem(children, Some(Display::Block), None)]?;
    }
    Ok(ElemChildren(children))
}

/// Makes a tree of this depth, does what the name says, and drops it.
fn of_tree(alloc: Global, name: &str, depth: usize) -> Result<usize, WorkError> {
    let tree = blocks(alloc, depth)?;
    match name {
        "tree-copy" => Ok(tree.clone(alloc)?.0.len()),
        "tree-compare" => Ok(usize::from(blocks(alloc, depth)? == tree)),
        "tree-write" => Ok(tree.to_text(alloc, BufWriteFormat::Plain)?.len()),
        "tree-simplify" => Ok(simplify_fully(alloc, &tree)?.0.len()),
        _ => Ok(tree.0.len()),
    }
}

/// A chain of `depth` entries, each the parent of the next. The first has a date.
fn ancestors(alloc: Global, depth: usize) -> Result<Vec<Entry>, WorkError> {
    let mut parents = Vec::new(alloc);
    let mut date = Date::new(1961, Some(4), None, None, false);
    for _ in 0..depth {
        let mut book = Entry::new(alloc, "book", EntryType::Book)?;
        book.parents = parents;
        book.date = date;
        date = None;
        parents = vec![in alloc; book]?;
    }
    Ok(parents)
}

/// Renders the year of an entry with these parents, and counts the bytes of the plain text.
fn inherited_year(alloc: Global, parents: Vec<Entry>) -> Result<usize, WorkError> {
    let nodes = vec![in alloc; year(alloc, DateVariable::Issued)?]?;
    let style = style(alloc, Vec::new(alloc), nodes)?;
    let mut entry = Entry::new(alloc, "book", EntryType::Book)?;
    entry.parents = parents;
    text_size(alloc, &style, &entry)
}

/// Makes a chain of `depth` parents, does what the name says, and drops it.
fn of_parents(alloc: Global, name: &str, depth: usize) -> Result<usize, WorkError> {
    let parents = ancestors(alloc, depth)?;
    match name {
        "parents-copy" => match parents.first() {
            Some(first) => Ok(first.clone(alloc)?.parents.len()),
            None => Ok(0),
        },
        "parents-render" => inherited_year(alloc, parents),
        _ => Ok(parents.len()),
    }
}

/// A node around others. The name of the work selects its sort.
fn around(
    alloc: Global,
    name: &str,
    nodes: Vec<LayoutRenderingElement>,
) -> Result<LayoutRenderingElement, WorkError> {
    match name {
        "groups" | "groups-render" | "style-groups" | "style-macro" => {
            Ok(Group::new(nodes).into())
        }
        "choices" | "choices-render" | "style-choices" => {
            Ok(Choose::new(alloc, ChooseBranch::new(nodes)).into())
        }
        _ => names_or(alloc, Vec::new(alloc), nodes),
    }
}

/// Renders nodes for a title, and counts the bytes of the plain text.
fn rendered(alloc: Global, nodes: Vec<LayoutRenderingElement>) -> Result<usize, WorkError> {
    let style = style(alloc, Vec::new(alloc), nodes)?;
    let mut entry = Entry::new(alloc, "book", EntryType::Book)?;
    entry.title = Some(FormatString::plain(alloc, "a")?);
    let cite_props = CiteProperties::first(DisambiguateState::None);
    let instance = InstanceContext {
        entry: &entry,
        cite_props: &cite_props,
        sorting: None,
        kind: None,
    };
    Ok(text_of(alloc, &style, instance)?.len())
}

/// `depth` nested nodes around the text `a`.
fn nested(
    alloc: Global,
    name: &str,
    depth: usize,
) -> Result<Vec<LayoutRenderingElement>, WorkError> {
    let mut nodes = letter(alloc)?;
    for _ in 0..depth {
        nodes = vec![in alloc; around(alloc, name, nodes)?]?;
    }
    Ok(nodes)
}

/// Makes nested nodes, renders them if the name says so, and drops them.
fn of_nodes(alloc: Global, name: &str, depth: usize) -> Result<usize, WorkError> {
    let nodes = nested(alloc, name, depth)?;
    if name.ends_with("-render") {
        return rendered(alloc, nodes);
    }
    Ok(nodes.len())
}

/// Makes a style whose layout is nested nodes, or calls a macro of them, asks whether the layout is
/// within the limits for strangers, and drops the style. Returns 1 if it is, and 0 if not.
fn of_style(alloc: Global, name: &str, depth: usize) -> Result<usize, WorkError> {
    let nodes = nested(alloc, name, depth)?;
    let mut macros = Vec::new(alloc);
    let citation = if name == "style-macro" {
        macros.push(CslMacro::new(alloc, "macro 0", nodes)?)?;
        vec![in alloc; call(alloc, 0)?]?
    } else {
        nodes
    };
    let style = style(alloc, macros, citation)?;
    Ok(usize::from(style.expanded_within(style.citation(), 20_000, 64)))
}

/// Makes a style whose layout is `depth` nested groups around a title, and counts the texts that the
/// layout names.
fn of_named(alloc: Global, depth: usize) -> Result<usize, WorkError> {
    let mut nodes = vec![in alloc; title()]?;
    for _ in 0..depth {
        nodes = vec![in alloc; Group::new(nodes).into()]?;
    }
    named_count(alloc, &style(alloc, Vec::new(alloc), nodes)?)
}

/// Does the work with this name at a depth, and returns its count.
pub fn count(alloc: Global, name: &str, depth: usize) -> Result<usize, WorkError> {
    match name {
        "tree" | "tree-copy" | "tree-compare" | "tree-write" | "tree-simplify" => {
            of_tree(alloc, name, depth)
        }
        "parents" | "parents-copy" | "parents-render" => of_parents(alloc, name, depth),
        "groups" | "groups-render" | "choices" | "choices-render" | "names" | "names-render" => {
            of_nodes(alloc, name, depth)
        }
        "style-groups" | "style-choices" | "style-names" | "style-macro" => {
            of_style(alloc, name, depth)
        }
        "named" => of_named(alloc, depth),
        _ => Err(WorkError::Unexpected("no such work")),
    }
}
