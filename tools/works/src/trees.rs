//! Texts and elements of trees.

use crate::error::WorkError;
use csl::style::Display;
use csl::tree::{Elem, ElemChild, ElemChildren, ElemMeta, Formatted, Formatting};
use std::alloc::Global;

/// A text in the default formatting.
pub fn formatted(alloc: Global, text: &str) -> Result<Formatted, WorkError> {
    Ok(Formatting::default().add_text(String::from_str(alloc, text)?))
}

/// The child of a tree that is a text in the default formatting.
pub fn text(alloc: Global, text: &str) -> Result<ElemChild, WorkError> {
    Ok(ElemChild::Text(formatted(alloc, text)?))
}

/// Two texts, `a` and `b`.
pub fn texts(alloc: Global) -> Result<Vec<ElemChild>, WorkError> {
    Ok(vec![in alloc; text(alloc, "a")?, text(alloc, "b")?]?)
}

/// An element with these children, as a child.
pub fn elem(
    children: Vec<ElemChild>,
    display: Option<Display>,
    meta: Option<ElemMeta>,
) -> ElemChild {
    let children = ElemChildren(children);
    ElemChild::Elem(Elem {
        children,
        display,
        meta,
    })
}
