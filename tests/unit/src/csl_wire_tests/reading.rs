//! What is read of a text of JSON, and why it is refused, as texts.

use crate::csl_wire_tests::described_nodes;
use crate::described::Description;
pub(crate) use crate::wire::{json, told};
use csl_elements::LayoutRenderingElement;
use csl_style::Style;
use csl_wire::{Limits, WireError, nodes_of, style_of};
use std::alloc::Global;
use std::process::Abort;

/// The nodes of a text, as those of a stranger.
pub(crate) fn read_nodes(
    rt: &impl Abort,
    alloc: Global,
    text: &str,
) -> Result<Vec<LayoutRenderingElement>, WireError> {
    nodes_of(alloc, &json(rt, alloc, text), Limits::of_strangers())
}

/// The style of a text, as that of a stranger.
pub(crate) fn read_style(rt: &impl Abort, alloc: Global, text: &str) -> Result<Style, WireError> {
    style_of(alloc, &json(rt, alloc, text), Limits::of_strangers())
}

/// The nodes that a text is read as, or the refusal.
pub(crate) fn nodes_as_text(rt: &impl Abort, alloc: Global, text: &str) -> String {
    match read_nodes(rt, alloc, text) {
        Ok(nodes) => {
            let mut out = Description::new(rt, alloc);
            described_nodes::nodes(&mut out, nodes.as_slice());
            out.into_text()
        }
        Err(error) => told(rt, alloc, error),
    }
}
