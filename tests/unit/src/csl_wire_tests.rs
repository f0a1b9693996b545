//! Tests of nodes, styles and locales from JSON. Expected values are those of docs/WIRE.md, written
//! out by hand.

mod cases;
mod described_nodes;
mod limits;
mod locales;
mod nodes;
mod reading;
mod refusals;
mod styles;

pub(crate) use crate::described;
