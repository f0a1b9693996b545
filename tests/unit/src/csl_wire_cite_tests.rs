//! Tests of works and cites from JSON. Expected values are those of docs/WIRE.md, written out by
//! hand.

mod cites;
mod entries;
mod limits;
mod reading;
mod rendered;
mod variables;
