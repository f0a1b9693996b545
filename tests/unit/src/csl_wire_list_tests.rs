//! Tests of options of styles and of documents from JSON. Expected values are those of docs/WIRE.md
//! and of CSL 1.0.2, written out by hand.

mod documents;
mod limits;
mod options;
mod reading;
mod rendered;
