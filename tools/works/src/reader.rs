//! The reader of nodes in the notation of rows: modules of `tools/rows_reader`, which
//! `tools/works/shares` names, and which are laid out below this one.

mod choices;
pub mod fault;
pub mod form;
mod name_nodes;
mod names;
pub mod nodes;
