//! The tests of `csl_render`, `csl_nodes` and `csl_names` that no row states (`tests/rows`): the flags
//! of groups, cites in special forms, sort keys, and calls of functions that allocate.

mod calls;
mod cites;
mod flags;
mod leaves;
mod setup;
