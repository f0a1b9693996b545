//! Tests of the public calls of `csl_context`.

mod calls;
mod limits;
mod setup;
mod states;
