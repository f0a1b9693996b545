//! Tests of `csl`: its types by name, its locales, its errors, and what a limit leaves.

mod errors;
mod every_type;
mod limits;
mod renderers;
mod whole_locales;
