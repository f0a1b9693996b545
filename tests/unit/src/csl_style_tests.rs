//! The tests of `csl_style` and of `csl_elements`, which it hands on.

mod constructors;
mod defaults;
mod drops;
mod names;
mod ordinals;
mod variable_set;
