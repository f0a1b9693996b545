//! The tests of the literature model.

mod calls;
mod constructors;
mod copies;
mod drops;
mod writers;
