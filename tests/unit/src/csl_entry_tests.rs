//! Tests of the answers of entries and cites to a style, and of the forms of names.

mod cites;
mod lent;
mod name_properties;
mod number_result;
mod parts;
