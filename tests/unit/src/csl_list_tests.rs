//! Tests of lists of whole documents. All expected values are written out by hand, from CSL.

mod collations;
mod documents;
mod lists;
mod random;
mod refusals;
mod styles;
