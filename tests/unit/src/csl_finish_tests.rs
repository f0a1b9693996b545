//! Tests of finishing, of folding and of the order of keys. All expected values are written out by
//! hand.

mod case;
mod finish;
mod fold;
mod keys;
mod links;
mod random;
mod trees;
