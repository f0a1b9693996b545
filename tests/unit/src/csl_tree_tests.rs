//! Tests of the output tree.

mod answers;
mod changes;
mod flat;
mod stack;
mod trees;
mod write;
