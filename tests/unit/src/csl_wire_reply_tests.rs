//! Tests of contents as JSON. Expected values are those of docs/WIRE.md, Replies.

mod contents;
mod reading;
