//! Tests of requests and replies. Expected values are those of docs/HOSTS.md and of CSL, written out
//! by hand.

mod bounds;
mod cases;
mod conversation;
mod documents;
mod over_lines;
mod replies_that_wait;
mod requests;
