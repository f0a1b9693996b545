//! Works of allocating calls. Each returns what the calls made, as a text.

mod cites;
mod copies;
mod failed;
mod made;
mod session;
mod styles;
mod trees;
mod wire;

use crate::documents;
use crate::error::WorkError;
pub use cites::text_of;
use std::alloc::Global;

/// Makes a call. If it runs out of memory, makes it once more.
pub fn twice<T: Drop, F: FnMut() -> Result<T, WorkError>>(mut call: F) -> Result<T, WorkError> {
    match call() {
        Err(WorkError::Memory) => call(),
        result => result,
    }
}

/// Does the work with this name, and returns its result.
pub fn result(alloc: Global, name: &str) -> Result<String, WorkError> {
    match name {
        "list" => documents::list(alloc),
        "macros" => styles::style_of(alloc, &styles::CHAIN),
        "cycle" => styles::style_of(alloc, &styles::CYCLE),
        "locale" => made::locale(alloc),
        "constructed" => made::constructed(alloc),
        "pair" => cites::pair(alloc),
        "label" => cites::label(alloc),
        "whole" => cites::whole(alloc),
        "suffixed" => cites::suffixed(alloc),
        "suppressed" => cites::suppressed(alloc),
        "date-only" => cites::date_only(alloc),
        "limited" => cites::limited(alloc),
        "request" => cites::request(alloc),
        "shortened" => cites::shortened(alloc),
        "simplify" => trees::simplify(alloc),
        "flat" => trees::flat(alloc),
        "stack" => trees::stack(alloc),
        "copy-entry" => copies::entry(alloc),
        "copy-answers" => copies::answers(alloc),
        "copy-cite" => copies::cite(alloc),
        "copy-left" => copies::left(alloc),
        "copy-tree" => copies::tree(alloc),
        "wire-entry" => wire::entry(alloc),
        "wire-cite" => wire::cite(alloc),
        "session" => session::replies(alloc),
        "session-document" => session::document(alloc),
        "session-lines" => session::lines(alloc),
        _ => Err(WorkError::Unexpected("no such work")),
    }
}
