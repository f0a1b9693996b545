//! Errors.

use std::fmt;

/// Why there is no result.
#[derive(Clone, Debug, PartialEq, Eq)]
#[non_exhaustive]
pub enum Error {
    /// The library refused a style, a work, a cite or a document.
    Refused {
        /// The code of the refusal, as `unknown-name` (docs/WIRE.md, docs/HOSTS.md).
        code: String,
        /// The place of what is refused: a JSON Pointer into the text of the style, or one such as
        /// `/works/3/work/variables/issued/month` and `/citations/0/items/1/locator/label`, which
        /// count works and citations as the caller does.
        at: String,
        /// What is wrong there.
        message: String,
    },
    /// The text of a style is no JSON.
    Json {
        /// The byte where the fault is.
        at: usize,
        /// What is wrong there.
        reason: &'static str,
    },
    /// Out of memory in the library. The engine may be used again.
    Memory,
    /// The linked library is another than this crate is for: its replies lack this.
    Reply(&'static str),
}

impl fmt::Display for Error {
    fn fmt(&self, f: &mut fmt::Formatter<'_>) -> fmt::Result {
        match self {
            Error::Refused { at, message, .. } => write!(f, "{at}: {message}"),
            Error::Json { at, reason } => write!(f, "byte {at}: {reason}"),
            Error::Memory => f.write_str("out of memory"),
            Error::Reply(lacking) => write!(f, "another library: its reply lacks {lacking}"),
        }
    }
}

impl std::error::Error for Error {}
