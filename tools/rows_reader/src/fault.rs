//! The reasons why a line cannot be read or rendered.

use csl::literature::NumericError;
use csl::{Memory, RenderError, StyleError};
use csl_list::{ListError, ListStyleError};
use std::alloc::{AllocError, AllocFailed, Global};
use std::fmt;

/// The reason why a line cannot be read or rendered.
#[derive(Drop)]
pub enum Fault {
    /// Out of memory.
    Memory,
    /// What is wrong.
    Wrong(&'static str),
    /// What is wrong, and the word that is.
    Word(&'static str, String),
    /// The reason why a style is refused.
    Refused(StyleError),
    /// The reason why a style is refused with its options.
    RefusedOptions(ListStyleError),
    /// Why a document has no list.
    NoList(ListError),
}

impl Fault {
    /// The fault of a word.
    pub fn of_word(alloc: Global, reason: &'static str, word: &str) -> Fault {
        match String::from_str(alloc, word) {
            Ok(word) => Fault::Word(reason, word),
            Err(_) => Fault::Memory,
        }
    }

    /// What is wrong, in words. Out of memory is no fault of a line, and has none.
    pub fn words(&self, alloc: Global) -> Result<String, Fault> {
        match self {
            Fault::Memory => Err(Fault::Memory),
            Fault::Wrong(reason) => Ok(String::from_str(alloc, *reason)?),
            Fault::Word(reason, word) if word.is_empty() => Ok(String::from_str(alloc, *reason)?),
            Fault::Word(reason, word) => Ok(format!(in alloc; "{reason}: {word}")?),
            Fault::Refused(error) => Ok(format!(in alloc; "{error}")?),
            Fault::RefusedOptions(error) => Ok(format!(in alloc; "{error}")?),
            Fault::NoList(error) => Ok(format!(in alloc; "{error}")?),
        }
    }
}

/// Makes errors out of memory. Writing to a string and rendering fail only so.
macro_rules! out_of_memory {
    ($($error:ty)*) => {
        $(
            impl From<$error> for Fault {
                fn from(_error: $error) -> Fault {
                    Fault::Memory
                }
            }
        )*
    };
}

out_of_memory! { Memory AllocError fmt::Error RenderError }

impl<T: Drop> From<AllocFailed<T>> for Fault {
    fn from(_error: AllocFailed<T>) -> Fault {
        Fault::Memory
    }
}

impl From<NumericError> for Fault {
    fn from(error: NumericError) -> Fault {
        match error {
            NumericError::Memory => Fault::Memory,
            NumericError::NotNumeric => Fault::Wrong("not numeric"),
        }
    }
}

impl From<StyleError> for Fault {
    fn from(error: StyleError) -> Fault {
        match error {
            StyleError::Memory => Fault::Memory,
            error => Fault::Refused(error),
        }
    }
}

impl From<ListStyleError> for Fault {
    fn from(error: ListStyleError) -> Fault {
        match error {
            ListStyleError::Memory => Fault::Memory,
            error => Fault::RefusedOptions(error),
        }
    }
}

impl From<ListError> for Fault {
    fn from(error: ListError) -> Fault {
        match error {
            ListError::Memory => Fault::Memory,
            error => Fault::NoList(error),
        }
    }
}
