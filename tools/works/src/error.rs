//! The reasons why a work fails.

use crate::reader::fault::Fault;
use csl::literature::NumericError;
use csl::{Error, HtmlError, Memory, RenderError, StyleError};
use csl_list::{ListError, ListStyleError};
use std::alloc::{AllocError, AllocFailed};
use std::fmt;

/// The reason why a work failed.
#[derive(Clone, Copy)]
pub enum WorkError {
    /// Out of memory.
    Memory,
    /// An argument or a result is not as the work needs it.
    Unexpected(&'static str),
}

impl From<Memory> for WorkError {
    fn from(_error: Memory) -> WorkError {
        WorkError::Memory
    }
}

impl From<AllocError> for WorkError {
    fn from(_error: AllocError) -> WorkError {
        WorkError::Memory
    }
}

impl<T: Drop> From<AllocFailed<T>> for WorkError {
    fn from(_error: AllocFailed<T>) -> WorkError {
        WorkError::Memory
    }
}

/// Writing to a string fails only if memory runs out.
impl From<fmt::Error> for WorkError {
    fn from(_error: fmt::Error) -> WorkError {
        WorkError::Memory
    }
}

impl From<NumericError> for WorkError {
    fn from(error: NumericError) -> WorkError {
        match error {
            NumericError::Memory => WorkError::Memory,
            NumericError::NotNumeric => WorkError::Unexpected("not numeric"),
        }
    }
}

/// A style in the notation of rows is right, so it is refused only if memory runs out.
impl From<Fault> for WorkError {
    fn from(fault: Fault) -> WorkError {
        match fault {
            Fault::Memory => WorkError::Memory,
            _ => WorkError::Unexpected("the nodes are not readable"),
        }
    }
}

impl From<HtmlError> for WorkError {
    fn from(error: HtmlError) -> WorkError {
        match error {
            HtmlError::Memory => WorkError::Memory,
            HtmlError::NotHtml => WorkError::Unexpected("not html"),
        }
    }
}

impl From<StyleError> for WorkError {
    fn from(error: StyleError) -> WorkError {
        match error {
            StyleError::Memory => WorkError::Memory,
            _ => WorkError::Unexpected("the style is refused"),
        }
    }
}

/// Callers convert only the first error of a context, so [`RenderError::Failed`] is unexpected.
impl From<RenderError> for WorkError {
    fn from(error: RenderError) -> WorkError {
        match error {
            RenderError::Memory => WorkError::Memory,
            RenderError::Failed => WorkError::Unexpected("the context had failed"),
        }
    }
}

/// A text refuses what is added to it only if memory runs out.
impl From<Error> for WorkError {
    fn from(error: Error) -> WorkError {
        match error {
            Error::Memory | Error::Refused => WorkError::Memory,
            Error::Limit => WorkError::Unexpected("beyond the limit"),
            Error::Style(error) => error.into(),
            Error::NotNumeric => WorkError::Unexpected("not numeric"),
            Error::NotHtml => WorkError::Unexpected("not html"),
            Error::DateOutOfRange => WorkError::Unexpected("month or day out of range"),
        }
    }
}

/// The styles of works have the macros of their keys.
impl From<ListStyleError> for WorkError {
    fn from(error: ListStyleError) -> WorkError {
        match error {
            ListStyleError::Memory => WorkError::Memory,
            ListStyleError::NoSuchMacro { .. } => WorkError::Unexpected("a key lacks its macro"),
        }
    }
}

impl From<ListError> for WorkError {
    fn from(error: ListError) -> WorkError {
        match error {
            ListError::Memory => WorkError::Memory,
            ListError::Limit => WorkError::Unexpected("beyond the limit"),
            ListError::NoSuchWork { .. } => WorkError::Unexpected("a cited work is not there"),
            ListError::TooManyWorks => WorkError::Unexpected("too many works"),
        }
    }
}
