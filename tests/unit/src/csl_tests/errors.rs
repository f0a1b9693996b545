//! Tests of the conversion of the crates' errors into [`Error`], and of its texts.

use crate::assertions::assert_text;
use csl::literature::NumericError;
use csl::style::StyleError;
use csl::{Error, HtmlError, Memory, RenderError};
use std::alloc::{AllocError, AllocFailed, Global};
use std::fmt;
use std::process::Abort;

fn cyclic(rt: &impl Abort, alloc: Global) -> Error {
    let name = String::from_str(alloc, "a").expect(rt, "memory");
    Error::from(StyleError::CyclicMacro(name))
}

/// Asserts the text of an error of any crate.
fn assert_shown<T: fmt::Display>(rt: &impl Abort, alloc: Global, error: &T, wanted: &str) {
    let text = format!(in alloc; "{error}");
    assert_text(rt, Some(text.expect(rt, "memory").as_str()), Some(wanted));
}

/// Asserts the text of an error.
fn assert_text_of(rt: &impl Abort, alloc: Global, error: Error, wanted: &str) {
    assert_shown(rt, alloc, &error, wanted);
}

#[test]
fn errors_for_out_of_memory_and_their_text(rt: HostRuntime) {
    let alloc = rt.alloc();
    let wanted = "out of memory";
    assert_text_of(&rt, alloc, Memory.into(), wanted);
    assert_text_of(&rt, alloc, AllocError.into(), wanted);
    assert_text_of(&rt, alloc, AllocFailed { value: true }.into(), wanted);
    assert_text_of(&rt, alloc, NumericError::Memory.into(), wanted);
    assert_text_of(&rt, alloc, HtmlError::Memory.into(), wanted);
    assert_text_of(&rt, alloc, StyleError::Memory.into(), wanted);
    assert_text_of(&rt, alloc, RenderError::Memory.into(), wanted);
    assert_text_of(&rt, alloc, RenderError::Failed.into(), wanted);
}

#[test]
fn other_errors_and_their_texts(rt: HostRuntime) {
    let alloc = rt.alloc();
    assert_text_of(&rt, alloc, NumericError::NotNumeric.into(), "not numeric");
    assert_text_of(&rt, alloc, HtmlError::NotHtml.into(), "not html");
    let cyclic = cyclic(&rt, alloc);
    assert_text_of(&rt, alloc, cyclic, "the macro 'a' leads back to itself");
    let chicago = "Chicago page formats are not supported";
    assert_text_of(&rt, alloc, StyleError::ChicagoPageFormat.into(), chicago);
    assert_text_of(&rt, alloc, fmt::Error.into(), "a writer refused a text");
    let out_of_range = "month or day out of range";
    assert_text_of(&rt, alloc, Error::DateOutOfRange, out_of_range);
    assert_text_of(&rt, alloc, Error::Limit, "beyond the limit");
}

#[test]
fn errors_of_the_crates_below_and_their_texts(rt: HostRuntime) {
    let alloc = rt.alloc();
    let wanted = "out of memory";
    assert_shown(&rt, alloc, &Memory, wanted);
    assert_shown(&rt, alloc, &NumericError::Memory, wanted);
    assert_shown(&rt, alloc, &HtmlError::Memory, wanted);
    assert_shown(&rt, alloc, &RenderError::Memory, wanted);
    assert_shown(&rt, alloc, &NumericError::NotNumeric, "not numeric");
    assert_shown(&rt, alloc, &HtmlError::NotHtml, "not html");
    let failed = "the context had failed before";
    assert_shown(&rt, alloc, &RenderError::Failed, failed);
}
