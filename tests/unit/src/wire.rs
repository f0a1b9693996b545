//! What the tests of values from JSON need.

use crate::shared::{assert_cases, repeated};
use csl_wire::{WireError, value_of_text};
use serde_json::Value;
use std::alloc::Global;
use std::process::Abort;

/// The value of a text of JSON.
pub(crate) fn json(rt: &impl Abort, alloc: Global, text: &str) -> Value {
    value_of_text(alloc, text).expect(rt, "JSON")
}

/// A refusal: its place, its code and its words.
pub(crate) fn told(rt: &impl Abort, alloc: Global, error: WireError) -> String {
    match error {
        WireError::Memory => String::from_str(alloc, "memory").expect(rt, "memory"),
        WireError::Refused(refusal) => {
            let place = refusal.pointer(alloc).expect(rt, "memory");
            let code = refusal.code().name();
            format!(in alloc; "{place} {code}: {refusal}").expect(rt, "memory")
        }
    }
}

/// The refusal of what is read; nothing if it is not refused.
pub(crate) fn refusal_of<T: Drop>(
    rt: &impl Abort,
    alloc: Global,
    read: Result<T, WireError>,
) -> String {
    match read {
        Ok(_) => String::new(alloc),
        Err(error) => told(rt, alloc, error),
    }
}

/// Asserts bounds. In a table (`assert_cases`), each is so many texts in the place of `@` of JSON, which
/// is within the limits of strangers, and the refusal of one text more. The answer is the refusal of
/// JSON, which is empty where this is read.
pub(crate) fn assert_bounds<F: Fn(&str) -> String>(
    rt: &impl Abort,
    alloc: Global,
    bounds: &str,
    answer: &F,
) {
    let refusal = |bound: &str| {
        let (most, rest) = bound.split_once(" of ").expect(rt, "a number");
        let most = most.parse::<usize>().ok().expect(rt, "a number");
        let (text, pattern) = rest.split_once(" in ").expect(rt, "a text");
        let (before, after) = pattern.split_once('@').expect(rt, "a place");
        let answer_to = |count: usize| {
            let texts = repeated(rt, alloc, text, count);
            let json = format!(in alloc; "{before}{texts}{after}").expect(rt, "memory");
            answer(json.as_str())
        };
        assert_eq!(rt; answer_to(most).as_str(), "", "of {bound}");
        answer_to(most + 1)
    };
    assert_cases(rt, alloc, bounds, &refusal);
}
