//! Assertions that report both values.

use std::fmt::Debug;
use std::process::Abort;

/// Asserts that the answer is the wanted value.
pub(crate) fn assert_same<T: Debug + PartialEq>(rt: &impl Abort, answer: &T, wanted: &T) {
    assert_eq!(rt; answer, wanted);
}

/// Asserts that the answer is the wanted value, and reports the input `of` if it is not.
pub(crate) fn assert_of<T: Debug + PartialEq, O: Debug + Copy>(
    rt: &impl Abort,
    answer: &T,
    wanted: &T,
    of: O,
) {
    assert_eq!(rt; answer, wanted, "of {of:?}");
}

/// Asserts that the answer is the wanted text, or that both are missing.
pub(crate) fn assert_text(rt: &impl Abort, answer: Option<&str>, wanted: Option<&str>) {
    assert_same(rt, &answer, &wanted);
}
