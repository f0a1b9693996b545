//! A cite, and assertions whose messages show both values and the words of the case.

use csl_entry::{CiteProperties, InstanceContext};
use std::process::Abort;

/// A cite of an entry with these properties. It is rendered whole, and not for a sort key.
pub(crate) fn instance<'s, T>(
    entry: &'s T,
    cite_props: &'s CiteProperties<'s>,
) -> InstanceContext<'s, T> {
    InstanceContext {
        entry,
        cite_props,
        sorting: None,
        kind: None,
    }
}

/// Asserts that the text for these words is the expected one.
pub(crate) fn assert_text(rt: &impl Abort, answer: &str, wanted: &str, of: &[&str]) {
    assert_eq!(rt; answer, wanted, "of {of:?}");
}

/// Asserts that the status for these words is the expected one.
pub(crate) fn assert_status(rt: &impl Abort, status: u8, wanted: u8, of: &[&str]) {
    assert!(rt;
        status == wanted,
        "status {status}, wanted {wanted}, of {of:?}"
    );
}
