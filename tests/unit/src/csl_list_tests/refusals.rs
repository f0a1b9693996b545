//! Documents and options that are refused.

use crate::assertions::assert_of;
use crate::csl_list_tests::documents::{driver, text_of, works};
use crate::csl_list_tests::styles::author_list;
use csl::Scope;
use csl::literature::Entry;
use csl_list::{ListError, ListStyle, ListStyleError, ListedWorks};
use std::alloc::Global;
use std::process::Abort;

#[test]
fn errors_name_their_places(rt: HostRuntime) {
    let alloc = rt.alloc();
    let scope = Scope::Bibliography;
    let errors = format!(in alloc;
        "{}; {}; {}; {}; {}; {}",
        ListError::NoSuchWork {
            citation: 2,
            item: 1
        },
        ListError::Limit,
        ListError::TooManyWorks,
        ListError::Memory,
        ListStyleError::NoSuchMacro { scope, key: 0 },
        ListStyleError::Memory
    );
    let errors = errors.expect(&rt, "memory");
    let wanted =
        "citation 3, cite 2: there is no such work; beyond the limit; too many works; out of memory; bibliography, key 1: the style has no macro of this name; out of memory";
    assert_of(&rt, &errors.as_str(), &wanted, "errors");
}

/// The list of a document under a limit, or `None` if that is too low.
fn text_within(
    rt: &impl Abort,
    alloc: Global,
    style: &ListStyle,
    works: &[Entry],
    limit: u64,
) -> Option<String> {
    let driver = driver(rt, alloc, &["0", "1;0"]).limited(limit);
    match driver.finish(alloc, style, works, ListedWorks::All) {
        Err(ListError::Limit) => None,
        Err(_) => panic!(rt; "another error"),
        Ok(list) => Some(text_of(rt, alloc, &list)),
    }
}

#[test]
fn a_list_has_one_limit(rt: HostRuntime) {
    let alloc = rt.alloc();
    let style = author_list(&rt, alloc, "a", "a");
    let works = works(&rt, alloc, &["Doe, Jane|2014|Seas", "Roe, Max|2010|Hills"]);
    // the limit stops at a sort key, a cite or a work, as it is lower or higher
    let (mut low, mut high): (u64, u64) = (0, 1_000_000);
    while high - low > 1 {
        let middle = (low + high) / 2;
        match text_within(&rt, alloc, &style, &works, middle) {
            Some(_) => high = middle,
            None => low = middle,
        }
    }
    assert!(&rt; low > 1_000, "each rendering counts");
    for eighth in 0..8u64 {
        let text = text_within(&rt, alloc, &style, &works, low * eighth / 8);
        assert_of(&rt, &text.is_none(), &true, eighth);
    }
    let text = text_within(&rt, alloc, &style, &works, high).expect(&rt, "a list");
    let wanted =
        "(Doe, 2014)\n(Doe, 2014; Roe, 2010)\nDoe, Jane. 2014. Seas.\nRoe, Max. 2010. Hills.\n";
    assert_of(&rt, &text.as_str(), &wanted, high);
}

#[test]
fn a_style_is_within_limits(rt: HostRuntime) {
    let alloc = rt.alloc();
    let style = author_list(&rt, alloc, "a", "ay");
    let small = style.all_within(alloc, 3, 3, 3).expect(&rt, "memory");
    let large = style
        .all_within(alloc, 1_000, 1_000, 100)
        .expect(&rt, "memory");
    assert_of(&rt, &(small, large), &(false, true), "limits");
}
