//! How large a work of a stranger may be.

use crate::wire::{assert_bounds, json, refusal_of};
use csl_wire_cite::{WorkLimits, cite_of, entry_of};

/// Bounds of works. Each text counts one more than its bytes: of 99,997 bytes and 1 byte, 100,000.
const WORKS: &str = r#"
99997 of a in {"variables": {"title": "@", "author": [{"family": "b"}]}}
  => /variables too-long: the work has too many bytes
1998 of {"family": "a"}, in {"variables": {"editor": [{"family": "b"}], "author": [@{"family":
  "c"}]}}
  => /variables too-long: the work has too many persons
500 of 0 in {"variables": {"volume": "@"}} => /variables/volume too-long: the text is too long
500 of 0 in {"variables": {"page": "@"}} => /variables/page too-long: the text is too long
"#;

/// Bounds of cites. A list of forms counts as one more form.
const CITES: &str = r#"
500 of 7 in {"locator": {"label": "page", "value": "@"}}
  => /locator/value too-long: the text is too long
1997 of null, in {"names": {"default": "short", "variable": ["author"], "lists": [[@"long"], []]}}
  => /names/lists too-long: there are too many forms of names
"#;

#[test]
fn sizes_of_works(rt: HostRuntime) {
    let alloc = rt.alloc();
    let answer = |text: &str| {
        let value = json(&rt, alloc, text);
        assert!(&rt; entry_of(alloc, &value, WorkLimits::none()).is_ok());
        refusal_of(
            &rt,
            alloc,
            entry_of(alloc, &value, WorkLimits::of_strangers()),
        )
    };
    assert_bounds(&rt, alloc, WORKS, &answer);
}

#[test]
fn sizes_of_cites(rt: HostRuntime) {
    let alloc = rt.alloc();
    let answer = |text: &str| {
        let value = json(&rt, alloc, text);
        assert!(&rt; cite_of(alloc, &value, WorkLimits::none()).is_ok());
        refusal_of(
            &rt,
            alloc,
            cite_of(alloc, &value, WorkLimits::of_strangers()),
        )
    };
    assert_bounds(&rt, alloc, CITES, &answer);
}
