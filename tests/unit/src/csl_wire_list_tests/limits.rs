//! How large the options and the documents of a stranger may be.

use crate::shared::{assert_cases, repeated};
use crate::wire::{assert_bounds, json, refusal_of};
use csl_wire_list::{DocumentLimits, OptionLimits, citation_options_of, document_of};
use std::alloc::Global;
use std::process::Abort;

const OPTIONS: &str = r#"
200 of , in {"layout": {"delimiter": "@"}} => /layout/delimiter too-long: the text is too long
200 of , in {"year-suffix-delimiter": "@"} => /year-suffix-delimiter too-long: the text is too long
200 of , in {"sort": [{"macro": "@"}]} => /sort/0/macro too-long: the text is too long
19 of {"macro": "a"}, in {"sort": [@{"macro": "a"}]} => /sort too-long: there are too many keys
"#;

#[test]
fn sizes_of_options(rt: HostRuntime) {
    let alloc = rt.alloc();
    let answer = |text: &str| {
        let value = json(&rt, alloc, text);
        assert!(&rt; citation_options_of(alloc, &value, OptionLimits::none()).is_ok());
        let read = citation_options_of(alloc, &value, OptionLimits::of_strangers());
        refusal_of(&rt, alloc, read)
    };
    assert_bounds(&rt, alloc, OPTIONS, &answer);
}

const DOCUMENTS: &str = r#"
10000 of 7 in {"citations": [{"items": [{"work": "a", "prefix": "@"}]}]}
  => /citations/0/items/0/prefix too-long: the text is too long
10000 of 7 in {"citations": [{"items": [{"work": "a", "suffix": "@"}]}]}
  => /citations/0/items/0/suffix too-long: the text is too long
500 of 7 in {"citations": [{"items": [{"work": "a", "locator": {"label": "page", "value": "@"}}]}]}
  => /citations/0/items/0/locator/value too-long: the text is too long
"#;

/// What a document is refused for under limits; nothing if it is not. Without limits it is read.
fn refusal_of_document(
    rt: &impl Abort,
    alloc: Global,
    text: &str,
    limits: DocumentLimits,
) -> String {
    let value = json(rt, alloc, text);
    assert!(rt; document_of(alloc, &value, DocumentLimits::none()).is_ok());
    refusal_of(rt, alloc, document_of(alloc, &value, limits))
}

#[test]
fn texts_of_documents(rt: HostRuntime) {
    let alloc = rt.alloc();
    let answer = |text: &str| refusal_of_document(&rt, alloc, text, DocumentLimits::of_strangers());
    assert_bounds(&rt, alloc, DOCUMENTS, &answer);
}

/// Limits of few.
const FEW: DocumentLimits = DocumentLimits {
    citations: 4,
    cites: 6,
    works: 3,
    text: 10,
    locator: 10,
};

/// How many citations a document has beside an empty one, of how many cites each, and how many
/// works.
const SIZES: &str = "
3 2 3 =>
4 1 3 => /citations too-long: there are too many citations
1 7 3 => /citations too-long: there are too many cites
3 3 3 => /citations too-long: there are too many cites
3 2 4 => /works too-long: there are too many works
";

/// A document of such sizes.
fn sized(rt: &impl Abort, alloc: Global, sizes: &str) -> String {
    let mut numbers = sizes.split(' ').map(|it| it.parse::<usize>().ok());
    let mut next = || numbers.next().flatten().expect(rt, "a number");
    let (citations, cites, works) = (next(), next(), next());
    let cites = repeated(rt, alloc, r#", {"work": "a"}"#, cites - 1);
    let citation = format!(in alloc; ", {{\"items\": [{{\"work\": \"b\"}}{cites}]}}");
    let citations = repeated(rt, alloc, citation.expect(rt, "memory").as_str(), citations);
    let works = repeated(rt, alloc, r#", "c""#, works - 1);
    let text = format!(in alloc; "{{\"citations\": [{{}}{citations}], \"works\": [\"d\"{works}]}}");
    text.expect(rt, "memory")
}

#[test]
fn sizes_of_documents(rt: HostRuntime) {
    let alloc = rt.alloc();
    let answer = |sizes: &str| {
        let text = sized(&rt, alloc, sizes);
        refusal_of_document(&rt, alloc, text.as_str(), FEW)
    };
    assert_cases(&rt, alloc, SIZES, &answer);
}
