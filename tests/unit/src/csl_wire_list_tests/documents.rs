//! Documents: the works that they name, and their citations; and why they are refused.

use crate::csl_wire_list_tests::reading::{document, document_text};
use crate::shared::assert_cases;
use crate::wire::{json, told};
use csl_wire::{Form, Limits, Reader};
use csl_wire_list::{DocumentLimits, document_in, document_of};

/// Documents, and what is read. Works stand as they are first named.
const DOCUMENTS: &str = r#"
{} => /
{"citations": [], "works": null} => /
{"citations": [{}, {"items": []}]} => /;;
{"citations": [{"items": [{"work": "kwan"}]}]} => kwan / [0];
{"citations": [{"note-number": 1, "items": [{"work": "roe"}, {"work": "kwan"}]}, {"note-number":
  2147483647, "items": [{"work": "roe"}]}]}
  => roe kwan / note 1: [0] [1]; note 2147483647: [0];
# works that are listed without a cite come after those that are cited
{"works": ["doe", "kwan", "poe", "doe"], "citations": [{"items": [{"work": "roe"}, {"work":
  "kwan"}]}]}
  => roe kwan doe poe / [0] [1];
{"works": ["doe", "roe"]} => doe roe /
{"citations": [{"items": [{"work": "", "locator": {"label": "page", "value": "33-35"}}]}]}
  => / [0 Page Str("33-35")];
{"citations": [{"items": [{"work": "a", "locator": {"label": "chapter"}}, {"work": "a", "locator":
  null}]}]}
  => a / [0 Chapter Transparent] [0];
{"citations": [{"items": [{"work": "a", "hidden": true}, {"work": "a", "hidden": false}]}]}
  => a / [0 hidden] [0];
{"citations": [{"items": [{"work": "a", "prefix": "see ", "suffix": ", <too>"}, {"work": "a",
  "prefix": ""}]}]}
  => a / [0 prefix="see " suffix=", &lt;too&gt;"] [0 prefix=""];
{"citations": [{"items": [{"work": "a", "purpose": "author"}, {"work": "a", "purpose": "year"},
  {"work": "a", "purpose": "full"}, {"work": "a", "purpose": "prose"}, {"work": "a", "purpose":
  "suppress-author"}]}]}
  => a / [0 Author] [0 Year] [0 Full] [0 Prose] [0 SuppressAuthor];
# refused
[] => wrong-type: an object goes here
{"citation": []}
  => unknown-member: no member here has this name: "citation" (the nearest is "citations")
{"citations": {}} => /citations wrong-type: a list goes here
{"citations": [{}, []]} => /citations/1 wrong-type: an object goes here
{"citations": [{"note": 1}]} => /citations/0 unknown-member: no member here has this name: "note"
# notes count from 1
{"citations": [{"note-number": 0}]}
  => /citations/0/note-number out-of-range: a note number is from 1 to 2147483647
{"citations": [{"note-number": 2147483648}]}
  => /citations/0/note-number out-of-range: a note number is from 1 to 2147483647
{"citations": [{"note-number": "1"}]} => /citations/0/note-number wrong-type: a number goes here
{"citations": [{"items": ["kwan"]}]} => /citations/0/items/0 wrong-type: an object goes here
{"citations": [{"items": [{}]}]} => /citations/0/items/0 missing-member: a member is missing: "work"
{"citations": [{"items": [{"work": 1}]}]} => /citations/0/items/0/work wrong-type: a text goes here
{"citations": [{"items": [{"work": "a", "locator": {"label": "pge", "value": "7"}}]}]}
  => /citations/0/items/0/locator/label unknown-name: no locator has this name: "pge" (the nearest
  is "page")
{"citations": [{"items": [{"work": "a", "locator": {"label": "page", "value": 7}}]}]}
  => /citations/0/items/0/locator/value wrong-type: a text goes here
{"citations": [{"items": [{"work": "a", "purpose": "autor"}]}]}
  => /citations/0/items/0/purpose unknown-name: no value here has this name: "autor" (the nearest
  is "author")
{"citations": [{"items": [{"work": "a", "hidden": 1}]}]}
  => /citations/0/items/0/hidden wrong-type: true or false goes here
{"citations": [{"items": [{"work": "a", "sufix": "."}]}]}
  => /citations/0/items/0 unknown-member: no member here has this name: "sufix" (the nearest is
  "suffix")
{"works": ["kwan", {"work": "roe"}]} => /works/1 wrong-type: a text goes here
"#;

#[test]
fn documents_that_are_read(rt: HostRuntime) {
    let alloc = rt.alloc();
    assert_cases(&rt, alloc, DOCUMENTS, &|text| document(&rt, alloc, text));
}

/// A request with a document has further members.
#[test]
fn document_of_a_request(rt: HostRuntime) {
    let alloc = rt.alloc();
    let request =
        r#"{"op": "document", "citations": [{"items": [{"work": "a"}]}], "works": ["b"]}"#;
    let value = json(&rt, alloc, request);
    let limits = Limits::of_strangers();
    let form = Form::of(
        Reader {
            alloc,
            limits,
            marks: false,
        },
        &value,
        &[&["op", "citations", "works"]],
    );
    let form = form.expect(&rt, "a request");
    let document = document_in(form, DocumentLimits::of_strangers()).expect(&rt, "a document");
    let came = document_text(&rt, alloc, &document);
    assert_eq!(&rt; came.as_str(), "a b / [0];");
}

/// A document whose works the caller does not have: each is refused where it is first named.
const UNKNOWN: &str = r#"{
    "citations": [
        {"items": [{"work": "kwan"}]},
        {"items": [{"work": "kwan"}, {"work": "rue"}]},
        {"items": [{"work": "rue"}]}],
    "works": ["kwan", "doe"]}"#;

/// The index of a work, and its refusal.
const REFUSALS: &str = r#"
0 => /citations/0/items/0/work unknown-name: no value here has this name: "kwan"
1 => /citations/1/items/1/work unknown-name: no value here has this name: "rue" (the nearest is
  "roe")
2 => /works/1 unknown-name: no value here has this name: "doe" (the nearest is "roe")
"#;

#[test]
fn unknown_works(rt: HostRuntime) {
    let alloc = rt.alloc();
    let value = json(&rt, alloc, UNKNOWN);
    let document = document_of(alloc, &value, DocumentLimits::of_strangers());
    let document = document.expect(&rt, "a document");
    let answer = |index: &str| {
        let index = index.parse::<usize>().ok().expect(&rt, "an index");
        let error = document.works[index].unknown(alloc, &["roe", "baker"]);
        told(&rt, alloc, error)
    };
    assert_cases(&rt, alloc, REFUSALS, &answer);
}
