//! Refusals of styles and locales: the place as a JSON Pointer, the code and the words.

use crate::csl_wire_tests::reading::{json, read_style, told};
use crate::shared::assert_cases;
use crate::wire::refusal_of;
use csl_wire::{Code, Limits, Step, WireError, locale_of, value_of_text, within};

const STYLES: &str = r#"
[] => wrong-type: an object goes here
{"citations": {}}
  => unknown-member: no member here has this name: "citations" (the nearest is "citation")
{"citation": {"prefix": "("}} => /citation unknown-member: no member here has this name: "prefix"
{"bibliography": {"children": [{"text": {"variable": "titel"}}]}}
  => /bibliography/children/0/text/variable unknown-name: no variable has this name: "titel" (the
  nearest is "title")
{"macros": [{"name": "a"}, {"children": []}]}
  => /macros/1 missing-member: a member is missing: "name"
{"macros": [{"name": "a", "children": [{"group": {"children": [{"text": {"term": 1}}]}}]}]}
  => /macros/0/children/0/group/children/0/text/term wrong-type: a text goes here
# the first macro that leads back to itself
{"macros": [{"name": "c"}, {"name": "a", "children": [{"text": {"macro": "b"}}]}, {"name": "b",
  "children": [{"group": {"children": [{"text": {"macro": "a"}}]}}]}]}
  => /macros cyclic-macro: a macro leads back to itself: "a"
{"page-range-format": "chicago-16"}
  => /page-range-format unsupported: the page formats of Chicago are not supported
{"page-range-format": "chicago"}
  => /page-range-format unsupported: the page formats of Chicago are not supported
{"locales": ["en-US", "en-UK"]}
  => /locales/1 unknown-name: no language has this tag: "en-UK" (the nearest is "en-US")
{"locales": [{}, {"terms": [{"name": "page", "single": 7}]}]}
  => /locales/1/terms/0/single wrong-type: a text goes here
"#;

#[test]
fn refused_styles(rt: HostRuntime) {
    let alloc = rt.alloc();
    let answer = |text: &str| refusal_of(&rt, alloc, read_style(&rt, alloc, text));
    assert_cases(&rt, alloc, STYLES, &answer);
}

const LOCALES: &str = r#"
"en-US" => wrong-type: an object goes here
{"terms": {}} => /terms wrong-type: a list goes here
{"terms": [{"name": "page"}]} => /terms/0 missing-member: a member is missing: "single"
{"terms": [{"single": "p."}]} => /terms/0 missing-member: a member is missing: "name"
{"terms": [{"name": "ordinal-100", "single": "th"}]}
  => /terms/0/name unknown-name: no term has this name: "ordinal-100"
{"terms": [{"name": "long-ordinal-11", "single": "eleventh"}]}
  => /terms/0/name unknown-name: no term has this name: "long-ordinal-11"
# an ordinal has no plural, and a term no digits
{"terms": [{"name": "ordinal-02", "single": "nd", "multiple": "nds"}]}
  => /terms/0 unknown-member: no member here has this name: "multiple"
{"terms": [{"name": "page", "single": "p.", "match": "last-digit"}]}
  => /terms/0 unknown-member: no member here has this name: "match"
{"dates": [{"form": "text"}, {"date-part": []}]}
  => /dates/1 missing-member: a member is missing: "form"
{"dates": [{"form": "text", "variable": "issued"}]}
  => /dates/0 unknown-member: no member here has this name: "variable"
{"punctuation-in-quote": 1} => /punctuation-in-quote wrong-type: true or false goes here
"#;

#[test]
fn refused_locales(rt: HostRuntime) {
    let alloc = rt.alloc();
    let answer = |text: &str| {
        let value = json(&rt, alloc, text);
        refusal_of(&rt, alloc, locale_of(alloc, &value, Limits::of_strangers()))
    };
    assert_cases(&rt, alloc, LOCALES, &answer);
}

/// Texts that are no JSON, and the lines where they go wrong.
static NO_JSON: [(&str, usize); 7] = [
    ("", 1),
    ("[1,\n 2", 2),
    ("{'a': 1}", 1),
    ("[01]", 1),
    (r#""\ud800""#, 1),
    ("[];", 1),
    ("\n\n[1e999]", 3),
];

#[test]
fn texts_that_are_no_json(rt: HostRuntime) {
    let alloc = rt.alloc();
    let reason = "no JSON of at most 127 levels";
    for (text, line) in &NO_JSON {
        let error = value_of_text(alloc, text).err();
        let came = told(&rt, alloc, error.expect(&rt, "a refusal"));
        let wanted = format!(in alloc; " not-json: {reason} at line {line}, column ");
        let is_so = came
            .as_str()
            .starts_with(wanted.expect(&rt, "memory").as_str());
        assert!(&rt; is_so, "of {text}: {came}");
    }
}

/// A caller that reads more around a value adds the steps that lead to it.
#[test]
fn errors_from_further_out(rt: HostRuntime) {
    let error = read_style(&rt, rt.alloc(), r#"{"citation": []}"#).err();
    let read: Result<(), WireError> = Err(error.expect(&rt, "a refusal"));
    let read = within(Step::Member("style"), read);
    let read = within(Step::Item(12), read);
    let came = told(&rt, rt.alloc(), read.err().expect(&rt, "a refusal"));
    let wanted = "/12/style/citation wrong-type: an object goes here";
    assert_eq!(&rt; came.as_str(), wanted, "of a citation");
}

/// The names of the codes, no two alike.
static CODES: [(Code, &str); 11] = [
    (Code::NotJson, "not-json"),
    (Code::WrongType, "wrong-type"),
    (Code::UnknownMember, "unknown-member"),
    (Code::MissingMember, "missing-member"),
    (Code::UnknownName, "unknown-name"),
    (Code::OutOfRange, "out-of-range"),
    (Code::TooLong, "too-long"),
    (Code::ReservedCharacter, "reserved-character"),
    (Code::TooDeep, "too-deep"),
    (Code::CyclicMacro, "cyclic-macro"),
    (Code::Unsupported, "unsupported"),
];

#[test]
fn codes_have_names(rt: HostRuntime) {
    for (code, name) in &CODES {
        assert_eq!(&rt; code.name(), *name, "of {code:?}");
    }
}
