//! The cases of nodes (CSL 1.0.2, Text-case): marks in their affixes where they are wanted, else none.
//! The marks are those of `csl_finish`: a pair a case, from U+FDD0 on.

use crate::csl_wire_tests::described::Description;
use crate::csl_wire_tests::described_nodes;
use crate::csl_wire_tests::reading::{json, nodes_as_text, told};
use csl_style::Scope;
use csl_wire::{Limits, marked_style_of};
use std::alloc::Global;
use std::process::Abort;

/// The nodes of a text that are read as those of a citation, with the marks of cases, or the refusal.
fn marked_as_text(rt: &impl Abort, alloc: Global, nodes: &str, limits: Limits) -> String {
    let text = format!(in alloc; "{{\"citation\": {{\"children\": {nodes}}}}}").expect(
        rt, "memory",
    );
    let value = json(rt, alloc, text.as_str());
    match marked_style_of(alloc, &value, limits) {
        Ok(style) => {
            let mut out = Description::new(rt, alloc);
            let layout = style.layout(Scope::Citation).expect(rt, "a citation");
            described_nodes::nodes(&mut out, layout.elements.as_slice());
            String::from_str(alloc, out.as_str()).expect(rt, "memory")
        }
        Err(error) => told(rt, alloc, error),
    }
}

/// Nodes, what they are without marks, and what they are with marks.
static CASES: [[&str; 3]; 8] = [
    [
        r#"[{"text": {"variable": "title", "text-case": "title", "prefix": "(", "suffix": ")"}}]"#,
        r#"[(text variable=Standard(Title) Long prefix="(" suffix=")")]"#,
        r#"[(text variable=Standard(Title) Long prefix="(\u{fdd8}" suffix="\u{fdd9})")]"#,
    ],
    [
        r#"[{"text": {"macro": "a", "text-case": "sentence"}},
            {"text": {"value": "a", "text-case": "uppercase", "suffix": "b"}}]"#,
        r#"[(text macro="a")(text value="a" suffix="b")]"#,
        r#"[(text macro="a" prefix="\u{fdda}" suffix="\u{fddb}")(text value="a" prefix="\u{fdd2}" suffix="\u{fdd3}b")]"#,
    ],
    [
        r#"[{"text": {"term": "in", "text-case": "capitalize-first"}}]"#,
        "[(text term=Other(In) Long)]",
        r#"[(text term=Other(In) Long prefix="\u{fdd4}" suffix="\u{fdd5}")]"#,
    ],
    [
        r#"[{"number": {"variable": "volume", "text-case": "lowercase"}},
            {"label": {"variable": "page", "text-case": "capitalize-all"}}]"#,
        "[(number Number(Volume) Numeric)(label Page(Page) Long Contextual)]",
        r#"[(number Number(Volume) Numeric prefix="\u{fdd0}" suffix="\u{fdd1}")(label Page(Page) Long Contextual prefix="\u{fdd6}" suffix="\u{fdd7}")]"#,
    ],
    [
        r#"[{"date": {"variable": "issued", "date-part": [
            {"name": "month", "text-case": "uppercase", "suffix": " "}]}}]"#,
        r#"[(date variable=Issued [(part Month suffix=" ")])]"#,
        r#"[(date variable=Issued [(part Month prefix="\u{fdd2}" suffix="\u{fdd3} ")])]"#,
    ],
    [
        r#"[{"names": {"variable": ["author"], "children": [
            {"name": {"name-part": [{"name": "family", "text-case": "uppercase"}]}},
            {"label": {"text-case": "capitalize-first"}},
            {"substitute": [{"text": {"value": "a", "text-case": "lowercase"}}]}]}}]"#,
        r#"[(names [Author] [(name [(part Family)])(label Long Contextual)(substitute [(text value="a")])])]"#,
        r#"[(names [Author] [(name [(part Family prefix="\u{fdd2}" suffix="\u{fdd3}")])(label Long Contextual prefix="\u{fdd4}" suffix="\u{fdd5}")(substitute [(text value="a" prefix="\u{fdd0}" suffix="\u{fdd1}")])])]"#,
    ],
    // a text that prints a link has no marks: its prefix may begin the address
    [
        r#"[{"text": {"variable": "DOI", "prefix": "https://doi.org/", "text-case": "lowercase"}},
            {"text": {"variable": "PMCID", "text-case": "title"}},
            {"text": {"variable": "PMID", "text-case": "title"}},
            {"text": {"variable": "URL", "text-case": "title"}},
            {"text": {"variable": "ISBN", "text-case": "uppercase"}}]"#,
        r#"[(text variable=Standard(DOI) Long prefix="https://doi.org/")(text variable=Standard(PMCID) Long)(text variable=Standard(PMID) Long)(text variable=Standard(URL) Long)(text variable=Standard(ISBN) Long)]"#,
        r#"[(text variable=Standard(DOI) Long prefix="https://doi.org/")(text variable=Standard(PMCID) Long)(text variable=Standard(PMID) Long)(text variable=Standard(URL) Long)(text variable=Standard(ISBN) Long prefix="\u{fdd2}" suffix="\u{fdd3}")]"#,
    ],
    // no case, and `null`
    [
        r#"[{"text": {"value": "a", "text-case": null}}, {"group": {"prefix": "a"}}]"#,
        r#"[(text value="a")(group prefix="a" [])]"#,
        r#"[(text value="a")(group prefix="a" [])]"#,
    ],
];

#[test]
fn cases_are_marks_in_affixes(rt: HostRuntime) {
    let alloc = rt.alloc();
    for &[json, plain, marked] in &CASES {
        let came = nodes_as_text(&rt, alloc, json);
        assert_eq!(&rt; came.as_str(), plain, "of {json}");
        let came = marked_as_text(&rt, alloc, json, Limits::of_strangers());
        assert_eq!(&rt; came.as_str(), marked, "of {json} with marks");
    }
}

/// Refusals, with marks or without.
static REFUSED: [(&str, &str); 6] = [
    (
        r#"[{"text": {"value": "a", "text-case": "titel"}}]"#,
        r#"/0/text/text-case unknown-name: no value here has this name: "titel" (the nearest is "title")"#,
    ),
    (
        r#"[{"number": {"variable": "volume", "text-case": 1}}]"#,
        "/0/number/text-case wrong-type: a text goes here",
    ),
    (
        r#"[{"text": {"variable": "URL", "text-case": "no case"}}]"#,
        r#"/0/text/text-case unknown-name: no value here has this name: "no case""#,
    ),
    (
        r#"[{"group": {"text-case": "title"}}]"#,
        r#"/0/group unknown-member: no member here has this name: "text-case""#,
    ),
    // a character that may be a mark, written out and escaped
    (
        "[{\"text\": {\"value\": \"a\", \"prefix\": \"\u{fdd0}\"}}]",
        "/0/text/prefix reserved-character: a character from U+FDD0 to U+FDEF, which are for a program's own use",
    ),
    (
        r#"[{"text": {"value": "a\ufdef"}}]"#,
        "/0/text/value reserved-character: a character from U+FDD0 to U+FDEF, which are for a program's own use",
    ),
];

#[test]
fn refused_cases(rt: HostRuntime) {
    let alloc = rt.alloc();
    for &(json, wanted) in &REFUSED {
        let came = nodes_as_text(&rt, alloc, json);
        assert_eq!(&rt; came.as_str(), wanted, "of {json}");
        let came = marked_as_text(&rt, alloc, json, Limits::none());
        let inside = came.as_str().strip_prefix("/citation/children");
        assert_eq!(&rt; inside, Some(wanted), "of {json} with marks");
    }
}

/// The characters beside those of marks are as any other.
#[test]
fn neighbours_of_marks(rt: HostRuntime) {
    let json = r#"[{"text": {"value": "\ufdcf\ufdf0"}}]"#;
    let came = nodes_as_text(&rt, rt.alloc(), json);
    assert!(&rt; came.as_str().starts_with("[(text value="));
}

/// A mark is beside the text of an affix, which may be as long as without it.
#[test]
fn marks_count_for_no_limit(rt: HostRuntime) {
    let json = r#"[{"text": {"value": "a", "prefix": "abc", "text-case": "title"}}]"#;
    let came = marked_as_text(&rt, rt.alloc(), json, Limits { text: 5 });
    let wanted = r#"[(text value="a" prefix="abc\u{fdd8}" suffix="\u{fdd9}")]"#;
    assert_eq!(&rt; came.as_str(), wanted);
}
