//! Styles that are read: settings, macros, layouts and locales.

use crate::csl_wire_tests::described_nodes::{nodes, options};
use crate::csl_wire_tests::locales::locale;
use crate::csl_wire_tests::reading::read_style;
use crate::described::Description;
use crate::shared::assert_cases;
use csl_elements::{Layout, OtherTerm, TermForm};
use csl_style::Style;
use std::alloc::Global;
use std::process::Abort;

fn layout<R: Abort>(out: &mut Description<'_, R>, name: &str, layout: &Layout) {
    out.push(name);
    out.set("delimiter", layout.delimiter.as_deref());
    out.set("style", layout.formatting.font_style);
    out.set("weight", layout.formatting.font_weight);
    out.push(" ");
    nodes(out, layout.elements.as_slice());
}

/// Appends the parts of a style, but its locales, a line each.
fn style<R: Abort>(out: &mut Description<'_, R>, style: &Style) {
    let settings = style.settings();
    out.push("settings");
    out.set("pages", settings.page_range_format);
    out.value(settings.demote_non_dropping_particle);
    out.flag("with-hyphen", settings.initialize_with_hyphen);
    out.push("; names");
    options(out, &settings.names);
    out.push("; of the citation");
    options(out, &settings.citation_names);
    out.push("; of the bibliography");
    options(out, &settings.bibliography_names);
    for inside in style.macros() {
        out.push("; macro ");
        out.push(inside.name.as_str());
        out.push(" ");
        nodes(out, inside.children.as_slice());
    }
    layout(out, "; citation", style.citation());
    if let Some(inside) = style.bibliography() {
        layout(out, "; bibliography", inside);
    }
}

const STYLES: &str = r#"
{} => settings DisplayAndSort with-hyphen; names; of the citation; of the bibliography; citation []
{"page-range-format": "minimal-two", "demote-non-dropping-particle": "never",
  "initialize-with-hyphen": false, "name-form": "short", "name-delimiter": "; ", "and": "text",
  "et-al-min": 3}
  => settings pages=MinimalTwo Never; names and=Text name-delimiter="; " min=3 name-form=Short; of
  the citation; of the bibliography; citation []
{"page-range-format": "expanded", "demote-non-dropping-particle": "sort-only",
  "initialize-with-hyphen": true}
  => settings pages=Expanded SortOnly with-hyphen; names; of the citation; of the bibliography;
  citation []
{"page-range-format": "minimal", "demote-non-dropping-particle": "display-and-sort", "macros":
  [{"name": "b", "children": [{"text": {"value": "x"}}]}, {"name": "a", "children": [{"text":
  {"macro": "b"}}]}, {"name": ""}]}
  => settings pages=Minimal DisplayAndSort with-hyphen; names; of the citation; of the
  bibliography; macro b [(text value="x")]; macro a [(text macro="b")]; macro  []; citation []
{"citation": {"delimiter": "; ", "font-style": "italic", "et-al-min": 2, "name-form": "count",
  "children": [{"number": {"variable": "citation-number"}}]}, "bibliography": {"font-weight":
  "bold", "and": "symbol", "name-delimiter": ", ", "children": [{"group": {}}]}}
  => settings DisplayAndSort with-hyphen; names; of the citation min=2 name-form=Count; of the
  bibliography and=Symbol name-delimiter=", "; citation delimiter="; " style=Italic [(number
  Number(CitationNumber) Numeric)]; bibliography weight=Bold [(group [])]
# a macro that the style has not is no error, and neither is an empty bibliography
{"citation": {"children": [{"text": {"macro": "a"}}]}, "bibliography": {}, "locales": null}
  => settings DisplayAndSort with-hyphen; names; of the citation; of the bibliography; citation
  [(text macro="a")]; bibliography []
"#;

#[test]
fn settings_macros_and_layouts(rt: HostRuntime) {
    let alloc = rt.alloc();
    let answer = |text: &str| {
        let read = read_style(&rt, alloc, text).expect(&rt, "a style");
        let mut out = Description::new(&rt, alloc);
        style(&mut out, &read);
        out.into_text()
    };
    assert_cases(&rt, alloc, STYLES, &answer);
}

/// The locales of a style, one after another.
fn locales_as_text(rt: &impl Abort, alloc: Global, text: &str) -> String {
    let read = read_style(rt, alloc, text).expect(rt, "a style");
    let mut out = Description::new(rt, alloc);
    for inside in read.locales() {
        locale(&mut out, inside);
        out.push(";");
    }
    out.into_text()
}

/// An option that a locale does not set is that of the locale after it.
const LOCALES: &str = r#"
{"locales": []} =>
{"locales": [{"terms": [{"name": "by", "single": "von"}]}, {"terms": [{"name": "by", "single":
  "by"}]}]}
  => (term Other(By) Long "von"); (term Other(By) Long "by");
{"locales": [{}, {"punctuation-in-quote": true}, {"limit-day-ordinals-to-day-1": true}]}
  => in-quote day-1; in-quote day-1; day-1;
{"locales": [{"punctuation-in-quote": false}, {}, {"punctuation-in-quote": true}]}
  => ; in-quote; in-quote;
{"locales": [{"limit-day-ordinals-to-day-1": true}, {"punctuation-in-quote": null}]} => day-1;;
"#;

#[test]
fn locales_in_their_order(rt: HostRuntime) {
    let alloc = rt.alloc();
    let answer = |text: &str| locales_as_text(&rt, alloc, text);
    assert_cases(&rt, alloc, LOCALES, &answer);
}

/// A tag stands for CSL's own locale, in any letters, with or without a region. What a locale before
/// it leaves out is found there: words, and the option of English as in America.
static TAGS: [(&str, &str, bool); 4] = [
    (r#"{"locales": ["en-US"]}"#, "accessed", true),
    (r#"{"locales": ["EN_us"]}"#, "accessed", true),
    (r#"{"locales": [{}, "en"]}"#, "accessed", true),
    (
        r#"{"locales": [{"terms": [{"name": "accessed", "single": "seen"}]}, "de-DE"]}"#,
        "seen",
        false,
    ),
];

#[test]
fn tags_of_languages(rt: HostRuntime) {
    for (text, word, in_quote) in &TAGS {
        let style = read_style(&rt, rt.alloc(), text).expect(&rt, "a style");
        let term = style.term(OtherTerm::Accessed.into(), TermForm::Long, false);
        assert_eq!(&rt; term, Some(*word), "of {text}");
        let first = style.locales().first().expect(&rt, "a locale");
        assert_eq!(&rt; first.punctuation_in_quote, *in_quote, "of {text}");
    }
}
