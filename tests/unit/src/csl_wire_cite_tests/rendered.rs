//! The work and the cite of docs/WIRE.md, in the style of that page.

use crate::csl_wire_cite_tests::reading::read_entry;
use crate::shared::assert_cases;
use crate::wire::json;
use csl::{
    BufWriteFormat, CiteProperties, DisambiguateState, Style, bibliography_entry, cite, cite_in,
};
use csl_wire::{Limits, style_of};
use csl_wire_cite::{WireEntry, WorkLimits, cite_of};
use std::alloc::Global;
use std::process::Abort;

const STYLE: &str = r#"
{
  "and": "text",
  "macros": [
    {"name": "year", "children": [
      {"choose": {
        "if": {"variable": ["issued"], "children": [
          {"date": {"variable": "issued", "date-part": [{"name": "year"}]}}]},
        "else": [{"text": {"term": "no date", "form": "short"}}]}}]},
    {"name": "author", "children": [
      {"names": {"variable": ["author"], "children": [
        {"name": {"form": "short"}},
        {"substitute": [{"text": {"variable": "title", "form": "short", "quotes": true}}]}]}}]}
  ],
  "citation": {"children": [
    {"group": {"delimiter": ", ", "prefix": "(", "suffix": ")", "children": [
      {"text": {"macro": "author"}},
      {"text": {"macro": "year"}}]}}]},
  "bibliography": {"name-form": "long", "children": [
    {"names": {"variable": ["author"], "suffix": ". ", "children": [
      {"name": {"name-as-sort-order": "first", "sort-separator": ", "}}]}},
    {"text": {"variable": "title", "font-style": "italic", "suffix": "."}}]},
  "locales": ["en-US"]
}
"#;

const WORK: &str = r#"
{
  "type": ["article-journal"],
  "key": "kwan",
  "english": true,
  "variables": {
    "title": {"long": "Crazy rich moss: a survey", "short": "Crazy rich moss"},
    "container-title": ["Notes on ", {"verbatim": "pH"}, " and ", {"math": "x^2"}],
    "author": [{"family": "Kwan", "given": "Kevin"}],
    "issued": {"year": 2014, "month": 5, "day": 2},
    "volume": 9,
    "issue": "3-4",
    "page": "321-328",
    "DOI": "10.5555/slow.2014.321"
  }
}
"#;

/// Cites of the work, and their texts.
const CITES: &str = r#"
{"position": "ibid-with-locator", "near-note": true, "citation-number": 3,
  "first-reference-note-number": 6, "locator": {"label": "page", "value": "7"}, "year-suffix": "a"}
  => (Kwan, 2014a)
{} => (Kwan, 2014)
{"only": "author"} => (Kwan)
{"form": "no-author"} => (2014)
"#;

/// The plain text of a cite of an entry.
fn cite_text(
    rt: &impl Abort,
    alloc: Global,
    style: &Style,
    entry: &WireEntry,
    text: &str,
) -> String {
    let value = json(rt, alloc, text);
    let asked = cite_of(alloc, &value, WorkLimits::of_strangers()).expect(rt, "a cite");
    let rendered = match asked.form {
        Some(form) => cite_in(alloc, style, entry, &asked.properties, form),
        None => cite(alloc, style, entry, &asked.properties),
    };
    let content = rendered.expect(rt, "memory").content;
    let text = content.to_text(alloc, BufWriteFormat::Plain);
    text.expect(rt, "memory")
}

#[test]
fn work_of_the_page(rt: HostRuntime) {
    let alloc = rt.alloc();
    let style = style_of(alloc, &json(&rt, alloc, STYLE), Limits::of_strangers());
    let style = style.expect(&rt, "a style");
    let entry = read_entry(&rt, alloc, WORK).expect(&rt, "a work");
    let answer = |text: &str| cite_text(&rt, alloc, &style, &entry, text);
    assert_cases(&rt, alloc, CITES, &answer);
    let first = CiteProperties::first(DisambiguateState::None);
    let line = bibliography_entry(alloc, &style, &entry, &first).expect(&rt, "memory");
    let content = line.expect(&rt, "a line").content;
    let html = content.to_text(alloc, BufWriteFormat::Html);
    let wanted =
        r#"Kwan, Kevin. <span style="font-style: italic;">Crazy rich moss: a survey.</span>"#;
    assert_eq!(&rt; html.expect(&rt, "memory").as_str(), wanted);
}
