//! The style with its options and the document of docs/WIRE.md, rendered.

use crate::shared::put;
use crate::wire::json;
use csl::{BufWriteFormat, ElemChildren};
use csl_list::{BibliographyDriver, ListStyle, ListedWorks, RenderedList};
use csl_wire_cite::{WorkLimits, entry_of};
use csl_wire_list::{DocumentLimits, OptionLimits, document_of, list_style_of};
use std::alloc::Global;
use std::process::Abort;

const STYLE: &str = r#"
{
  "style": {
    "macros": [
      {"name": "author", "children": [
        {"names": {"variable": ["author"], "children": [{"name": {"form": "short"}}]}}]},
      {"name": "year", "children": [
        {"date": {"variable": "issued", "date-part": [{"name": "year"}]}}]}
    ],
    "citation": {"children": [
      {"group": {"delimiter": " ", "children": [
        {"text": {"macro": "author"}},
        {"text": {"macro": "year"}}]}},
      {"text": {"variable": "locator", "prefix": ": "}}]},
    "bibliography": {"children": [
      {"text": {"macro": "author", "suffix": ". "}},
      {"text": {"macro": "year", "suffix": ". "}},
      {"text": {"variable": "title"}}]},
    "locales": ["en-US"]
  },
  "citation": {
    "layout": {"prefix": "(", "suffix": ")", "delimiter": "; "},
    "collapse": "year",
    "disambiguate-add-year-suffix": true
  },
  "bibliography": {
    "layout": {"suffix": "."},
    "sort": [{"macro": "author"}, {"variable": "issued", "sort": "descending"}],
    "hanging-indent": true
  }
}
"#;

const DOCUMENT: &str = r#"
{
  "citations": [
    {"items": [
      {"work": "moss", "prefix": "see "},
      {"work": "roe"}]},
    {"items": [
      {"work": "moss", "locator": {"label": "page", "value": "7"}, "purpose": "prose"}]},
    {"items": [{"work": "fern", "hidden": true}]}
  ],
  "works": ["doe"]
}
"#;

/// The works by their names.
const WORKS: &str = r#"{
  "doe": {"variables":
    {"title": "Lakes", "author": [{"family": "Doe"}], "issued": {"year": 1999}}},
  "fern": {"variables":
    {"title": "Ferns", "author": [{"family": "Kwan"}], "issued": {"year": 2016}}},
  "moss": {"variables":
    {"title": "Moss", "author": [{"family": "Kwan"}], "issued": {"year": 2014}}},
  "roe": {"variables":
    {"title": "Hills", "author": [{"family": "Roe"}], "issued": {"year": 2010}}}
}"#;

/// The list of the document.
fn list(rt: &impl Abort, alloc: Global, style: &ListStyle) -> RenderedList {
    let (value, all) = (json(rt, alloc, DOCUMENT), json(rt, alloc, WORKS));
    let document = document_of(alloc, &value, DocumentLimits::of_strangers());
    let document = document.expect(rt, "a document");
    let mut works = Vec::new(alloc);
    for named in &document.works {
        let work = all.get(named.name).expect(rt, "a work");
        let entry = entry_of(alloc, work, WorkLimits::of_strangers());
        put(rt, &mut works, entry.expect(rt, "a work"));
    }
    let mut driver = BibliographyDriver::new(alloc);
    for citation in document.citations {
        driver.citation(citation).expect(rt, "memory");
    }
    let list = driver.finish(alloc, style, &works, ListedWorks::All);
    list.expect(rt, "a list")
}

fn assert_plain(rt: &impl Abort, alloc: Global, content: &ElemChildren, wanted: &str) {
    let text = content.to_text(alloc, BufWriteFormat::Plain);
    assert_eq!(rt; text.expect(rt, "memory").as_str(), wanted);
}

#[test]
fn document_of_the_page(rt: HostRuntime) {
    let alloc = rt.alloc();
    let (value, strangers) = (json(&rt, alloc, STYLE), OptionLimits::of_strangers());
    let style = list_style_of(alloc, &value, strangers).expect(&rt, "a style");
    let list = list(&rt, alloc, &style);
    let wanted = ["(see Kwan 2014; Roe 2010)", "Kwan (2014: 7)", ""];
    for (citation, wanted) in list.citations.iter().zip(wanted) {
        assert_plain(&rt, alloc, &citation.content, wanted);
    }
    let bibliography = list.bibliography.as_ref().expect(&rt, "a bibliography");
    assert!(&rt; bibliography.hanging_indent);
    let wanted = [
        "Doe. 1999. Lakes.",
        "Kwan. 2016. Ferns.",
        "Kwan. 2014. Moss.",
        "Roe. 2010. Hills.",
    ];
    assert_eq!(&rt; bibliography.items.len(), wanted.len());
    for (item, wanted) in bibliography.items.iter().zip(wanted) {
        assert_plain(&rt, alloc, &item.content, wanted);
    }
}
