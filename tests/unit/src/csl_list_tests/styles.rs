//! Styles with their options: of authors and years, and of notes.

use crate::shared::{put, string};
use crate::wire::json;
use csl::Style;
use csl::style::{DateVariable, StandardVariable, Variable};
use csl_list::{BibliographyOptions, CitationOptions, ListStyle, SortKey};
use csl_wire::{Limits, style_of};
use std::alloc::Global;
use std::process::Abort;

/// `Doe, 2014a, 3` in a cite, `Doe, Jane. 2014a. Seas` in the bibliography.
const AUTHORS: &str = r#"
{
  "macros": [
    {"name": "author", "children": [
      {"names": {"variable": ["author"], "children": [
        {"name": {"and": "text", "name-as-sort-order": "all"}}]}}]},
    {"name": "year", "children": [
      {"date": {"variable": "issued", "date-part": [{"name": "year"}]}},
      {"text": {"variable": "year-suffix"}}]}
  ],
  "citation": {"children": [
    {"group": {"delimiter": ", ", "children": [
      {"names": {"variable": ["author"], "children": [{"name": {"and": "text", "form": "short"}}]}},
      {"text": {"macro": "year"}},
      {"text": {"variable": "locator"}}]}}]},
  "bibliography": {"children": [
    {"group": {"delimiter": ". ", "children": [
      {"text": {"macro": "author"}},
      {"text": {"macro": "year"}},
      {"text": {"variable": "title"}}]}}]},
  "locales": ["en-US"]
}
"#;

/// `ibid.`, `ibid. at` a place, `near`, `later` with the first note's number, or the title.
const NOTES: &str = r#"
{
  "citation": {"children": [
    {"choose": {
      "if": {"position": ["ibid-with-locator"], "children": [
        {"group": {"delimiter": " ", "children": [
          {"text": {"value": "ibid. at"}},
          {"text": {"variable": "locator"}}]}}]},
      "else-if": [
        {"position": ["ibid"], "children": [{"text": {"value": "ibid."}}]},
        {"position": ["near-note"], "children": [{"text": {"value": "near"}}]},
        {"position": ["subsequent"], "children": [
          {"group": {"delimiter": " ", "children": [
            {"text": {"value": "later"}},
            {"text": {"variable": "first-reference-note-number"}}]}}]}],
      "else": [{"text": {"variable": "title"}}]}}]}
}
"#;

fn style(rt: &impl Abort, alloc: Global, text: &str) -> Style {
    style_of(alloc, &json(rt, alloc, text), Limits::none()).expect(rt, "a style")
}

/// A style of authors and years.
pub(crate) fn of_authors(rt: &impl Abort, alloc: Global) -> Style {
    style(rt, alloc, AUTHORS)
}

/// A style of notes.
pub(crate) fn of_notes(rt: &impl Abort, alloc: Global) -> Style {
    style(rt, alloc, NOTES)
}

/// A key by the macro `author` (`a`), or by a variable: the year (`y`) or the title (`t`).
fn key(rt: &impl Abort, alloc: Global, letter: char) -> SortKey {
    match letter {
        'y' => SortKey::by_variable(Variable::Date(DateVariable::Issued)),
        't' => SortKey::by_variable(Variable::Standard(StandardVariable::Title)),
        _ => SortKey::by_macro(string(rt, alloc, "author")),
    }
}

/// Keys by their letters.
fn keys(rt: &impl Abort, alloc: Global, letters: &str) -> Vec<SortKey> {
    let mut keys = Vec::new(alloc);
    for letter in letters.chars() {
        put(rt, &mut keys, key(rt, alloc, letter));
    }
    keys
}

/// Options of a citation in parentheses, sorted by these keys.
pub(crate) fn in_parentheses(rt: &impl Abort, alloc: Global, letters: &str) -> CitationOptions {
    CitationOptions {
        prefix: string(rt, alloc, "("),
        suffix: string(rt, alloc, ")"),
        delimiter: string(rt, alloc, "; "),
        keys: keys(rt, alloc, letters),
        adds_year_suffix: true,
        ..CitationOptions::new(alloc)
    }
}

/// Options of a bibliography with a period after each work, sorted by these keys.
pub(crate) fn with_periods(rt: &impl Abort, alloc: Global, letters: &str) -> BibliographyOptions {
    BibliographyOptions {
        suffix: string(rt, alloc, "."),
        keys: keys(rt, alloc, letters),
        ..BibliographyOptions::new(alloc)
    }
}

/// A style of authors, sorted by these keys.
pub(crate) fn author_list(rt: &impl Abort, alloc: Global, cites: &str, works: &str) -> ListStyle {
    let (citation, bibliography) = (
        in_parentheses(rt, alloc, cites),
        with_periods(rt, alloc, works),
    );
    let style = ListStyle::new(alloc, of_authors(rt, alloc), citation, Some(bibliography));
    style.expect(rt, "a style")
}
