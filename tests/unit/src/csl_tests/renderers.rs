//! Renderers of a request, with a limit.

use crate::assertions::{assert_of, assert_text};
use crate::shared::{alone, put};
use crate::wire::json;
use csl::literature::{Entry, EntryType, Person};
use csl::{
    CiteProperties, DisambiguateState, Error, Rendered, Renderer, Scope, Sorting, SpecialForm,
    Style,
};
use csl_wire::{Limits, style_of};
use std::alloc::Global;
use std::process::Abort;
use std::test::Fail;

fn style(rt: &impl Abort, alloc: Global, text: &str) -> Style {
    style_of(alloc, &json(rt, alloc, text), Limits::none()).expect(rt, "a style")
}

fn first() -> CiteProperties<'static> {
    CiteProperties::first(DisambiguateState::None)
}

/// Whether a call succeeded, or the limit refused it.
fn is_written<R: Drop>(rt: &impl Abort, answer: Result<R, Error>) -> bool {
    match answer {
        Ok(_) => true,
        Err(Error::Limit) => false,
        Err(_) => panic!(rt; "another error"),
    }
}

/// A style whose cites are titles, and whose lines are titles with a period.
const TITLES: &str = r#"
{
  "citation": {"children": [{"text": {"variable": "title"}}]},
  "bibliography": {"children": [{"text": {"variable": "title", "suffix": "."}}]}
}
"#;

/// The cite takes 64 bytes for its element, and 74 for its title of 10 bytes.
const CITE: u64 = 64 + 74;

/// The line takes 65 bytes more for its period.
const LINE: u64 = CITE + 65;

/// A limit; whether a cite, a line, a sort key and a cite in a form can be written under it, one
/// after the other; and the bytes that are left.
static LIMITS: [(u64, (bool, bool, bool, bool), u64); 8] = [
    (0, (false, false, false, false), 0),
    (CITE - 1, (false, false, false, false), 0),
    (CITE, (true, false, false, false), 0),
    (CITE + LINE - 1, (true, false, false, false), 0),
    (CITE + LINE, (true, true, false, false), 0),
    (2 * CITE + LINE, (true, true, true, false), 0),
    (3 * CITE + LINE - 1, (true, true, true, false), 0),
    (3 * CITE + LINE + 1, (true, true, true, true), 1),
];

#[test]
fn a_limit_is_one_for_all_calls(rt: HostRuntime) -> Result<(), Fail> {
    let (alloc, form, sorting) = (rt.alloc(), SpecialForm::SuppressAuthor, Sorting::Variable);
    let style = style(&rt, alloc, TITLES);
    let entry = Entry::titled(alloc, "aeon", EntryType::Periodical, "Aeon & <b>")?;
    let (layout, scope) = (style.citation(), Scope::Citation);
    for &(limit, wanted, left) in &LIMITS {
        // The last limit that is set counts.
        let mut renderer = Renderer::new(&style).limited(10).limited(limit);
        let cite = is_written(&rt, renderer.cite(alloc, &entry, &first()));
        let line = is_written(&rt, renderer.bibliography_entry(alloc, &entry, &first()));
        let key = renderer.sort_key(alloc, &entry, &first(), layout, scope, sorting);
        let key = is_written(&rt, key);
        let part = is_written(&rt, renderer.cite_in(alloc, &entry, &first(), form));
        assert_of(&rt, &(cite, line, key, part), &wanted, limit);
        assert_of(&rt, &renderer.room(), &left, limit);
    }
    Ok(())
}

/// A style of authors and titles. Semicolons are between the authors of a cite, slashes between those of
/// the bibliography.
const AUTHORS: &str = r#"
{
  "citation": {"name-delimiter": "; ", "children": [
    {"group": {"delimiter": ", ", "children": [
      {"names": {"variable": ["author"]}}, {"text": {"variable": "title"}}]}}]},
  "bibliography": {"name-delimiter": "/", "children": [
    {"group": {"delimiter": ", ", "children": [
      {"names": {"variable": ["author"]}}, {"text": {"variable": "title"}}]}}]}
}
"#;

/// Asserts the plain text of a rendering.
fn assert_rendered(
    rt: &impl Abort,
    alloc: Global,
    rendered: Rendered,
    wanted: &str,
) -> Result<(), Fail> {
    let text = format!(in alloc; "{}", rendered.content)?;
    assert_text(rt, Some(text.as_str()), Some(wanted));
    Ok(())
}

#[test]
fn a_renderer_keeps_scope_form_and_text(rt: HostRuntime) -> Result<(), Fail> {
    let alloc = rt.alloc();
    let style = style(&rt, alloc, AUTHORS);
    let mut authors = alone(&rt, alloc, Person::new(alloc, "Q&A", "Ann")?);
    put(&rt, &mut authors, Person::new(alloc, "Roe", "Bea")?);
    let book = Entry::titled(alloc, "q", EntryType::Book, "Answers")?.with_authors(authors);
    let mut renderer = Renderer::new(&style).limited(100_000);
    let cite = renderer.cite(alloc, &book, &first()).expect(&rt, "room");
    assert_rendered(&rt, alloc, cite, "Ann Q&A; Bea Roe, Answers")?;
    let part = renderer.cite_in(alloc, &book, &first(), SpecialForm::SuppressAuthor);
    assert_rendered(&rt, alloc, part.expect(&rt, "room"), "Answers")?;
    let line = renderer.bibliography_entry(alloc, &book, &first());
    let line = line.expect(&rt, "room").expect(&rt, "a bibliography");
    assert_rendered(&rt, alloc, line, "Ann Q&A/Bea Roe, Answers")?;
    let (layout, scope) = (style.citation(), Scope::Citation);
    let key = renderer.sort_key(alloc, &book, &first(), layout, scope, Sorting::Macro);
    let key = key.expect(&rt, "room");
    assert_text(&rt, Some(key.as_str()), Some("Q&A, Ann; Roe, Bea, Answers"));
    Ok(())
}
