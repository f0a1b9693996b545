//! What nodes of a style take of a context's limit: each text its bytes, each leaf and element 64
//! more, each number 24 before its text is made, the persons of an element their texts.

use crate::assertions::{assert_of, assert_same, assert_text};
use crate::shared::{alone, assert_cases};
use crate::wire::json;
use csl::literature::{EntryType, MaybeTyped, Numeric, PageRanges, Person};
use csl::render::render_within;
use csl::{
    CiteProperties, Context, DisambiguateState, Entry, InstanceContext, RenderCsl, RenderError,
    Scope, Style,
};
use csl_wire::{Limits, style_of};
use std::alloc::Global;
use std::process::Abort;
use std::test::Fail;

/// The second and third editions of a book by Kevin Kwan: two ranges of pages, and volume n4a.
fn book(rt: &impl Abort, alloc: Global) -> Result<Entry, Fail> {
    let mut book = Entry::titled(alloc, "kwan", EntryType::Book, "Rich")?;
    book.edition = Some(MaybeTyped::Typed(Numeric::parse(alloc, "2, 3")?));
    book.volume = Some(MaybeTyped::Typed(Numeric::parse(alloc, "n4a")?));
    book.issue = Some(MaybeTyped::String(String::from_str(alloc, "May")?));
    book.page_range = Some(MaybeTyped::Typed(PageRanges::parse(alloc, "1-2, 5-6")?));
    book.authors = Some(alone(rt, alloc, Person::new(alloc, "Kwan", "Kevin")?));
    Ok(book)
}

/// A style whose cite is one node, which is given as JSON.
fn style_of_node(rt: &impl Abort, alloc: Global, node: &str) -> Style {
    let text = format!(in alloc; "{{\"citation\": {{\"children\": [{node}]}}}}");
    let value = json(rt, alloc, text.expect(rt, "memory").as_str());
    style_of(alloc, &value, Limits::none()).expect(rt, "a style")
}

/// A first cite of the book.
fn cite_of<'s>(entry: &'s Entry, cite_props: &'s CiteProperties<'s>) -> InstanceContext<'s, Entry> {
    InstanceContext {
        entry,
        cite_props,
        sorting: None,
        kind: None,
    }
}

/// Whether a cite is rendered under a limit, and what is left of it.
fn rendered_under(
    rt: &impl Abort,
    alloc: Global,
    style: &Style,
    book: &Entry,
    limit: u64,
) -> (Option<RenderError>, u64) {
    let first = CiteProperties::first(DisambiguateState::None);
    let cite = cite_of(book, &first);
    let mut ctx = Context::new(alloc, style, cite, Scope::Citation).expect(rt, "memory");
    ctx.limit(limit);
    let error = style.citation().render(&mut ctx).err();
    (error, ctx.room())
}

/// Nodes, and the bytes that each takes.
const TAKEN: &str = r#"
# an element, two numbers, and a leaf of "2, 3": 64 + 2 * 24 + 64 + 4
{"number": {"variable": "edition"}} => 180
{"text": {"variable": "edition"}} => 180
# a number, "n", "a", and a leaf of "n4a": 64 + 24 + 1 + 1 + 64 + 3
{"number": {"variable": "volume"}} => 157
# a text in place of a number: 64 + 3 + 64 + 3
{"text": {"variable": "issue"}} => 134
# four pages and a comma, and four digits, two en dashes and ", ": 64 + 5 * 24 + 64 + 4 + 2 * 3 + 2
{"number": {"variable": "page"}} => 260
{"text": {"variable": "page"}} => 260
# the value, and "ab": 64 + 4 + 64 + 2
{"text": {"value": "a.b.", "strip-periods": true}} => 134
# an element of the name, "Kevin Kwan", and a person of 9 bytes: 64 + 64 + 64 + 10 + 9
{"names": {"variable": ["author"]}} => 211
# "K. Kwan", and five times the text after an initial: 64 + 64 + 64 + 7 + 9 + 5
{"names": {"variable": ["author"], "initialize-with": "."}} => 213
"#;

/// Each smaller limit refuses the node, at one push or another, and nothing is left then.
#[test]
fn nodes_take_bytes_before_they_are_made(rt: HostRuntime) -> Result<(), Fail> {
    let alloc = rt.alloc();
    let book = book(&rt, alloc)?;
    let answer = |node: &str| {
        let style = style_of_node(&rt, alloc, node);
        let mut limit = 0;
        let mut found = rendered_under(&rt, alloc, &style, &book, limit);
        while found != (None, 0) {
            assert_of(&rt, &found, &(Some(RenderError::Memory), 0), limit);
            limit += 1;
            found = rendered_under(&rt, alloc, &style, &book, limit);
        }
        for more in [1, 1000] {
            let found = rendered_under(&rt, alloc, &style, &book, limit + more);
            assert_of(&rt, &found, &(None, more), node);
        }
        format!(in alloc; "{limit}").expect(&rt, "memory")
    };
    assert_cases(&rt, alloc, TAKEN, &answer);
    Ok(())
}

#[test]
fn a_rendering_leaves_the_rest_of_its_room(rt: HostRuntime) -> Result<(), Fail> {
    let alloc = rt.alloc();
    let style = style_of_node(&rt, alloc, r#"{"text": {"variable": "title"}}"#);
    let (book, first) = (
        book(&rt, alloc)?,
        CiteProperties::first(DisambiguateState::None),
    );
    let (layout, scope) = (style.citation(), Scope::Citation);
    // An element; a leaf of "Rich".
    let taken = 64 + 64 + 4;
    let mut room = taken + 1;
    let rendered = render_within(
        alloc,
        &style,
        layout,
        cite_of(&book, &first),
        scope,
        &mut room,
    )?;
    let text = format!(in alloc; "{}", rendered.content)?;
    assert_text(&rt, Some(text.as_str()), Some("Rich"));
    assert_same(&rt, &room, &1);
    room = taken - 1;
    let refused = render_within(
        alloc,
        &style,
        layout,
        cite_of(&book, &first),
        scope,
        &mut room,
    );
    assert_same(&rt, &refused.err(), &Some(RenderError::Memory));
    assert_same(&rt, &room, &0);
    Ok(())
}
