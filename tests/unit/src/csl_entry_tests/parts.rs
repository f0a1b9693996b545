//! A snapshot of answers that a program has.

use crate::assertions::assert_of;
use csl_elements::{Kind, NameVariable, StandardVariable};
use csl_entry::{EntryLike, Snapshot};
use lit_model::{ChunkedString, LongShortForm, Person};
use std::alloc::Global;
use std::process::Abort;

fn text(rt: &impl Abort, alloc: Global, text: &str) -> ChunkedString {
    ChunkedString::plain(alloc, text).expect(rt, "memory")
}

/// A book with two long titles, a short one, and nobody as its editor.
fn book(rt: &impl Abort, alloc: Global) -> Snapshot {
    let title = StandardVariable::Title;
    let mut long = Vec::new(alloc);
    for of in ["The Signal-Man", "No. 1 Branch Line"] {
        long.push((title, text(rt, alloc, of))).expect(rt, "memory");
    }
    let short = vec![in alloc; (title, text(rt, alloc, "Signal-Man"))].expect(rt, "memory");
    let nobody: Vec<Person> = Vec::new(alloc);
    Snapshot::of_parts(
        Vec::new(alloc),
        Vec::new(alloc),
        long,
        short,
        vec![in alloc; (NameVariable::Editor, nobody)].expect(rt, "memory"),
        Vec::new(alloc),
        vec![in alloc; Kind::Book].expect(rt, "memory"),
    )
}

#[test]
fn the_first_answer_counts_in_each_form(rt: HostRuntime) {
    let book = book(&rt, rt.alloc());
    for (form, wanted) in [
        (LongShortForm::Long, "The Signal-Man"),
        (LongShortForm::Short, "Signal-Man"),
    ] {
        let found = book
            .resolve_standard_variable(rt.alloc(), form, StandardVariable::Title)
            .expect(&rt, "memory")
            .map(|text| text.to_text(rt.alloc()).expect(&rt, "memory"));
        assert_of(&rt, &found.as_deref(), &Some(wanted), &form);
    }
}

#[test]
fn nobody_is_no_answer(rt: HostRuntime) {
    let book = book(&rt, rt.alloc());
    let has = book
        .has_persons(rt.alloc(), NameVariable::Editor)
        .expect(&rt, "memory");
    assert_of(&rt, &has, &false, &"an empty list");
    for (kind, wanted) in [(Kind::Book, true), (Kind::Chapter, false)] {
        assert_of(&rt, &book.matches_entry_type(kind), &wanted, &kind);
    }
}
