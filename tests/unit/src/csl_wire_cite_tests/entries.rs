//! The types, the language and the key of a work.

use crate::csl_wire_cite_tests::reading::read_entry;
use csl_elements::{Kind, NameVariable, StandardVariable};
use csl_entry::EntryLike;
use lit_model::LongShortForm;

#[test]
fn types_of_a_work(rt: HostRuntime) {
    let text = r#"{"type": ["book", "article-journal"]}"#;
    let entry = read_entry(&rt, rt.alloc(), text).expect(&rt, "an entry");
    assert!(&rt; entry.matches_entry_type(Kind::Book));
    assert!(&rt; entry.matches_entry_type(Kind::ArticleJournal));
    assert!(&rt; !entry.matches_entry_type(Kind::Chapter));
}

#[test]
fn key_and_language(rt: HostRuntime) {
    for (text, key, english) in [
        (r#"{"key": "kwan", "english": true}"#, "kwan", Some(true)),
        (r#"{"english": false}"#, "", Some(false)),
        // the variable does not say it
        (
            r#"{"key": "", "variables": {"language": "en-US"}}"#,
            "",
            None,
        ),
    ] {
        let entry = read_entry(&rt, rt.alloc(), text).expect(&rt, "an entry");
        assert_eq!(&rt; entry.key().as_ref(), key, "of {text}");
        assert_eq!(&rt; entry.is_english(), english, "of {text}");
        drop(entry);
    }
}

/// A work without members answers nothing.
#[test]
fn empty_work(rt: HostRuntime) {
    let entry = read_entry(&rt, rt.alloc(), "{}").expect(&rt, "an entry");
    let long = LongShortForm::Long;
    let title = StandardVariable::Title;
    assert!(&rt;
        entry
            .resolve_standard_variable(rt.alloc(), long, title)
            .expect(&rt, "memory")
            .is_none()
    );
    let has_author = entry.has_persons(rt.alloc(), NameVariable::Author);
    assert!(&rt; !has_author.expect(&rt, "memory"));
    assert!(&rt; !entry.matches_entry_type(Kind::Book));
}

/// What tests and dry runs ask is the same.
#[test]
fn lent_answers(rt: HostRuntime) {
    let text = r#"{"variables": {"title": "Moss", "page": "7", "author": [{"family": "Kwan"}]}}"#;
    let entry = read_entry(&rt, rt.alloc(), text).expect(&rt, "an entry");
    let title = StandardVariable::Title;
    let lent = entry.lend_text(rt.alloc(), LongShortForm::Short, title);
    assert!(&rt; !lent.expect(&rt, "memory").expect(&rt, "a title").is_empty());
    let pages = entry.lend_pages(rt.alloc(), csl_elements::PageVariable::Page);
    assert!(&rt; pages.expect(&rt, "memory").is_some());
    let has_author = entry.has_persons(rt.alloc(), NameVariable::Author);
    assert!(&rt; has_author.expect(&rt, "memory"));
}
