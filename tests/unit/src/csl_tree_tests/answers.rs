//! What trees, elements and children answer, and their copies.

use crate::assertions::{assert_of, assert_same};
use crate::csl_tree_tests::trees::{MIXED, read, read_formatted};
use crate::shared::alone;
use csl_elements::NameVariable;
use csl_tree::{BufWriteFormat, ElemChild, ElemMeta, leaf_text_of_html};
use lit_model::Person;
use std::alloc::Global;
use std::process::Abort;
use std::test::Fail;

/// Whether it is empty, whether it has content, and the length of its text.
type Answers = (bool, bool, usize);

/// A child alone in its tree, and what both and the element in it answer.
static ANSWERS: [(&str, Answers); 6] = [
    (MIXED, (false, true, 5)),
    ("( ~\u{3000}\n )", (false, false, 5)),
    ("( _ )block", (true, false, 0)),
    ("( _ ):entry", (true, false, 0)),
    // A link is content, whatever its text.
    ("@_|https://x.y/", (true, true, 0)),
    ("@~|https://x.y/", (false, true, 1)),
];

#[test]
fn white_space_is_no_content(rt: HostRuntime) -> Result<(), Fail> {
    for (source, wanted) in &ANSWERS {
        let tree = read(&rt, rt.alloc(), *source)?;
        let child = tree.0.first().expect(&rt, "a child");
        let answers = (tree.is_empty(), tree.has_content(), tree.str_len());
        assert_of(&rt, &answers, wanted, *source);
        let answers = (child.is_empty(), child.has_content(), child.str_len());
        assert_of(&rt, &answers, wanted, *source);
        if let ElemChild::Elem(elem) = child {
            let answers = (elem.is_empty(), elem.has_content(), elem.str_len());
            assert_of(&rt, &answers, wanted, *source);
        }
    }
    Ok(())
}

/// A tree, and whether it has children, has text, and ends in white space.
static ENDS: [(&str, (bool, bool, bool)); 6] = [
    ("", (false, false, false)),
    ("( )", (true, false, false)),
    ("#1", (true, false, false)),
    ("a\u{a0}", (true, true, true)),
    ("@a~|u", (true, true, true)),
    ("( a~ ) ( _ ) #1", (true, true, true)),
];

#[test]
fn the_last_character_may_be_white_space(rt: HostRuntime) -> Result<(), Fail> {
    for (source, wanted) in &ENDS {
        let tree = read(&rt, rt.alloc(), *source)?;
        let ends = (
            tree.has_children(),
            tree.has_text(),
            tree.ends_in_white_space(),
        );
        assert_of(&rt, &ends, wanted, *source);
    }
    Ok(())
}

#[test]
fn copies_are_equal(rt: HostRuntime) -> Result<(), Fail> {
    let alloc = rt.alloc();
    for source in [MIXED, "/é", "( _ ( _ ) a ):Knuth"] {
        let tree = read(&rt, alloc, source)?;
        assert!(rt; tree.clone(alloc)? == tree, "of {source}");
        for child in &tree.0 {
            assert!(rt; child.clone(alloc)? == *child, "of {source}");
            if let ElemChild::Elem(elem) = child {
                assert!(rt; elem.clone(alloc)? == *elem, "of {source}");
            }
        }
    }
    let text = read_formatted(alloc, "/é")?;
    assert!(rt; text.clone(alloc)? == text, "a text");
    let child = ElemChild::from(text);
    assert!(rt;
        child == ElemChild::Text(read_formatted(alloc, "/é")?),
        "a child of it"
    );
    let editors = (
        alone(&rt, alloc, Person::institution(alloc, "Knuth")?),
        NameVariable::Editor,
    );
    for (row, meta) in [
        ElemMeta::Label,
        ElemMeta::Text,
        ElemMeta::Name(NameVariable::Translator, 3),
        ElemMeta::Names(alone(&rt, alloc, editors)),
    ]
    .iter()
    .enumerate()
    {
        assert!(rt; meta.clone(alloc)? == *meta, "in row {row}");
    }
    Ok(())
}

/// Ten thousand start tags, a text, and `ends` end tags.
fn deep_html(alloc: Global, ends: usize) -> Result<String, Fail> {
    let mut html = "<div>".repeat(alloc, 10_000)?;
    html.push_str("x")?;
    html.push_str("</div>".repeat(alloc, ends)?.as_str())?;
    Ok(html)
}

/// Asserts the leaf text of HTML, or that it is none.
fn assert_leaves(rt: &impl Abort, alloc: Global, html: &str, wanted: Option<&str>) {
    let leaves = leaf_text_of_html(alloc, html).ok();
    assert_same(rt, &leaves.as_ref().map(|text| text.as_str()), &wanted);
}

#[test]
fn ten_thousand_elements_are_read(rt: HostRuntime) -> Result<(), Fail> {
    for (ends, wanted) in [(9_999, None), (10_000, Some("x")), (10_001, None)] {
        let html = deep_html(rt.alloc(), ends)?;
        assert_leaves(&rt, rt.alloc(), html.as_str(), wanted);
    }
    Ok(())
}

#[test]
fn the_default_format_is_plain(rt: HostRuntime) {
    assert_same(&rt, &BufWriteFormat::default(), &BufWriteFormat::Plain);
}
