//! Answered numbers: their order, and their copies.

use crate::assertions::assert_of;
use csl_entry::{NumberOrPageVariableResult, NumberVariableResult};
use lit_model::{MaybeTyped, Numeric, PageRanges};
use std::alloc::Global;
use std::borrow::Cow;
use std::cmp::Ordering;
use std::test::Fail;

/// The answer that a text describes: the number that it spells, the text after `'`, or after `@` the
/// index of a text that the caller writes.
fn answer(alloc: Global, text: &str) -> Result<NumberVariableResult<'static>, Fail> {
    if let Some(text) = text.strip_prefix('\'') {
        let text = MaybeTyped::String(String::from_str(alloc, text)?);
        return Ok(NumberVariableResult::from_regular(text));
    }
    if let Some(index) = text.strip_prefix('@') {
        return Ok(NumberVariableResult::Transparent(index.len()));
    }
    let number = Cow::Owned(Numeric::parse(alloc, text)?);
    Ok(NumberVariableResult::from_regular(MaybeTyped::Typed(number)))
}

/// Answers, each of which comes after the one before it. An index is the number of its dots.
static IN_ORDER: [&str; 9] = ["1", "1b", "a1", "b1", "1, 2", "9", "10", "'1", "@.."];

#[test]
fn numbers_come_before_texts_and_prefixes_count_after_them(rt: HostRuntime) -> Result<(), Fail> {
    let alloc = rt.alloc();
    for pair in IN_ORDER.windows(2) {
        let (first, second) = (answer(alloc, pair[0])?, answer(alloc, pair[1])?);
        let orders = (first.csl_cmp(&second), second.csl_cmp(&first));
        assert_of(&rt, &orders, &(Ordering::Less, Ordering::Greater), &pair);
    }
    // Separators do not count for the order.
    let (list, range) = (answer(alloc, "1, 2")?, answer(alloc, "1-2")?);
    assert_of(&rt, &list.csl_cmp(&range), &Ordering::Equal, &"separators");
    Ok(())
}

#[test]
fn copied_answers_are_equal_and_borrow_alike(rt: HostRuntime) -> Result<(), Fail> {
    let alloc = rt.alloc();
    for text in ["a1-2b", "'second", "@..."] {
        let answer = answer(alloc, text)?;
        assert!(rt; answer.clone(alloc)? == answer, "of {text}");
        let either = NumberOrPageVariableResult::Number(answer);
        assert!(rt; either.clone(alloc)? == either, "of {text}");
    }
    let pages = MaybeTyped::Typed(PageRanges::parse(alloc, "7")?);
    let pages = NumberOrPageVariableResult::Page(pages);
    assert!(rt; pages.clone(alloc)? == pages, "of pages");
    let seven = Numeric::new(7);
    let lent = NumberVariableResult::from_regular(MaybeTyped::Typed(Cow::Borrowed(&seven)));
    assert!(rt; lent == answer(alloc, "7")?, "of a borrowed number");
    let copy = lent.clone(alloc)?;
    let borrows = matches!(
        &copy,
        NumberVariableResult::Regular(MaybeTyped::Typed(Cow::Borrowed(_)))
    );
    assert!(rt; borrows && copy == lent, "of a borrowed number");
    Ok(())
}
