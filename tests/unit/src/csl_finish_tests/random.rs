//! Random trees. Finishing leaves letters and digits in their texts, and all else as it was. Text
//! case changes nothing but case.

use crate::csl_finish_tests::case::marked;
use crate::csl_finish_tests::finish::style_of;
use crate::csl_finish_tests::trees::{describe, read};
use crate::shared::Numbers;
use csl_finish::{apply_text_case, finish, fold, is_case_mark, without_case_marks};
use csl_languages::Language;
use std::alloc::Global;
use std::process::Abort;

/// Pieces of trees (`trees.rs`).
const PIECES: &str = "a|Moss.|.|..| . |“|”|‘a|b’ |’|, |;|: |?|!| |...|«|» |@x..|$y,,|#|/b.|1|\
    “Why?”|((|. . .|É e\u{301}|/ ,|@” .|„|‚‘";

/// Pieces of trees with marks of cases (`case.rs`).
const CASED: &str = "{t|t}|{s|s}|{f|f}|{a|a}|{u|u}|{l|l}|{n|n}|moss of| the Old|: a|ΟΔΟ|Σ|\
    straße |/É|@X|$Y|#|ǆ ﬁ|İ'i|/{tnode.js|\u{fddf}-";

/// A description of sixteen pieces, with elements around some of them.
fn description(rt: &impl Abort, alloc: Global, numbers: &mut Numbers, pieces: &str) -> String {
    let count = pieces.split('|').count() as u64;
    let mut text = String::from_str(alloc, "a").expect(rt, "memory");
    let mut depth = 0;
    for _ in 0..16 {
        let piece = match numbers.below(8) {
            0 => {
                depth += 1;
                "["
            }
            1 if depth > 0 => {
                depth -= 1;
                "]"
            }
            _ => {
                let index = numbers.below(count) as usize;
                pieces.split('|').nth(index).expect(rt, "a piece")
            }
        };
        text.push('|').expect(rt, "memory");
        text.push_str(piece).expect(rt, "memory");
    }
    for _ in 0..depth {
        text.push_str("|]").expect(rt, "memory");
    }
    text
}

/// What has to stay of a piece: all of a link, a markup, a place and an end of an element, and the
/// letters and digits of a text.
fn kept(rt: &impl Abort, alloc: Global, piece: &str) -> String {
    let mut kept = String::new(alloc);
    let is_text = !matches!(piece.chars().next(), Some('@' | '$' | '#' | '[' | ']'));
    for letter in piece.chars() {
        if !is_text || letter.is_alphanumeric() || letter == '/' {
            kept.push(letter).expect(rt, "memory");
        }
    }
    kept
}

/// Asserts that what has to stay of a tree stays.
fn assert_kept(rt: &impl Abort, alloc: Global, language: Language, source: &str) {
    let style = style_of(rt, alloc, language);
    let mut tree = read(rt, alloc, source);
    let before = describe(rt, alloc, &tree);
    finish(alloc, &style, &mut tree).expect(rt, "memory");
    let after = describe(rt, alloc, &tree);
    let (mut old, mut new) = (before.split('|'), after.split('|'));
    while let Some(piece) = old.next() {
        let other = new.next().expect(rt, "as many pieces");
        let (wanted, came) = (kept(rt, alloc, piece), kept(rt, alloc, other));
        assert_eq!(rt; came.as_str(), wanted.as_str(), "in {after} of {before}");
    }
    assert!(rt; new.next().is_none(), "{after} of {before}");
}

#[test]
fn letters_and_links_stay(rt: HostRuntime) {
    let mut numbers = Numbers::from(93);
    for language in [
        Language::English,
        Language::BritishEnglish,
        Language::French,
        Language::German,
    ] {
        for _ in 0..50 {
            let source = description(&rt, rt.alloc(), &mut numbers, PIECES);
            assert_kept(&rt, rt.alloc(), language, source.as_str());
        }
    }
}

/// Asserts that a tree in the cases that its marks set has its letters and no mark.
fn assert_cased(rt: &impl Abort, alloc: Global, source: &str, is_english: bool) {
    let mut tree = read(rt, alloc, source);
    let before = describe(rt, alloc, &tree);
    apply_text_case(alloc, &mut tree, is_english).expect(rt, "memory");
    let after = describe(rt, alloc, &tree);
    assert!(rt; !after.as_str().chars().any(is_case_mark), "{after}");
    let wanted = without_case_marks(alloc, before.as_str()).expect(rt, "memory");
    let wanted = fold(alloc, wanted.as_str()).expect(rt, "memory");
    let came = fold(alloc, after.as_str()).expect(rt, "memory");
    assert_eq!(rt; came.as_str(), wanted.as_str(), "in {after} of {before}");
}

#[test]
fn case_alone_changes(rt: HostRuntime) {
    let alloc = rt.alloc();
    let mut numbers = Numbers::from(96);
    for index in 0..400 {
        let source = description(&rt, alloc, &mut numbers, CASED);
        let source = marked(&rt, alloc, source.as_str());
        assert_cased(&rt, alloc, source.as_str(), index % 4 != 0);
    }
}
