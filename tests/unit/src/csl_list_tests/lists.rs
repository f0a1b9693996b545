//! What a list has beside its texts: works, notes, places of locators, keys and numbers. The rows
//! `list*.rows` have the texts.

use crate::assertions::assert_of;
use crate::csl_list_tests::documents::{list, text_of, works};
use crate::csl_list_tests::styles::{author_list, in_parentheses, of_authors, with_periods};
use crate::shared::put;
use csl::tree::{ElemChild, ElemMeta};
use csl::{ElemChildren, NoteNumber};
use csl_list::{BibliographyOptions, ListStyle, ListedWorks};
use std::alloc::Global;
use std::process::Abort;

/// The works of most documents.
static WORKS: [&str; 5] = [
    "Doe, Jane|2014|Seas",
    "Roe, Max|2010|Hills",
    "Doe, Jane|2014|Lakes",
    "Doe, Jane & Roe, Max|2009|Rivers",
    "|1999|Anonymous",
];

/// The works that the elements of a citation name.
fn works_named(rt: &impl Abort, alloc: Global, content: &ElemChildren) -> Vec<usize> {
    let mut works = Vec::new(alloc);
    for child in &content.0 {
        if let ElemChild::Elem(elem) = child {
            if let Some(ElemMeta::Entry(work)) = elem.meta {
                put(rt, &mut works, work);
            }
        }
    }
    works
}

#[test]
fn each_printed_cite_names_its_work(rt: HostRuntime) {
    let alloc = rt.alloc();
    let style = author_list(&rt, alloc, "ay", "");
    let works = works(&rt, alloc, &WORKS);
    let citations = ["4;1|hidden;3|page=2|before=see ;0|author", "2: 1;1"];
    let list = list(&rt, alloc, &style, &works, &citations, ListedWorks::All);
    let list = list.expect(&rt, "a list");
    let first = works_named(&rt, alloc, &list.citations[0].content);
    let second = works_named(&rt, alloc, &list.citations[1].content);
    assert!(&rt; first.as_slice() == [0, 3, 4].as_slice(), "{first:?}");
    assert!(&rt; second.as_slice() == [1, 1].as_slice(), "{second:?}");
    let notes = (list.citations[0].note_number, list.citations[1].note_number);
    assert_of(&rt, &notes, &(None, NoteNumber::new(2)), "notes");
}

/// Adds the cites of which a content has places for locators.
fn add_places(rt: &impl Abort, content: &ElemChildren, places: &mut Vec<usize>) {
    for child in &content.0 {
        match child {
            ElemChild::Elem(elem) => add_places(rt, &elem.children, places),
            ElemChild::Transparent { cite_idx, .. } => put(rt, places, *cite_idx),
            _ => {}
        }
    }
}

#[test]
fn a_locator_of_the_caller_keeps_its_place(rt: HostRuntime) {
    let alloc = rt.alloc();
    let style = author_list(&rt, alloc, "ay", "");
    let works = works(&rt, alloc, &WORKS);
    // the cites are printed as Doe, Roe and the anonymous work
    let citations = ["4|caller;1|page=2;0|caller"];
    let list = list(&rt, alloc, &style, &works, &citations, ListedWorks::Cited);
    let list = list.expect(&rt, "a list");
    let mut places = Vec::new(alloc);
    add_places(&rt, &list.citations[0].content, &mut places);
    assert!(&rt; places.as_slice() == [2, 0].as_slice(), "{places:?}");
}

#[test]
fn works_of_one_key_stay_apart(rt: HostRuntime) {
    let alloc = rt.alloc();
    let style = author_list(&rt, alloc, "", "a");
    let works = works(&rt, alloc, &["Roe, Max|2014|Seas", "Doe, Jane|2010|Seas"]);
    let list = list(&rt, alloc, &style, &works, &["0;1"], ListedWorks::Cited);
    let list = list.expect(&rt, "a list");
    let bibliography = list.bibliography.as_ref().expect(&rt, "a bibliography");
    for (item, work) in bibliography.items.iter().zip([1, 0]) {
        assert_of(&rt, &(item.key.as_str(), item.work), &("Seas", work), work);
    }
    let text = text_of(&rt, alloc, &list);
    let wanted = "(Roe, 2014; Doe, 2010)\nDoe, Jane. 2010. Seas.\nRoe, Max. 2014. Seas.\n";
    assert_of(&rt, &text.as_str(), &wanted, "one key");
}

#[test]
fn items_have_the_options_of_the_style(rt: HostRuntime) {
    let alloc = rt.alloc();
    let bibliography = BibliographyOptions {
        hanging_indent: true,
        line_spacing: 2,
        entry_spacing: 0,
        ..with_periods(&rt, alloc, "y")
    };
    let citation = in_parentheses(&rt, alloc, "");
    let style = ListStyle::new(alloc, of_authors(&rt, alloc), citation, Some(bibliography));
    let style = style.expect(&rt, "a style");
    let works = works(&rt, alloc, &WORKS);
    let list = list(&rt, alloc, &style, &works, &["1"], ListedWorks::All).expect(&rt, "a list");
    let bibliography = list.bibliography.as_ref().expect(&rt, "a bibliography");
    let looks = (bibliography.hanging_indent, bibliography.line_spacing);
    assert_of(&rt, &looks, &(true, 2), "looks");
    assert_of(&rt, &bibliography.entry_spacing, &0, "spacing");
    assert_of(&rt, &bibliography.second_field_align, &None, "field");
    let last = &bibliography.items[4];
    assert_of(&rt, &(last.work, last.number.get()), &(2, 4), "last");
    assert_of(&rt, &last.key.as_str(), &"Lakes", "key");
}
