//! Random documents. The positions of cites are those of CSL's definition over the earlier cites,
//! no two works have cites of one text, and a list rendered twice is the same.

use crate::assertions::assert_of;
use crate::csl_list_tests::documents::{text_of, works};
use crate::csl_list_tests::styles::{author_list, of_notes};
use crate::shared::{Numbers, put, string};
use csl::{BufWriteFormat, NoteNumber};
use csl_elements::Locator;
use csl_entry::{LocatorPayload, SpecificLocator};
use csl_list::{
    BibliographyDriver, CitationItem, CitationOptions, CitationRequest, ListStyle, ListedWorks,
};
use std::alloc::Global;
use std::process::Abort;

/// Works of which some have one cite.
static WORKS: [&str; 8] = [
    "Doe, Jane|2014|Seas",
    "Roe, Max|2010|Hills",
    "Doe, Jane|2014|Lakes",
    "Doe, Jane & Roe, Max|2014|Rivers",
    "Doe, Ann|2014|Fens",
    "Roe, Max|2010|Dunes",
    "Doe, Jane & Roe, Max|2014|Banks",
    "Doe, Jane|2014|Seas",
];

/// The titles of the first works.
static TITLES: [&str; 4] = ["Seas", "Hills", "Lakes", "Rivers"];

/// The pages of locators.
static PAGES: [&str; 2] = ["3", "7"];

/// A cite: its work, its page, and the number of its note.
#[derive(Clone, Copy, Drop)]
struct Cite {
    work: usize,
    page: Option<&'static str>,
    note: Option<u32>,
}

/// The note of a citation: none, one that may be earlier, or this one.
fn random_note(numbers: &mut Numbers, note: u32) -> Option<u32> {
    match numbers.below(8) {
        0 => None,
        1 => Some(1 + numbers.below(30) as u32),
        _ => Some(note),
    }
}

/// Citations of two cites at most.
fn random_citations(rt: &impl Abort, alloc: Global, numbers: &mut Numbers) -> Vec<Vec<Cite>> {
    let mut citations = Vec::new(alloc);
    let mut last: u32 = 1;
    for _ in 0..16 {
        last += numbers.below(4) as u32;
        let note = random_note(numbers, last);
        let mut cites = Vec::new(alloc);
        for _ in 0..numbers.below(3) {
            let work = numbers.below(TITLES.len() as u64) as usize;
            let page = PAGES.get(numbers.below(3) as usize).copied();
            put(rt, &mut cites, Cite { work, page, note });
        }
        put(rt, &mut citations, cites);
    }
    citations
}

/// A cite as it is asked for.
fn item_of(cite: Cite) -> CitationItem<'static> {
    let page = |page| SpecificLocator(Locator::Page, LocatorPayload::Str(page));
    CitationItem {
        locator: cite.page.map(page),
        ..CitationItem::new(cite.work)
    }
}

/// A driver with these citations.
fn driver_of(
    rt: &impl Abort,
    alloc: Global,
    citations: &[Vec<Cite>],
) -> BibliographyDriver<'static> {
    let mut driver = BibliographyDriver::new(alloc);
    for cites in citations {
        let mut request = CitationRequest::new(alloc);
        for cite in cites {
            request.note_number = cite.note.and_then(NoteNumber::new);
            put(rt, &mut request.items, item_of(*cite));
        }
        driver.citation(request).expect(rt, "memory");
    }
    driver
}

/// The cites before one in a document.
#[derive(Drop)]
struct Earlier<'a> {
    /// The citations before its own.
    citations: &'a [Vec<Cite>],
    /// The cites before it in its own.
    own: &'a [Cite],
}

impl Earlier<'_> {
    /// The cite that the next one may refer to as `ibid.`: the one before it in its citation, or
    /// the only one of the citation before.
    fn last(&self) -> Option<Cite> {
        if let Some(cite) = self.own.last() {
            return Some(*cite);
        }
        match self.citations.last().map(|cites| cites.as_slice()) {
            Some([cite]) => Some(*cite),
            _ => None,
        }
    }

    /// Whether a work is cited, and the notes of its first and last cite that stand in one.
    fn of_work(&self, work: usize) -> (bool, Option<u32>, Option<u32>) {
        let (mut is_cited, mut first, mut last) = (false, None, None);
        let before = self.citations.iter().flat_map(|cites| cites.iter());
        for cite in before.chain(self.own.iter()) {
            if cite.work == work {
                is_cited = true;
                first = first.or(cite.note);
                last = cite.note.or(last);
            }
        }
        (is_cited, first, last)
    }
}

/// Adds what the style of notes prints of a cite after earlier ones, and a delimiter before it if
/// it is not the first of its line.
fn push_wanted(
    rt: &impl Abort,
    alloc: Global,
    wanted: &mut String,
    earlier: &Earlier<'_>,
    cite: Cite,
) {
    let before = earlier.last().filter(|it| it.work == cite.work);
    let (is_cited, first, last) = earlier.of_work(cite.work);
    let is_near = match (last, cite.note) {
        (Some(last), Some(note)) => last.abs_diff(note) <= 5,
        _ => false,
    };
    let text = match (before, cite.page, first) {
        (Some(before), page, _) if before.page == page => format!(in alloc; "ibid."),
        (Some(_), Some(page), _) => format!(in alloc; "ibid. at {page}"),
        _ if is_near => format!(in alloc; "near"),
        (_, _, Some(first)) => format!(in alloc; "later {first}"),
        // a group of a note's number prints nothing without it
        _ if is_cited => return,
        _ => String::from_str(alloc, TITLES[cite.work]),
    };
    let text = text.expect(rt, "memory");
    if !wanted.is_empty() && !wanted.ends_with('\n') {
        wanted.push_str("; ").expect(rt, "memory");
    }
    wanted.push_str(text.as_str()).expect(rt, "memory");
}

/// What the style of notes prints of the citations, a line each.
fn wanted_of(rt: &impl Abort, alloc: Global, citations: &[Vec<Cite>]) -> String {
    let mut wanted = String::new(alloc);
    for (i, cites) in citations.iter().enumerate() {
        for (j, cite) in cites.iter().enumerate() {
            let earlier = Earlier {
                citations: &citations[..i],
                own: &cites[..j],
            };
            push_wanted(rt, alloc, &mut wanted, &earlier, *cite);
        }
        wanted.push('\n').expect(rt, "memory");
    }
    wanted
}

#[test]
fn positions_are_those_of_the_definition(rt: HostRuntime) {
    let alloc = rt.alloc();
    let options = CitationOptions {
        delimiter: string(&rt, alloc, "; "),
        ..CitationOptions::new(alloc)
    };
    let style = ListStyle::new(alloc, of_notes(&rt, alloc), options, None);
    let style = style.expect(&rt, "a style");
    let works = works(&rt, alloc, &WORKS);
    let mut numbers = Numbers::from(1);
    for round in 0..200 {
        let citations = random_citations(&rt, alloc, &mut numbers);
        let wanted = wanted_of(&rt, alloc, &citations);
        let driver = driver_of(&rt, alloc, &citations);
        for _ in 0..2 {
            let list = driver.finish(alloc, &style, &works, ListedWorks::All);
            let list = list.expect(&rt, "a list");
            let found = text_of(&rt, alloc, &list);
            assert_of(&rt, &found.as_str(), &wanted.as_str(), round);
        }
    }
}

/// The texts of the citations that cite a work each.
fn texts_of_cites(
    rt: &impl Abort,
    alloc: Global,
    style: &ListStyle,
    descriptions: &[&str],
) -> Vec<String> {
    let works = works(rt, alloc, descriptions);
    let mut driver = BibliographyDriver::new(alloc);
    for work in 0..works.len() {
        let mut request = CitationRequest::new(alloc);
        put(rt, &mut request.items, CitationItem::new(work));
        driver.citation(request).expect(rt, "memory");
    }
    let list = driver.finish(alloc, style, &works, ListedWorks::Cited);
    let list = list.expect(rt, "a list");
    let mut texts = Vec::new(alloc);
    for citation in &list.citations {
        let text = citation.content.to_text(alloc, BufWriteFormat::Plain);
        put(rt, &mut texts, text.expect(rt, "memory"));
    }
    texts
}

#[test]
fn no_two_works_have_one_cite(rt: HostRuntime) {
    let alloc = rt.alloc();
    let style = author_list(&rt, alloc, "", "ayt");
    let mut numbers = Numbers::from(2);
    for round in 0..100 {
        let mut descriptions = Vec::new(alloc);
        for _ in 0..2 + numbers.below(12) {
            let work = WORKS[numbers.below(WORKS.len() as u64) as usize];
            put(&rt, &mut descriptions, work);
        }
        let mut texts = texts_of_cites(&rt, alloc, &style, &descriptions);
        texts.sort_unstable();
        for pair in texts.windows(2) {
            assert!(&rt; pair[0] != pair[1], "{} of {round}", pair[0]);
        }
    }
}
