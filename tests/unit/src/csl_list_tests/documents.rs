//! Documents from descriptions, and their lists as texts.
//!
//! A work is its authors, its year and its title between bars, as `Doe, Jane & Roe, Max|2014|Seas`.
//! A cite is the index of its work and words between bars: `page=33`, `caller` (a locator that the
//! caller writes), `before=see `, `author` and `hidden`. Semicolons separate the cites of a citation.
//! It may begin with its note, as `3: 0;1`.

use crate::shared::put;
use csl::literature::{Date, Entry, EntryType, Person};
use csl::{BufWriteFormat, ElemChildren, NoteNumber};
use csl_elements::Locator;
use csl_entry::{LocatorPayload, SpecificLocator};
use csl_list::{
    BibliographyDriver, CitationItem, CitationRequest, CitePurpose, ListError, ListStyle,
    ListedWorks, RenderedList, plain_affix,
};
use std::alloc::Global;
use std::process::Abort;

/// The authors of a description.
fn authors(rt: &impl Abort, alloc: Global, names: &str) -> Vec<Person> {
    let mut persons = Vec::new(alloc);
    for name in names.split(" & ") {
        let (family, given) = name.split_once(", ").unwrap_or((name, ""));
        let person = Person::new(alloc, family, given);
        put(rt, &mut persons, person.expect(rt, "memory"));
    }
    persons
}

/// The work of a description.
fn work(rt: &impl Abort, alloc: Global, description: &str) -> Entry {
    let (names, rest) = description.split_once('|').unwrap_or((description, ""));
    let (year, title) = rest.split_once('|').unwrap_or((rest, ""));
    let mut entry = Entry::titled(alloc, title, EntryType::Book, title).expect(rt, "memory");
    if !names.is_empty() {
        entry.authors = Some(authors(rt, alloc, names));
    }
    if let Ok(year) = year.parse::<i32>() {
        entry.date = Some(Date::of_year(year));
    }
    entry
}

/// The works of descriptions.
pub(crate) fn works(rt: &impl Abort, alloc: Global, descriptions: &[&str]) -> Vec<Entry> {
    let mut works = Vec::new(alloc);
    for description in descriptions {
        put(rt, &mut works, work(rt, alloc, description));
    }
    works
}

/// The cite of a description.
fn item<'d>(rt: &impl Abort, alloc: Global, description: &'d str) -> CitationItem<'d> {
    let mut words = description.split('|');
    let work = words.next().and_then(|it| it.parse::<usize>().ok());
    let mut item = CitationItem::new(work.expect(rt, "an index"));
    for word in words {
        if let Some(page) = word.strip_prefix("page=") {
            item.locator = Some(SpecificLocator(Locator::Page, LocatorPayload::Str(page)));
        } else if word == "caller" {
            let payload = LocatorPayload::Transparent;
            item.locator = Some(SpecificLocator(Locator::Page, payload));
        } else if let Some(text) = word.strip_prefix("before=") {
            item.prefix = Some(plain_affix(alloc, text).expect(rt, "memory"));
        } else if word == "hidden" {
            item.hidden = true;
        } else {
            assert!(rt; word == "author", "{word} is a word of cites");
            item.purpose = Some(CitePurpose::Author);
        }
    }
    item
}

/// The citation of a description.
fn request<'d>(rt: &impl Abort, alloc: Global, description: &'d str) -> CitationRequest<'d> {
    let mut request = CitationRequest::new(alloc);
    let (note, items) = description.split_once(": ").unwrap_or(("", description));
    if let Ok(note) = note.parse::<u32>() {
        request.note_number = NoteNumber::new(note);
    }
    for words in items.split(';') {
        if !words.is_empty() {
            put(rt, &mut request.items, item(rt, alloc, words));
        }
    }
    request
}

/// A driver with the citations of descriptions.
pub(crate) fn driver<'d>(
    rt: &impl Abort,
    alloc: Global,
    citations: &[&'d str],
) -> BibliographyDriver<'d> {
    let mut driver = BibliographyDriver::new(alloc);
    for citation in citations {
        let request = request(rt, alloc, citation);
        driver.citation(request).expect(rt, "memory");
    }
    driver
}

/// The list of a document.
pub(crate) fn list(
    rt: &impl Abort,
    alloc: Global,
    style: &ListStyle,
    works: &[Entry],
    citations: &[&str],
    listed: ListedWorks,
) -> Result<RenderedList, ListError> {
    driver(rt, alloc, citations).finish(alloc, style, works, listed)
}

fn push(rt: &impl Abort, alloc: Global, text: &mut String, content: &ElemChildren) {
    let html = content.to_text(alloc, BufWriteFormat::Html);
    let html = html.expect(rt, "memory");
    text.push_str(html.as_str()).expect(rt, "memory");
}

/// The citations of a list as HTML, a line each, and then its works.
pub(crate) fn text_of(rt: &impl Abort, alloc: Global, list: &RenderedList) -> String {
    let mut text = String::new(alloc);
    for citation in &list.citations {
        push(rt, alloc, &mut text, &citation.content);
        text.push('\n').expect(rt, "memory");
    }
    let Some(bibliography) = &list.bibliography else {
        return text;
    };
    for item in &bibliography.items {
        if let Some(first) = &item.first_field {
            push(rt, alloc, &mut text, first);
            text.push('|').expect(rt, "memory");
        }
        push(rt, alloc, &mut text, &item.content);
        text.push('\n').expect(rt, "memory");
    }
    text
}
