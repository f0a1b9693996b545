//! New values, and entries by calls that chain.

use crate::shared::{alone, chunks};
use lit_model::{
    ChunkedString, Date, Entry, EntryType, FormatString, MaybeTyped, Numeric, PageRanges,
    PageRangesPart, Person, Publisher, QualifiedUrl, SerialNumber,
};
use std::alloc::Global;
use std::process::Abort;
use std::test::Fail;
use url::Url;

/// A copy of a text.
pub(crate) fn text(alloc: Global, text: &str) -> Result<String, Fail> {
    Ok(String::from_str(alloc, text)?)
}

/// A chapter of a book in a series.
pub(crate) fn works(rt: &impl Abort, alloc: Global) -> Result<Entry, Fail> {
    let series = Entry::titled(alloc, "series", EntryType::Book, "Everyman")?;
    let mut book = Entry::new(alloc, "book", EntryType::Anthology)?;
    book = book.with_parents(alone(rt, alloc, series));
    let chapter = Entry::titled(alloc, "chapter", EntryType::Chapter, "The Signal-Man")?;
    Ok(chapter.with_parents(alone(rt, alloc, book)))
}

/// The fields that have a call, with a number in each value.
#[derive(Drop)]
struct Values {
    authors: Vec<Person>,
    editors: Vec<Person>,
    date: Date,
    url: QualifiedUrl,
    publisher: Publisher,
    issue: MaybeTyped<Numeric>,
    volume: MaybeTyped<Numeric>,
    page_range: MaybeTyped<PageRanges>,
    page_total: Numeric,
    parents: Vec<Entry>,
}

fn values(rt: &impl Abort, alloc: Global, number: i32) -> Result<Values, Fail> {
    let name = format!(in alloc; "{number}")?;
    let address = format!(in alloc; "https://example.org/{number}")?;
    let page = PageRangesPart::SinglePage(Numeric::new(number));
    let mut publisher = Publisher::named(alloc, name.as_str())?;
    publisher.location = Some(FormatString::plain(alloc, name.as_str())?);
    let journal = Entry::new(alloc, name.as_str(), EntryType::Periodical)?;
    Ok(Values {
        authors: alone(rt, alloc, Person::new(alloc, name.as_str(), "Ann")?),
        editors: alone(rt, alloc, Person::new(alloc, name.as_str(), "Eve")?),
        date: Date::of_year(number),
        url: QualifiedUrl {
            value: Url::parse(alloc, address.as_str())?,
            visit_date: Some(Date::of_year(number)),
        },
        publisher,
        issue: MaybeTyped::Typed(Numeric::new(number + 1)),
        volume: MaybeTyped::Typed(Numeric::new(number + 2)),
        page_range: MaybeTyped::Typed(PageRanges {
            ranges: alone(rt, alloc, page),
        }),
        page_total: Numeric::new(number + 3),
        parents: alone(rt, alloc, journal),
    })
}

/// The entry with these values, each set by its call. What a call would drop comes before it.
fn with_all(entry: Entry, to: Values) -> Entry {
    entry
        .with_authors(to.authors)
        .with_editors(to.editors)
        .with_date(to.date)
        .with_url(to.url)
        .with_publisher(to.publisher)
        .with_issue(to.issue)
        .with_volume(to.volume)
        .with_page_total(to.page_total)
        .with_page_range(to.page_range)
        .with_parents(to.parents)
}

fn assign_all(entry: &mut Entry, to: Values) {
    entry.authors = Some(to.authors);
    entry.editors = Some(to.editors);
    entry.date = Some(to.date);
    entry.url = Some(to.url);
    entry.publisher = Some(to.publisher);
    entry.issue = Some(to.issue);
    entry.volume = Some(to.volume);
    entry.page_total = Some(to.page_total);
    entry.page_range = Some(to.page_range);
    entry.parents = to.parents;
}

/// Serial numbers by scheme. The last scheme has no call of its own, and the first one is set twice.
static NUMBERS: [(&str, &str); 7] = [
    ("doi", "10.1007/BF02731494"),
    ("isbn", "0-13-110163-3"),
    ("issn", "0029-6341"),
    ("pmid", "1"),
    ("pmcid", "PMC2"),
    ("arxiv", "2101.00001"),
    ("doi", "10.1000/182"),
];

fn set_number(alloc: Global, entry: &mut Entry, scheme: &str, number: &str) -> Result<(), Fail> {
    match scheme {
        "doi" => entry.set_doi(alloc, number)?,
        "isbn" => entry.set_isbn(alloc, number)?,
        "issn" => entry.set_issn(alloc, number)?,
        "pmid" => entry.set_pmid(alloc, number)?,
        "pmcid" => entry.set_pmcid(alloc, number)?,
        _ => entry.set_keyed_serial_number(alloc, scheme, number)?,
    }
    Ok(())
}

#[test]
fn each_call_sets_its_field_alone(rt: HostRuntime) -> Result<(), Fail> {
    let alloc = rt.alloc();
    let mut called = Entry::titled(alloc, "key", EntryType::Book, "Title")?;
    let mut assigned = Entry::new(alloc, "key", EntryType::Book)?;
    assigned.title = Some(FormatString::plain(alloc, "Title")?);
    assert!(rt;
        called == assigned,
        "a titled entry has nothing but its title"
    );
    // The second values replace the first.
    for number in [1961, 2014] {
        called = with_all(called, values(&rt, alloc, number)?);
    }
    assign_all(&mut assigned, values(&rt, alloc, 2014)?);
    assert!(rt; called == assigned, "each field has its last value");
    let mut numbers = SerialNumber::new(alloc);
    for (scheme, number) in &NUMBERS {
        set_number(alloc, &mut called, *scheme, *number)?;
        numbers.set(alloc, *scheme, *number)?;
    }
    assigned.serial_number = Some(numbers);
    assert!(rt; called == assigned, "each scheme has its last number");
    Ok(())
}

/// A person of this name, with a given name if there is one.
fn kwan(alloc: Global, given_name: Option<String>) -> Result<Person, Fail> {
    Ok(Person {
        name: text(alloc, "Kwan")?,
        given_name,
        prefix: None,
        suffix: None,
        alias: None,
        comma_suffix: false,
    })
}

#[test]
fn new_values_have_what_they_are_given(rt: HostRuntime) -> Result<(), Fail> {
    let alloc = rt.alloc();
    let plain = ChunkedString::plain(alloc, "Aeon")?;
    assert!(rt; plain == chunks(&rt, alloc, "Aeon"), "one normal chunk");
    let name = FormatString {
        value: plain,
        short: None,
    };
    assert!(rt;
        FormatString::plain(alloc, "Aeon")? == name,
        "no short form"
    );
    let aeon = Publisher::named(alloc, "Aeon")?;
    assert!(rt;
        aeon.name == Some(name) && aeon.location.is_none(),
        "a name, and no place"
    );
    let kevin = Person::new(alloc, "Kwan", "Kevin")?;
    let same = kwan(alloc, Some(text(alloc, "Kevin")?))?;
    assert!(rt; kevin == same, "a person");
    let institution = Person::institution(alloc, "Kwan")?;
    assert!(rt; institution == kwan(alloc, None)?, "an institution");
    Ok(())
}
