//! The engine over the library, which is linked. Texts of documents are those of docs/WIRE.md.

use std::borrow::Cow;
use std::thread;
use sulleqti::{
    BibliographyDriver, CitationItem, CitationRequest, CitePurpose, Content, Date, ElemChild,
    ElemChildren, ElemMeta, Engine, EntryLike, Error, FormatString, Person, SpecificLocator,
};

/// What `tools/style --json` makes of hosts/python/tests/year.csl.
const YEAR: &str = include_str!("year.json");

struct Book {
    title: &'static str,
    author: &'static str,
    year: i32,
}

impl EntryLike for Book {
    fn key(&self) -> Cow<'_, str> {
        self.title.to_lowercase().into()
    }

    fn kinds(&self) -> Vec<&str> {
        vec!["book"]
    }

    fn texts(&self) -> Vec<(&str, FormatString)> {
        vec![("title", self.title.into())]
    }

    fn names(&self) -> Vec<(&str, Vec<Person>)> {
        vec![("author", vec![Person { name: self.author.into(), ..Person::default() }])]
    }

    fn dates(&self) -> Vec<(&str, Date)> {
        vec![("issued", Date::from_year(self.year))]
    }
}

/// A work with a variable that CSL lacks.
struct Misspelled;

impl EntryLike for Misspelled {
    fn key(&self) -> Cow<'_, str> {
        "misspelled".into()
    }

    fn kinds(&self) -> Vec<&str> {
        Vec::new()
    }

    fn texts(&self) -> Vec<(&str, FormatString)> {
        vec![("titel", "Moss".into())]
    }
}

const BOOKS: [Book; 4] = [
    Book { title: "Lakes", author: "Doe", year: 1999 },
    Book { title: "Moss", author: "Kwan", year: 2014 },
    Book { title: "Hills", author: "Roe", year: 2010 },
    Book { title: "Ferns", author: "Kwan", year: 2016 },
];

fn citation(items: impl Into<Vec<CitationItem>>) -> CitationRequest {
    CitationRequest { items: items.into(), note_number: None }
}

/// The document of docs/WIRE.md.
fn driver() -> BibliographyDriver {
    let mut driver = BibliographyDriver::new();
    let see = CitationItem { prefix: Some("see ".to_owned()), ..CitationItem::new(1) };
    driver.citation(citation([see, CitationItem::new(2)]));
    let (locator, purpose) = (Some(SpecificLocator::new("page", "7")), Some(CitePurpose::Prose));
    let items = vec![CitationItem { locator, purpose, ..CitationItem::new(1) }];
    driver.citation(CitationRequest { items, note_number: Some(3) });
    driver.citation(citation([CitationItem { hidden: true, ..CitationItem::new(3) }]));
    driver.list([0]);
    driver
}

/// The place and the code of a refusal.
fn refused<T: std::fmt::Debug>(result: Result<T, Error>) -> (String, String) {
    match result {
        Err(Error::Refused { code, at, .. }) => (at, code),
        found => panic!("{found:?}"),
    }
}

fn pair(at: &str, code: &str) -> (String, String) {
    (at.to_owned(), code.to_owned())
}

/// How many styles and works an engine forgets of these.
fn dropped(engine: &mut Engine, styles: &str, works: &str) -> String {
    let request = format!(r#"{{"op": "drop", "styles": {styles}, "works": {works}}}"#);
    engine.answer(request).unwrap()
}

#[test]
fn document() -> Result<(), Error> {
    let mut engine = Engine::new()?;
    let style = engine.style("year", YEAR)?;
    assert_eq!(style.missing_macro, None);
    let done = driver().finish(&mut engine, &style, &BOOKS)?;
    let texts = done.citations.iter().map(|it| it.content.to_string()).collect::<Vec<_>>();
    assert_eq!(texts, ["(see Kwan 2014; Roe 2010)", "Kwan (2014: 7)", ""]);
    let notes = done.citations.iter().map(|it| it.note_number).collect::<Vec<_>>();
    assert_eq!(notes, [None, Some(3), None]);
    let list = done.bibliography.expect("the style has one");
    let looks = (list.hanging_indent, list.second_field_align, list.line_spacing);
    assert_eq!((looks, list.entry_spacing), ((true, None, 1), 1));
    let found = list.items.iter().map(|it| (it.work, &*it.key, &*it.content.html));
    let wanted = [
        (0, "lakes", "Doe. 1999. Lakes."),
        (3, "ferns", "Kwan. 2016. Ferns."),
        (1, "moss", "Kwan. 2014. Moss."),
        (2, "hills", "Roe. 2010. Hills."),
    ];
    assert_eq!(found.collect::<Vec<_>>(), wanted);
    // The engine keeps none of the works.
    let none = r#"{"id":null,"ok":{"styles":0,"works":0}}"#;
    assert_eq!(dropped(&mut engine, "[]", r##"["#0", "#1", "#2", "#3"]"##), none);
    Ok(())
}

/// The indices of works and the places for texts of the caller in a tree.
fn marks(tree: &ElemChildren, works: &mut Vec<usize>, cites: &mut Vec<usize>) {
    for child in &tree.0 {
        match child {
            ElemChild::Elem(elem) => {
                works.extend(match elem.meta {
                    Some(ElemMeta::Entry(work)) => Some(work),
                    _ => None,
                });
                marks(&elem.children, works, cites);
            }
            ElemChild::Transparent { cite_idx, .. } => cites.push(*cite_idx),
            _ => {}
        }
    }
}

#[test]
fn tree() -> Result<(), Error> {
    let mut engine = Engine::new()?;
    let style = engine.style("year", YEAR)?;
    let mut driver = BibliographyDriver::new();
    let locator = Some(SpecificLocator { label: "page".to_owned(), text: None });
    let item = CitationItem { locator, ..CitationItem::new(1) };
    driver.citation(citation([CitationItem::new(3), item]));
    let done = driver.finish(&mut engine, &style, &BOOKS)?;
    let (mut works, mut cites) = (Vec::new(), Vec::new());
    marks(&done.citations[0].content.tree, &mut works, &mut cites);
    assert_eq!((works, cites), (vec![3, 1], vec![1]));
    Ok(())
}

#[test]
fn single_works() -> Result<(), Error> {
    let mut engine = Engine::new()?;
    let style = engine.style("year", YEAR)?;
    let page = Some(SpecificLocator::new("page", "7"));
    assert_eq!(engine.cite(&style, &BOOKS[1], page)?.text, "Kwan 2014: 7");
    let line = engine.line(&style, &BOOKS[1])?;
    assert_eq!(line.as_ref().map(Content::to_string).as_deref(), Some("Kwan. 2014. Moss"));
    let json = r#"{"style": {"citation": {"children": [
        {"text": {"variable": "title", "font-weight": "bold"}}, {"text": {"macro": "year"}}]}}}"#;
    let bold = engine.style("bold", json)?;
    assert_eq!(bold.missing_macro.as_deref(), Some("year"));
    let moss = "<span style=\"font-weight: bold;\">Moss</span>";
    assert_eq!(engine.cite(&bold, &BOOKS[1], None)?.html, moss);
    assert_eq!(engine.line(&bold, &BOOKS[1])?, None);
    engine.forget(&bold)?;
    let found = refused(engine.cite(&bold, &BOOKS[1], None));
    assert_eq!(found, pair("/style", "unknown-name"));
    Ok(())
}

#[test]
fn refusals() -> Result<(), Error> {
    let mut engine = Engine::new()?;
    let style = engine.style("year", YEAR)?;
    let json = r#"{"style": {"citation": {"children": [{"text": {"variable": "titel"}}]}}}"#;
    let found = refused(engine.style("year", json));
    assert_eq!(found, pair("/style/citation/children/0/text/variable", "unknown-name"));
    for (json, at) in [("[]", 0), ("{\"style\": }", 10)] {
        assert!(matches!(engine.style("year", json), Err(Error::Json { at: it, .. }) if it == at));
    }
    let works: [&dyn EntryLike; 2] = [&BOOKS[0], &Misspelled];
    let mut driver = BibliographyDriver::new();
    driver.list([1]);
    let found = refused(driver.finish(&mut engine, &style, works));
    assert_eq!(found, pair("/works/1/work/variables", "unknown-name"));
    let found = refused(engine.cite(&style, &Misspelled, None));
    assert_eq!(found, pair("/cites/0/work/variables", "unknown-name"));
    let mut driver = self::driver();
    driver.citation(citation([CitationItem::new(0), CitationItem::new(4)]));
    let found = refused(driver.finish(&mut engine, &style, &BOOKS));
    assert_eq!(found, pair("/citations/3/items/1/work", "unknown-name"));
    // The style that was kept is still kept.
    assert_eq!(engine.cite(&style, &BOOKS[1], None)?.text, "Kwan 2014");
    Ok(())
}

#[test]
fn limits() -> Result<(), Error> {
    let text = "x".repeat(201);
    let json = format!(
        r#"{{"style": {{"citation": {{"children": [{{"text": {{"value": "{text}"}}}}]}}}}}}"#
    );
    let found = refused(Engine::new()?.style("long", &json));
    assert_eq!(found, pair("/style/citation/children/0/text/value", "too-long"));
    let mut engine = Engine::trusted()?;
    let style = engine.style("long", &json)?;
    assert_eq!(engine.cite(&style, &BOOKS[0], None)?.text, text);
    Ok(())
}

/// Works of high indices, and more works than one request takes.
#[test]
fn many_works() -> Result<(), Error> {
    let mut engine = Engine::new()?;
    let title = r#"{"children": [{"text": {"variable": "title"}}]}"#;
    let json = format!(r#"{{"style": {{"citation": {title}, "bibliography": {title}}}}}"#);
    let style = engine.style("title", &json)?;
    let mut works = (0..1_010).map(|work| &BOOKS[work % 4] as &dyn EntryLike).collect::<Vec<_>>();
    let mut driver = BibliographyDriver::new();
    driver.list([2, 1_009]);
    let list = driver.finish(&mut engine, &style, works.iter().copied())?.bibliography;
    let items = list.expect("the style has one").items;
    let found = items.iter().map(|it| (it.work, &*it.content.text)).collect::<Vec<_>>();
    assert_eq!(found, [(2, "Hills"), (1_009, "Moss")]);
    driver.list(0..1_010);
    works[1_009] = &Misspelled;
    let found = refused(driver.finish(&mut engine, &style, works));
    assert_eq!(found, pair("/works/1009/work/variables", "unknown-name"));
    Ok(())
}

/// Threads with an engine each.
#[test]
fn threads() {
    let run = || {
        let mut engine = Engine::new()?;
        let style = engine.style("year", YEAR)?;
        let lists = (0..20).map(|_| driver().finish(&mut engine, &style, &BOOKS));
        lists.collect::<Result<Vec<_>, Error>>()
    };
    let lists = thread::scope(|scope| {
        let threads = [scope.spawn(run), scope.spawn(run)];
        threads.map(|thread| thread.join().expect("a thread ends").expect("lists"))
    });
    assert!(lists.iter().flatten().all(|list| *list == lists[0][0]));
    assert_eq!(lists[1][19].citations[1].content.text, "Kwan (2014: 7)");
}
