//! What a document asks for: citations, each with its cites.

use crate::engine::{result_of, Engine, Style};
use crate::entry::{work_value, EntryLike};
use crate::error::Error;
use crate::json::{object, Value};
use crate::names::named;
use crate::rendered::{Content, RenderedList};
use std::collections::BTreeSet;

/// The most works of one request. The library allows some more.
const MOST_WORKS: usize = 1_000;

named! {
    /// What a cite prints, if it is not the cite as the style has it.
    CitePurpose {
        /// The author alone, as `Doe`.
        Author = "author",
        /// The year alone, as `2014`.
        Year = "year",
        /// The work as the bibliography has it.
        Full = "full",
        /// The author, and the rest as a citation, as `Doe (2014)`.
        Prose = "prose",
        /// All but the author, as `(2014)`.
        SuppressAuthor = "suppress-author",
    }
}

/// The place in a work that a cite points to.
#[derive(Clone, Debug, PartialEq, Eq, Hash)]
pub struct SpecificLocator {
    /// What is counted: a locator of CSL, as `page` or `chapter`.
    pub label: String,
    /// The text, as `7` or `12-15`. Without one the caller writes it: the tree has an
    /// [`ElemChild::Transparent`](crate::ElemChild::Transparent) in its place.
    pub text: Option<String>,
}

impl SpecificLocator {
    /// A locator with its text.
    pub fn new(label: impl Into<String>, text: impl Into<String>) -> SpecificLocator {
        SpecificLocator { label: label.into(), text: Some(text.into()) }
    }
}

/// A cite of a citation.
#[derive(Clone, Debug, Default, PartialEq, Eq, Hash)]
pub struct CitationItem {
    /// The index of the work among the works of the document.
    pub work: usize,
    /// The place in the work.
    pub locator: Option<SpecificLocator>,
    /// What the cite prints. Without a purpose it is the cite as the style has it.
    pub purpose: Option<CitePurpose>,
    /// Whether the cite prints nothing. It counts as a cite all the same.
    pub hidden: bool,
    /// The text right before the cite, with the spaces that it needs.
    pub prefix: Option<String>,
    /// The text right after the cite, with the spaces that it needs.
    pub suffix: Option<String>,
}

impl CitationItem {
    /// A cite of a whole work, by its index.
    pub fn new(work: usize) -> CitationItem {
        CitationItem { work, ..CitationItem::default() }
    }
}

/// A citation: cites in a row.
#[derive(Clone, Debug, Default, PartialEq, Eq, Hash)]
pub struct CitationRequest {
    /// The cites, as the author wrote them.
    pub items: Vec<CitationItem>,
    /// The number of the note that the citation stands in. In the running text there is none.
    pub note_number: Option<u32>,
}

/// A document: its citations in their order, and the works that are listed uncited.
#[derive(Clone, Debug, Default, PartialEq, Eq, Hash)]
pub struct BibliographyDriver {
    citations: Vec<CitationRequest>,
    uncited: Vec<usize>,
}

impl BibliographyDriver {
    /// A document without citations.
    pub fn new() -> BibliographyDriver {
        BibliographyDriver::default()
    }

    /// Adds a citation.
    pub fn citation(&mut self, request: CitationRequest) {
        self.citations.push(request);
    }

    /// Lists works, by their indices, also if no citation has them. A style that does not sort has
    /// them in this order, after those that are cited.
    pub fn list(&mut self, works: impl IntoIterator<Item = usize>) {
        self.uncited.extend(works);
    }

    /// Renders the citations and the bibliography, which has the works that are cited or listed.
    /// The driver is unchanged, so it may take more citations.
    ///
    /// # Errors
    /// [`Error::Refused`], as for a work that has a variable which CSL lacks, a cite of a work that
    /// is not there, or a style that the engine does not keep.
    pub fn finish<'w, T: EntryLike + ?Sized + 'w>(
        &self,
        engine: &mut Engine,
        style: &Style,
        works: impl IntoIterator<Item = &'w T>,
    ) -> Result<RenderedList, Error> {
        let works: Vec<&T> = works.into_iter().collect();
        let used = self.used(works.len());
        let kept = keep(engine, &works, &used);
        let reply = kept.and_then(|()| engine.ask(self.request(style)));
        let names = used.into_iter().map(name_of).collect();
        let dropped = engine.ask(object([("op", "drop".into()), ("works", names)]));
        let notes = self.citations.iter().map(|citation| citation.note_number);
        let key_of = |work: usize| works.get(work).map(|it| it.key().into_owned());
        let list = RenderedList::read(reply?, notes, key_of)?;
        dropped.map(|_| list)
    }

    /// The indices of the works, of so many, that are cited or listed.
    fn used(&self, works: usize) -> Vec<usize> {
        let cited = self.citations.iter().flat_map(|it| &it.items).map(|item| item.work);
        let used: BTreeSet<usize> = cited.chain(self.uncited.iter().copied()).collect();
        used.into_iter().take_while(|work| *work < works).collect()
    }

    fn request(&self, style: &Style) -> Value {
        object([
            ("op", "document".into()),
            ("style", (&style.name).into()),
            ("citations", self.citations.iter().collect()),
            ("works", self.uncited.iter().copied().map(name_of).collect()),
            ("formats", Content::formats()),
        ])
    }
}

impl From<SpecificLocator> for Value {
    fn from(locator: SpecificLocator) -> Value {
        object([("label", locator.label.into()), ("value", locator.text.into())])
    }
}

impl From<&CitationItem> for Value {
    fn from(item: &CitationItem) -> Value {
        object([
            ("work", name_of(item.work).into()),
            ("locator", item.locator.clone().into()),
            ("purpose", item.purpose.map(CitePurpose::name).into()),
            ("hidden", item.hidden.into()),
            ("prefix", item.prefix.as_ref().into()),
            ("suffix", item.suffix.as_ref().into()),
        ])
    }
}

impl From<&CitationRequest> for Value {
    fn from(citation: &CitationRequest) -> Value {
        let items = citation.items.iter().collect();
        object([("items", items), ("note-number", citation.note_number.into())])
    }
}

/// Lets an engine keep the works of these indices.
fn keep<T: EntryLike + ?Sized>(
    engine: &mut Engine,
    works: &[&T],
    used: &[usize],
) -> Result<(), Error> {
    for some in used.chunks(MOST_WORKS) {
        let sent = some.iter().map(|work| {
            object([("name", name_of(*work).into()), ("work", work_value(works[*work]))])
        });
        let request = object([("op", "works".into()), ("works", sent.collect())]);
        let replies = engine.ask(request)?.into_items()?;
        for (index, reply) in some.iter().zip(replies) {
            result_of(reply).map_err(|error| at_work(error, *index))?;
        }
    }
    Ok(())
}

/// The refusal of a work, at its index among the works of the caller.
fn at_work(mut error: Error, index: usize) -> Error {
    if let Error::Refused { at, .. } = &mut error {
        let rest = at.splitn(4, '/').nth(3).unwrap_or_default();
        *at = format!("/works/{index}/{rest}");
    }
    error
}

/// The name of a work in requests, by its index.
fn name_of(work: usize) -> String {
    format!("#{work}")
}

/// The index of a work by its name in a reply.
pub(crate) fn work_of(name: Value) -> Result<usize, Error> {
    let name = name.into_text()?;
    let digits = name.strip_prefix('#').and_then(|digits| digits.parse().ok());
    digits.ok_or(Error::Reply("the name of a work"))
}

#[cfg(test)]
mod tests {
    use super::*;

    /// The members are those of docs/WIRE.md.
    #[test]
    fn document() {
        let mut driver = BibliographyDriver::new();
        let locator = Some(SpecificLocator::new("page", "7"));
        let prefix = Some("see ".to_owned());
        let prose = Some(CitePurpose::Prose);
        let item = CitationItem { locator, purpose: prose, prefix, ..CitationItem::new(3) };
        let hidden = CitationItem { hidden: true, ..CitationItem::new(9) };
        driver.citation(CitationRequest { items: vec![item, hidden], note_number: Some(2) });
        driver.list([0, 3]);
        let style = Style { name: "apa".to_owned(), missing_macro: None };
        let wanted = r##"{"op": "document", "style": "apa",
            "citations": [{"items": [
                {"work": "#3", "locator": {"label": "page", "value": "7"}, "purpose": "prose",
                 "hidden": false, "prefix": "see "},
                {"work": "#9", "hidden": true}], "note-number": 2}],
            "works": ["#0", "#3"], "formats": ["plain", "html", "tree"]}"##;
        assert_eq!(Ok(driver.request(&style)), Value::read(wanted));
        assert_eq!(driver.used(9), [0, 3]);
    }

    /// A refused work is told by the index that the caller knows.
    #[test]
    fn place() {
        let refused = |at: &str| Error::Refused {
            code: "c".to_owned(),
            at: at.to_owned(),
            message: "m".to_owned(),
        };
        let found = at_work(refused("/works/0/work/variables/titel"), 1007);
        assert_eq!(found, refused("/works/1007/work/variables/titel"));
    }
}
