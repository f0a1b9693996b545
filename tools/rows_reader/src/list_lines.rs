//! The lines of a row about a document: its works, its citations, and what is asked of the driver.

use crate::answers::Row;
use crate::entry::entry;
use crate::fault::Fault;
use crate::form::Forms;
use crate::list_answers::answer_of_list;
use crate::lists::{Document, citation};
use crate::question::{As, OfList};
use crate::work::Work;
use csl::BufWriteFormat;
use csl_list::{ListedWorks, RenderedList};
use std::alloc::Global;

/// The lines, and the list once it is rendered.
#[derive(Drop)]
pub struct ListLines {
    alloc: Global,
    works: Vec<Work>,
    /// The numbers of the works, which count from 1.
    numbers: Vec<usize>,
    citations: Vec<String>,
    listed: ListedWorks,
    limit: u64,
    list: Option<RenderedList>,
}

impl ListLines {
    /// No works and no citations, and a driver without a limit that lists all works.
    pub fn new(alloc: Global) -> ListLines {
        ListLines {
            alloc,
            works: Vec::new(alloc),
            numbers: Vec::new(alloc),
            citations: Vec::new(alloc),
            listed: ListedWorks::All,
            limit: u64::MAX,
            list: None,
        }
    }

    /// Removes the lines.
    pub fn clear(&mut self) {
        *self = ListLines::new(self.alloc);
    }

    /// Forgets the list, as another line changes it.
    pub fn forget(&mut self) {
        self.list = None;
    }

    /// Whether there are no works and no citations.
    pub fn is_empty(&self) -> bool {
        self.works.is_empty() && self.citations.is_empty()
    }

    /// Keeps a line, and returns whether it is about a document. If it comes after a wanted line, a
    /// work begins a new document, and a citation new citations of the same works.
    pub fn keep(&mut self, word: &str, rest: &str, is_anew: bool) -> Result<bool, Fault> {
        match word {
            "list" => {
                if is_anew {
                    self.clear();
                }
                self.works.push(entry(&Forms::read(self.alloc, rest)?)?)?;
                self.numbers.push(self.works.len())?;
            }
            "citation" => {
                if is_anew {
                    self.citations.clear();
                }
                drop(citation(self.alloc, rest, &self.numbers)?);
                self.citations.push(String::from_str(self.alloc, rest)?)?;
            }
            "driver" => self.set_driver(rest)?,
            _ => return Ok(false),
        }
        self.forget();
        Ok(true)
    }

    /// Sets what is asked of the driver: `listed=cited limit=2000`.
    fn set_driver(&mut self, text: &str) -> Result<(), Fault> {
        let forms = Forms::read(self.alloc, text)?;
        forms.ensure_attributes(&["listed limit"])?;
        forms.ensure_lists("")?;
        self.listed = forms.choice("listed")?.unwrap_or(ListedWorks::All);
        self.limit = match forms.number("limit")? {
            Some(limit) => u64::from(limit),
            None => u64::MAX,
        };
        Ok(())
    }

    /// Renders the list, unless that is done.
    fn render(&mut self, row: Row<'_>) -> Result<&RenderedList, Fault> {
        let document = Document {
            alloc: self.alloc,
            works: &self.works,
            numbers: &self.numbers,
            citations: &self.citations,
            listed: self.listed,
            limit: self.limit,
        };
        let list = match self.list.take() {
            Some(list) => list,
            None => document.rendered(&row.list_style()?)?,
        };
        Ok(self.list.insert(list))
    }

    /// The citations and the works of the bibliography, each after the words of a line that wants it.
    pub fn came(&mut self, row: Row<'_>) -> Result<Vec<(String, String)>, Fault> {
        let alloc = self.alloc;
        let list = self.render(row)?;
        let mut came = Vec::new(alloc);
        for (i, citation) in list.citations.iter().enumerate() {
            let place = i.saturating_add(1);
            let text = citation.content.to_text(alloc, BufWriteFormat::Plain)?;
            came.push((format!(in alloc; "cited {place}:")?, text))?;
        }
        if let Some(bibliography) = &list.bibliography {
            for i in 0..bibliography.items.len() {
                let place = i.saturating_add(1);
                let text = answer_of_list(alloc, list, OfList::Item(place, As::Plain))?;
                came.push((format!(in alloc; "item {place}:")?, text))?;
            }
        }
        Ok(came)
    }

    /// The answer to a question in the style of the row.
    pub fn answer(&mut self, row: Row<'_>, question: OfList) -> Result<String, Fault> {
        let alloc = self.alloc;
        match (self.render(row), question) {
            (Ok(list), _) => answer_of_list(alloc, list, question),
            (Err(fault), OfList::Error) => match fault {
                Fault::NoList(_) | Fault::RefusedOptions(_) => fault.words(alloc),
                fault => Err(fault),
            },
            (Err(fault), _) => Err(fault),
        }
    }
}
