//! Documents: works that are cited by their numbers, and citations of them, each as
//! `(cite 3 prefix="see " (locator page "7")) (cite 1) note=2`.

use crate::cite::specific_locator;
use crate::fault::Fault;
use crate::form::{Form, Forms};
use crate::trees::tree;
use crate::work::Work;
use csl::{ElemChildren, NoteNumber};
use csl_list::{
    BibliographyDriver, CitationItem, CitationRequest, ListStyle, ListedWorks, RenderedList,
    plain_affix,
};
use std::alloc::Global;

/// A text around a cite: `prefix="see "`, or `(prefix (span font-style=italic "see") " ")`.
fn affix(forms: &Forms<'_>, name: &str) -> Result<Option<ElemChildren>, Fault> {
    if let Some(inside) = forms.list(name) {
        return Ok(Some(tree(inside)?));
    }
    match forms.value(name) {
        Some(text) => Ok(Some(plain_affix(forms.alloc, text)?)),
        None => Ok(None),
    }
}

/// A cite of the work that its number names. The numbers ascend, and one that names no work stands
/// for a work that is not there.
fn item<'t>(forms: &Forms<'t>, numbers: &[usize]) -> Result<CitationItem<'t>, Fault> {
    forms.ensure_attributes(&["prefix suffix purpose hidden"])?;
    let number = forms.first_number()?;
    let work = numbers.binary_search(&number).unwrap_or(numbers.len());
    Ok(CitationItem {
        work,
        locator: match forms.list("locator") {
            Some(inside) => Some(specific_locator(inside)?),
            None => None,
        },
        purpose: forms.choice("purpose")?,
        hidden: forms.is_true("hidden")?,
        prefix: affix(forms, "prefix")?,
        suffix: affix(forms, "suffix")?,
    })
}

/// The number of a note, if the citation stands in one.
fn note_number(forms: &Forms<'_>) -> Result<Option<NoteNumber>, Fault> {
    match forms.number("note")? {
        Some(number) => match NoteNumber::new(number) {
            Some(number) => Ok(Some(number)),
            None => Err(Fault::Wrong("no number of a note")),
        },
        None => Ok(None),
    }
}

/// The citation of a text.
pub fn citation<'t>(
    alloc: Global,
    text: &'t str,
    numbers: &[usize],
) -> Result<CitationRequest<'t>, Fault> {
    let forms = Forms::read(alloc, text)?;
    forms.ensure_attributes(&["note"])?;
    forms.ensure_lists("cite")?;
    let mut items = Vec::new(alloc);
    for form in &forms.items {
        if let Form::List(_, inside) = form {
            items.push(item(inside, numbers)?)?;
        }
    }
    Ok(CitationRequest {
        items,
        note_number: note_number(&forms)?,
    })
}

/// A document: its works, the number that names each, its citations as texts, which works it lists,
/// and how many bytes it may write.
#[derive(Drop)]
pub struct Document<'d> {
    pub alloc: Global,
    pub works: &'d [Work],
    pub numbers: &'d [usize],
    pub citations: &'d [String],
    pub listed: ListedWorks,
    pub limit: u64,
}

impl<'d> Document<'d> {
    /// The citations and the bibliography.
    pub fn rendered(&self, style: &ListStyle) -> Result<RenderedList, Fault> {
        let mut driver = BibliographyDriver::new(self.alloc).limited(self.limit);
        for text in self.citations {
            driver.citation(citation(self.alloc, text.as_str(), self.numbers)?)?;
        }
        Ok(driver.finish(self.alloc, style, self.works, self.listed)?)
    }
}
