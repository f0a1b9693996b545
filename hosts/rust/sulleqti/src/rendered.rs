//! What is rendered.

use crate::error::Error;
use crate::json::Value;
use crate::names::{named, take_named};
use crate::request::work_of;
use crate::tree::ElemChildren;
use std::fmt;

/// What is rendered, in each format as the library writes it.
#[derive(Clone, Debug, Default, PartialEq, Eq, Hash)]
pub struct Content {
    /// The plain text, with line breaks around blocks.
    pub text: String,
    /// HTML, in which all that works and styles have is escaped.
    pub html: String,
    /// The tree of the texts and elements.
    pub tree: ElemChildren,
}

/// Writes the plain text.
impl fmt::Display for Content {
    fn fmt(&self, f: &mut fmt::Formatter<'_>) -> fmt::Result {
        f.pad(&self.text)
    }
}

/// A document: its citations, and its bibliography.
#[derive(Clone, Debug, PartialEq, Eq, Hash)]
pub struct RenderedList {
    /// The citations in their order.
    pub citations: Vec<RenderedCitation>,
    /// The bibliography, if the style has one.
    pub bibliography: Option<RenderedBibliography>,
}

/// A citation.
#[derive(Clone, Debug, PartialEq, Eq, Hash)]
pub struct RenderedCitation {
    /// The number of the note that it stands in, if it stands in one.
    pub note_number: Option<u32>,
    /// The citation.
    pub content: Content,
}

/// A bibliography, and how it is set.
#[derive(Clone, Debug, PartialEq, Eq, Hash)]
pub struct RenderedBibliography {
    /// Whether all lines of a work but the first are indented.
    pub hanging_indent: bool,
    /// How the first field of each work is set apart, if it is.
    pub second_field_align: Option<SecondFieldAlign>,
    /// The distance between lines, in usual ones.
    pub line_spacing: u32,
    /// The distance between works, likewise.
    pub entry_spacing: u32,
    /// The works in their order.
    pub items: Vec<BibliographyItem>,
}

named! {
    /// How the first field of each work is set apart: the rest is in a column of its own, or the
    /// field is in the margin.
    SecondFieldAlign { Flush = "flush", Margin = "margin" }
}

/// A work of a bibliography.
#[derive(Clone, Debug, PartialEq, Eq, Hash)]
pub struct BibliographyItem {
    /// The index of the work among those of the document.
    pub work: usize,
    /// The key of the work.
    pub key: String,
    /// The first field, if it is set apart.
    pub first_field: Option<Content>,
    /// The work, without a first field that is set apart.
    pub content: Content,
}

impl Content {
    /// The formats that are wanted of the library.
    pub(crate) fn formats() -> Value {
        ["plain", "html", "tree"].into_iter().collect()
    }

    /// The content of a reply. `works` has the index of each work of the document.
    pub(crate) fn read(content: Value, works: &[usize]) -> Result<Content, Error> {
        let mut members = content.into_members()?;
        Ok(Content {
            text: members.need("plain")?.into_text()?,
            html: members.need("html")?.into_text()?,
            tree: ElemChildren::read(members.need("tree")?, works)?,
        })
    }
}

impl RenderedList {
    /// The list of a reply, for citations in these notes, and works of these keys.
    pub(crate) fn read(
        reply: Value,
        notes: impl Iterator<Item = Option<u32>>,
        key_of: impl Fn(usize) -> Option<String>,
    ) -> Result<RenderedList, Error> {
        let mut members = reply.into_members()?;
        let names = members.need("works")?.into_items()?.into_iter();
        let works = names.map(work_of).collect::<Result<Vec<_>, _>>()?;
        let citations = members.need("citations")?.into_items()?.into_iter().zip(notes);
        let citations = citations.map(|(content, note_number)| {
            Ok(RenderedCitation { note_number, content: Content::read(content, &works)? })
        });
        let citations = citations.collect::<Result<_, Error>>()?;
        let bibliography = members.take("bibliography");
        let bibliography = bibliography.map(|it| RenderedBibliography::read(it, &works, key_of));
        Ok(RenderedList { citations, bibliography: bibliography.transpose()? })
    }
}

impl RenderedBibliography {
    fn read(
        bibliography: Value,
        works: &[usize],
        key_of: impl Fn(usize) -> Option<String>,
    ) -> Result<RenderedBibliography, Error> {
        let mut members = bibliography.into_members()?;
        let items = members.need("items")?.into_items()?.into_iter().map(|item| {
            let mut item = item.into_members()?;
            let work = work_of(item.need("work")?)?;
            let content = Content::read(item.need("content")?, works)?;
            let first_field = item.take("first-field").map(|field| Content::read(field, works));
            let first_field = first_field.transpose()?;
            let key = key_of(work).ok_or(Error::Reply("a work of the document"))?;
            Ok(BibliographyItem { work, key, first_field, content })
        });
        Ok(RenderedBibliography {
            items: items.collect::<Result<_, Error>>()?,
            hanging_indent: members.need("hanging-indent")?.into_flag()?,
            second_field_align: take_named(&mut members, "second-field-align")?,
            line_spacing: members.need("line-spacing")?.into_number()?,
            entry_spacing: members.need("entry-spacing")?.into_number()?,
        })
    }
}
