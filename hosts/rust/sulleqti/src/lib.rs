//! Citations and bibliographies by CSL 1.0.2, over the library Sulleqti, which is proved to render
//! what is defined.
//!
//! An [`Engine`] keeps styles. A [`BibliographyDriver`] collects the citations of a document, and
//! renders them and the bibliography, for works of any type that has the trait [`EntryLike`]. Names
//! are those of the crate `hayagriva`, where it has the same.
//!
//! ```
//! use std::borrow::Cow;
//! use sulleqti::{
//!     BibliographyDriver, CitationItem, CitationRequest, Date, Engine, EntryLike, FormatString,
//!     Person, SpecificLocator,
//! };
//!
//! struct Film {
//!     title: &'static str,
//!     director: Person,
//!     year: i32,
//! }
//!
//! impl EntryLike for Film {
//!     fn key(&self) -> Cow<'_, str> {
//!         self.title.into()
//!     }
//!     fn kinds(&self) -> Vec<&str> {
//!         vec!["motion_picture"]
//!     }
//!     fn texts(&self) -> Vec<(&str, FormatString)> {
//!         vec![("title", self.title.into())]
//!     }
//!     fn names(&self) -> Vec<(&str, Vec<Person>)> {
//!         vec![("director", vec![self.director.clone()])]
//!     }
//!     fn dates(&self) -> Vec<(&str, Date)> {
//!         vec![("issued", Date::from_year(self.year))]
//!     }
//! }
//!
//! # fn main() -> Result<(), sulleqti::Error> {
//! // This is what `tools/style --json film.csl` prints.
//! let json = r#"{
//!     "style": {
//!         "citation": {"children": [{"group": {"delimiter": ", ", "children": [
//!             {"names": {"variable": ["director"], "children": [{"name": {"form": "short"}}]}},
//!             {"date": {"variable": "issued", "date-part": [{"name": "year"}]}},
//!             {"text": {"variable": "locator"}}]}}]},
//!         "bibliography": {"children": [
//!             {"names": {"variable": ["director"], "suffix": ": "}},
//!             {"text": {"variable": "title", "font-style": "italic"}}]},
//!         "locales": ["en-US"]
//!     },
//!     "citation": {"layout": {"prefix": "(", "suffix": ")", "delimiter": "; "}}
//! }"#;
//! let director = Person::new("Lang", "Fritz");
//! let films = [
//!     Film { title: "M", director: director.clone(), year: 1931 },
//!     Film { title: "Metropolis", director, year: 1927 },
//! ];
//!
//! let mut engine = Engine::new()?;
//! let style = engine.style("film", json)?;
//! let mut driver = BibliographyDriver::new();
//! let locator = Some(SpecificLocator::new("timestamp", "1:02"));
//! let items = vec![CitationItem { locator, ..CitationItem::new(1) }];
//! driver.citation(CitationRequest { items, note_number: None });
//! let done = driver.finish(&mut engine, &style, &films)?;
//!
//! assert_eq!(done.citations[0].content.to_string(), "(Lang, 1927, 1:02)");
//! let bibliography = done.bibliography.expect("the style has one");
//! assert_eq!(
//!     bibliography.items[0].content.html,
//!     "Fritz Lang: <span style=\"font-style: italic;\">Metropolis</span>"
//! );
//! # Ok(())
//! # }
//! ```
//!
//! A refusal has its place:
//!
//! ```
//! # fn main() -> Result<(), sulleqti::Error> {
//! let json = r#"{"style": {"citation": {"children": [{"text": {"variable": "titel"}}]}}}"#;
//! let refusal = sulleqti::Engine::new()?.style("film", json).unwrap_err();
//! assert_eq!(
//!     refusal.to_string(),
//!     "/style/citation/children/0/text/variable: no variable has this name: \"titel\" \
//!      (the nearest is \"title\")"
//! );
//! # Ok(())
//! # }
//! ```
#![deny(unsafe_code)]
#![warn(missing_docs)]

mod engine;
mod entry;
mod error;
mod json;
mod names;
mod rendered;
mod request;
mod sys;
mod tree;

pub use engine::{Engine, Style};
pub use entry::{Date, EntryLike, FormatString, Person, Season, StringChunk};
pub use error::Error;
pub use rendered::{
    BibliographyItem, Content, RenderedBibliography, RenderedCitation, RenderedList,
    SecondFieldAlign,
};
pub use request::{
    BibliographyDriver, CitationItem, CitationRequest, CitePurpose, SpecificLocator,
};
pub use tree::{
    Display, Elem, ElemChild, ElemChildren, ElemMeta, FontStyle, FontVariant, FontWeight,
    Formatted, Formatting, TextDecoration, VerticalAlign,
};
