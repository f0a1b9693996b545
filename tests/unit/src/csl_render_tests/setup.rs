//! The style, the book and the cite of these tests.

use crate::shared::{alone, put};
use csl_context::Context;
use csl_entry::{CiteProperties, DisambiguateState, InstanceContext};
use csl_languages::Language;
use csl_nodes::UsageInfo;
use csl_style::{
    Layout, LayoutRenderingElement, Scope, StandardVariable, Style, StyleSettings, Text, Variable,
};
use csl_tree::BufWriteFormat;
use lit_model::{Date, Entry, EntryType, MaybeTyped, Numeric, Person};
use std::alloc::Global;
use std::process::Abort;
use std::test::Fail;

pub(crate) const TITLE: Variable = Variable::Standard(StandardVariable::Title);

/// What contexts borrow.
#[derive(Drop)]
pub(crate) struct Setup {
    alloc: Global,
    pub(crate) style: Style,
    pub(crate) book: Entry,
    first: CiteProperties<'static>,
}

/// The title of the entry.
pub(crate) fn title_nodes(rt: &impl Abort, alloc: Global) -> Vec<LayoutRenderingElement> {
    alone(rt, alloc, Text::variable(TITLE).into())
}

impl Setup {
    /// A style in English, and volume 20 of a book of May 1961 by two authors.
    pub(crate) fn new(rt: &impl Abort, alloc: Global) -> Result<Setup, Fail> {
        let locales = alone(rt, alloc, Language::English.locale(alloc)?);
        let (macros, citation) = (Vec::new(alloc), Layout::new(title_nodes(rt, alloc)));
        let settings = StyleSettings::default();
        let mut authors = alone(rt, alloc, Person::new(alloc, "Gross", "E. P.")?);
        put(rt, &mut authors, Person::institution(alloc, "CERN")?);
        let date = Date::new(1961, Some(4), None, None, false).expect(rt, "a month");
        Ok(Setup {
            alloc,
            style: Style::new(alloc, settings, macros, citation, None, locales)?,
            book: Entry::titled(alloc, "key", EntryType::Book, "Vortex")?
                .with_authors(authors)
                .with_date(date)
                .with_volume(MaybeTyped::Typed(Numeric::new(20))),
            first: CiteProperties::first(DisambiguateState::None),
        })
    }

    /// The context of a first cite.
    pub(crate) fn context(&self) -> Result<Context<'_, Entry>, Fail> {
        let cite = InstanceContext {
            entry: &self.book,
            cite_props: &self.first,
            sorting: None,
            kind: None,
        };
        Ok(Context::new(self.alloc, &self.style, cite, Scope::Citation)?)
    }
}

/// Whether a node prints, calls a variable, and calls one that has an answer.
pub(crate) fn flags((prints, usage): (bool, UsageInfo)) -> [bool; 3] {
    [prints, usage.has_vars, usage.has_non_empty_vars]
}

/// Asserts the HTML of a context, which it ends.
pub(crate) fn assert_html(
    rt: &impl Abort,
    alloc: Global,
    ctx: Context<'_, Entry>,
    wanted: &str,
) -> Result<(), Fail> {
    let html = ctx.finish()?.content.to_text(alloc, BufWriteFormat::Html)?;
    assert_eq!(rt; html.as_str(), wanted);
    Ok(())
}
