//! The style, the entry and the cite of these tests.

use crate::shared::{alone, chunks};
use csl_context::{Context, LeftState, Rendered};
use csl_entry::{CiteProperties, DisambiguateState, InstanceContext, Sorting, SpecialForm};
use csl_languages::Language;
use csl_laws::table::Table;
use csl_style::{
    Affixes, DateVariable, Formatting, GrammarGender, InheritableNameOptions, Layout, NameVariable,
    NumberVariable, PageVariable, Scope, StandardVariable, Style, StyleSettings, Term,
};
use csl_tree::BufWriteFormat;
use lit_model::{Date, FormatString, MaybeTyped, Numeric, PageRanges, Person};
use std::alloc::Global;
use std::process::Abort;
use std::test::Fail;

/// What contexts borrow. The affixes are `(` and a comma with a space.
#[derive(Drop)]
pub(crate) struct Setup {
    alloc: Global,
    pub(crate) style: Style,
    film: Table,
    cite: CiteProperties<'static>,
    pub(crate) affixes: Affixes,
}

impl Setup {
    pub(crate) fn new(rt: &impl Abort, alloc: Global) -> Result<Setup, Fail> {
        Ok(Setup {
            alloc,
            style: style(rt, alloc)?,
            film: film(rt, alloc)?,
            cite: CiteProperties::first(DisambiguateState::Choose),
            affixes: Affixes::around(alloc, "(", ", ")?,
        })
    }

    /// The cite, to be sorted by a macro, and without its author.
    pub(crate) fn instance(&self) -> InstanceContext<'_, Table> {
        InstanceContext {
            entry: &self.film,
            cite_props: &self.cite,
            sorting: Some(Sorting::Macro),
            kind: Some(SpecialForm::SuppressAuthor),
        }
    }

    /// A new context.
    pub(crate) fn context(&self) -> Result<Context<'_, Table>, Fail> {
        let cite = self.instance();
        Ok(Context::new(self.alloc, &self.style, cite, Scope::Citation)?)
    }

    /// A context that resumes from what another one left.
    pub(crate) fn resumed(&self, left: &LeftState) -> Result<Context<'_, Table>, Fail> {
        let (cite, scope) = (self.instance(), Scope::Citation);
        Ok(Context::resume(self.alloc, &self.style, cite, scope, left)?)
    }

    /// The rendering of a new context, to which a text was added if there is one.
    pub(crate) fn rendered(&self, text: &str) -> Result<Rendered, Fail> {
        let mut ctx = self.context()?;
        ctx.push_str(text)?;
        Ok(ctx.finish()?)
    }
}

/// Options of names with this delimiter.
fn delimited(alloc: Global, delimiter: &str) -> Result<InheritableNameOptions, Fail> {
    Ok(InheritableNameOptions {
        delimiter: Some(String::from_str(alloc, delimiter)?),
        ..InheritableNameOptions::default()
    })
}

/// A style in English that prints nothing. Pages are feminine. The delimiter of names is `n`, in the
/// citation `c`, in the bibliography `b`.
fn style(rt: &impl Abort, alloc: Global) -> Result<Style, Fail> {
    let mut english = Language::English.locale(alloc)?;
    for term in &mut english.terms {
        if term.term == Term::Page(PageVariable::Page) {
            term.gender = Some(GrammarGender::Feminine);
        }
    }
    let settings = StyleSettings {
        names: delimited(alloc, "n")?,
        citation_names: delimited(alloc, "c")?,
        bibliography_names: delimited(alloc, "b")?,
        ..StyleSettings::default()
    };
    let (macros, citation) = (Vec::new(alloc), Layout::new(Vec::new(alloc)));
    let locales = alone(rt, alloc, english);
    Ok(Style::new(alloc, settings, macros, citation, None, locales)?)
}

/// Volume 20, page 7, a title in three pieces, the director Lang, the year 1927.
fn film(rt: &impl Abort, alloc: Global) -> Result<Table, Fail> {
    let title = FormatString {
        value: chunks(rt, alloc, "a.+`b.+$c."),
        short: None,
    };
    let volume = MaybeTyped::Typed(Numeric::new(20));
    let lang = alone(rt, alloc, Person::institution(alloc, "Lang")?);
    Ok(Table {
        numbers: alone(rt, alloc, (NumberVariable::Volume, volume)),
        pages: Some(MaybeTyped::Typed(PageRanges::parse(alloc, "7")?)),
        texts: alone(rt, alloc, (StandardVariable::Title, title)),
        names: alone(rt, alloc, (NameVariable::Director, lang)),
        dates: alone(rt, alloc, (DateVariable::Issued, Date::of_year(1927))),
        kinds: Vec::new(alloc),
    })
}

/// Italics alone.
pub(crate) fn italic() -> Formatting {
    Formatting::italic()
}

/// Asserts the HTML of a context, which it ends.
pub(crate) fn assert_html(
    rt: &impl Abort,
    alloc: Global,
    ctx: Context<'_, Table>,
    wanted: &str,
) -> Result<(), Fail> {
    let html = ctx.finish()?.content.to_text(alloc, BufWriteFormat::Html)?;
    assert_eq!(rt; html.as_str(), wanted);
    Ok(())
}
