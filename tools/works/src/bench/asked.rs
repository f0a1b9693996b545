//! Strangers' styles that ask for long answers many times and print none of them.

use crate::bench::entry::article;
use crate::bench::literature::{page_ranges, repetition};
use crate::bench::render::text_size;
use crate::bench::strangers::{allowed, repeated};
use crate::error::WorkError;
use crate::nodes::letter;
use csl::literature::MaybeTyped;
use csl::style::{
    Choose, ChooseBranch, Group, Label, Layout, LayoutRenderingElement, Locale,
    NumberOrPageVariable, NumberVariable, PageVariable, StyleSettings, Term, TermEntry, TermForm,
};
use csl::{Entry, Style};
use std::alloc::Global;

/// How many questions a layout has room for.
const QUESTIONS: usize = 1_923;

/// A locale with the short terms of pages and of printings.
fn locale(alloc: Global) -> Result<Locale, WorkError> {
    let (pages, printing) = (PageVariable::Page, NumberVariable::PrintingNumber);
    let mut locale = Locale::new(alloc);
    for (term, one, many) in [
        (Term::Page(pages), "p.", "pp."),
        (Term::Number(printing), "pr.", "prs."),
    ] {
        let entry = TermEntry::counted(alloc, term, TermForm::Short, one, many)?;
        locale.terms.push(entry)?;
    }
    Ok(locale)
}

/// The bytes of the text of a cite by these nodes, in a group. The style is within the limits of a
/// stranger's.
fn size_of_cite(
    alloc: Global,
    nodes: Vec<LayoutRenderingElement>,
    entry: &Entry,
) -> Result<usize, WorkError> {
    let citation = Layout::new(vec![in alloc; Group::new(nodes).into()]?);
    let (settings, macros) = (StyleSettings::default(), Vec::new(alloc));
    let locales = vec![in alloc; locale(alloc)?]?;
    let style = Style::new(alloc, settings, macros, citation, None, locales)?;
    if allowed(alloc, &style)? == 0 {
        return Err(WorkError::Unexpected("above the limits"));
    }
    text_size(alloc, &style, entry)
}

/// An article with `size` page ranges.
fn article_of_ranges(alloc: Global, size: usize) -> Result<Entry, WorkError> {
    let mut article = article(alloc, 1)?;
    article.page_range = Some(MaybeTyped::Typed(page_ranges(alloc, size)?));
    Ok(article)
}

/// Renders labels of pages.
pub fn labels_of_ranges(alloc: Global, size: usize) -> Result<usize, WorkError> {
    let pages = NumberOrPageVariable::Page(PageVariable::Page);
    let labels = repeated(alloc, QUESTIONS, || Ok(Label::short(pages).into()))?;
    size_of_cite(alloc, labels, &article_of_ranges(alloc, size)?)
}

/// Renders labels of the number of a printing, a text of some `size` bytes, which each label
/// reads anew.
pub fn labels_of_serials(alloc: Global, size: usize) -> Result<usize, WorkError> {
    let printing = NumberOrPageVariable::Number(NumberVariable::PrintingNumber);
    let labels = repeated(alloc, QUESTIONS, || Ok(Label::short(printing).into()))?;
    let mut article = article(alloc, 1)?;
    let text = repetition(alloc, "1, ", size / 3, "2")?;
    article.set_keyed_serial_number(alloc, "printing", text.as_str())?;
    size_of_cite(alloc, labels, &article)
}

/// Renders a letter if the pages are numeric, by the same test many times.
pub fn tests_of_ranges(alloc: Global, size: usize) -> Result<usize, WorkError> {
    let mut tests = Vec::new(alloc);
    for _ in 0..QUESTIONS {
        tests.push(PageVariable::Page.into())?;
    }
    let branch = ChooseBranch {
        is_numeric: Some(tests),
        ..ChooseBranch::new(letter(alloc)?)
    };
    let choose = vec![in alloc; Choose::new(alloc, branch).into()]?;
    size_of_cite(alloc, choose, &article_of_ranges(alloc, size)?)
}
