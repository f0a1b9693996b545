//! Cites in author-date styles and by a full reference.

use crate::bench::literature::authors;
use crate::bench::render::text_size;
use crate::error::WorkError;
use csl::Locale;
use csl::style::{
    Affixes, CslMacro, Date, DatePart, DatePartName, DateVariable, Group, InheritableNameOptions,
    Layout, LayoutRenderingElement, Name, NameAnd, NameForm, NameVariable, Names, OtherTerm, Style,
    StyleSettings, Term, TermEntry, TermForm,
};
use csl_samples::{BuiltIn, BuiltInStyle};
use std::alloc::Global;

/// Cites an article of a journal, by `size` authors, and counts the bytes of the plain text.
fn cite_size(alloc: Global, style: &Style, size: usize) -> Result<usize, WorkError> {
    let mut article = BuiltIn::QuantizedVortex.entry(alloc)?;
    article.authors = Some(authors(alloc, size)?);
    text_size(alloc, style, &article)
}

/// Cites an article of `size` authors by their family names and the year.
pub fn cite(alloc: Global, size: usize) -> Result<usize, WorkError> {
    cite_size(alloc, &BuiltInStyle::AuthorDate.style(alloc)?, size)
}

/// Cites an article of `size` authors by a full reference.
pub fn reference(alloc: Global, size: usize) -> Result<usize, WorkError> {
    cite_size(alloc, &BuiltInStyle::Reference.style(alloc)?, size)
}

/// A term that no layout here uses.
fn unused_term(alloc: Global) -> Result<TermEntry, WorkError> {
    let term = Term::Other(OtherTerm::Accessed);
    Ok(TermEntry::new(alloc, term, TermForm::Long, "accessed")?)
}

/// A copy of a term.
fn copied_term(entry: &TermEntry) -> Result<TermEntry, WorkError> {
    let multiple = match &entry.multiple {
        Some(several) => Some(several.clone()?),
        None => None,
    };
    Ok(TermEntry {
        term: entry.term,
        form: entry.form,
        single: entry.single.clone()?,
        multiple,
        gender: entry.gender,
    })
}

/// Appends copies of the terms of a locale.
fn add_terms(terms: &mut Vec<TermEntry>, locale: &Locale) -> Result<(), WorkError> {
    for entry in &locale.terms {
        terms.push(copied_term(entry)?)?;
    }
    Ok(())
}

/// A locale without ordinals: `size` unused terms, then the English terms of the built-in styles.
fn english_after(alloc: Global, size: usize) -> Result<Locale, WorkError> {
    let mut terms = Vec::new(alloc);
    for _ in 0..size {
        terms.push(unused_term(alloc)?)?;
    }
    let built_in = BuiltInStyle::AuthorDate.style(alloc)?;
    if let [english] = built_in.locales() {
        add_terms(&mut terms, english)?;
    }
    Ok(Locale {
        terms,
        punctuation_in_quote: true,
        ..Locale::new(alloc)
    })
}

/// A style of these macros and of a citation layout of one node. Its English locale begins with
/// `size` unused terms.
pub fn in_english(
    alloc: Global,
    macros: Vec<CslMacro>,
    node: LayoutRenderingElement,
    size: usize,
) -> Result<Style, WorkError> {
    let citation = Layout::new(vec![in alloc; node]?);
    let locales = vec![in alloc; english_after(alloc, size)?]?;
    let settings = StyleSettings::default();
    Ok(Style::new(alloc, settings, macros, citation, None, locales)?)
}

/// The options that write the word `and` before the last name.
pub fn joined_by_and() -> InheritableNameOptions {
    InheritableNameOptions {
        and: Some(NameAnd::Text),
        ..InheritableNameOptions::default()
    }
}

/// The year of a date.
pub fn year(alloc: Global, variable: DateVariable) -> Result<LayoutRenderingElement, WorkError> {
    let parts = vec![in alloc; DatePart::new(DatePartName::Year)]?;
    Ok(Date::new(variable, parts).into())
}

/// The authors' family names and the year, as in the built-in style `author-date`.
fn author_date(alloc: Global) -> Result<LayoutRenderingElement, WorkError> {
    let options = InheritableNameOptions {
        form: Some(NameForm::Short),
        ..joined_by_and()
    };
    let name = Name {
        options,
        ..Name::new(alloc)
    };
    let variables = vec![in alloc; NameVariable::Author]?;
    let authors = Names {
        children: vec![in alloc; name.into()]?,
        ..Names::new(alloc, variables)
    };
    let children = vec![in alloc; authors.into(), year(alloc, DateVariable::Issued)?]?;
    let group = Group {
        affixes: Affixes::around(alloc, "(", ")")?,
        ..Group::delimited(alloc, ", ", children)?
    };
    Ok(group.into())
}

/// Cites an article of one author by the family name and the year, in English after `size` unused
/// terms, and counts the bytes of the plain text.
pub fn terms(alloc: Global, size: usize) -> Result<usize, WorkError> {
    let style = in_english(alloc, Vec::new(alloc), author_date(alloc)?, size)?;
    cite_size(alloc, &style, 1)
}
