//! The terms that a layout asks for and that no locale has, in words: `author, in short, locator:act`.

use crate::fault::Fault;
use csl::Style;
use csl::style::{Layout, Term, TermForm};
use std::alloc::Global;

/// The word for a form, unless it is the long one.
fn form_word(form: TermForm) -> &'static str {
    match form {
        TermForm::Long => "",
        TermForm::Short => " short",
        TermForm::Verb => " verb",
        TermForm::VerbShort => " verb-short",
        TermForm::Symbol => " symbol",
    }
}

fn add_term(words: &mut String, term: Term, form: TermForm) -> Result<(), Fault> {
    if let Term::Locator(_) = term {
        words.push_str("locator:")?;
    }
    words.push_str(term.name().unwrap_or("?"))?;
    Ok(words.push_str(form_word(form))?)
}

/// Appends the first missing term of a layout, if there is one.
pub fn add_first_missing(words: &mut String, style: &Style, layout: &Layout) -> Result<(), Fault> {
    match style.missing_term(layout) {
        Some((term, form)) => add_term(words, term, form),
        None => Ok(()),
    }
}

/// Appends the missing terms of a layout. The style has to tell the first of them alone, too.
pub fn add_missing(
    words: &mut String,
    alloc: Global,
    style: &Style,
    layout: &Layout,
) -> Result<(), Fault> {
    let mut first = None;
    for (term, form) in &style.missing_terms(alloc, layout)? {
        if words.is_empty() {
            first = Some((*term, *form));
        } else {
            words.push_str(", ")?;
        }
        add_term(words, *term, *form)?;
    }
    if style.missing_term(layout) != first {
        words.push_str(", but first: ")?;
        add_first_missing(words, style, layout)?;
    }
    Ok(())
}
