//! Contents as styles leave them, to see what `finish` does with them.

use csl::style::{Layout, StyleSettings};
use csl::tree::{Elem, ElemChild, Formatting};
use csl::{ElemChildren, Error, Locale, Style};
use csl_finish::finish;
use std::alloc::Global;

/// The texts of some contents, each text the output of one node.
static TEXTS: [&[&str]; 8] = [
    // Initials, an abbreviation and a question before the period of a group.
    &["Kernighan, B. W., & Ritchie, D. M.", ". (1988)."],
    &["2nd ed.. ", " Englewood Cliffs"],
    &["Whose Cities?", ". ", "2014."],
    // An ellipsis and an address stay.
    &["And So On...", " ", "2014."],
    &["See ", "https://example.org/a..b", "."],
    // A comma and a period after quotes, and quotes in quotes.
    &["“Literate Programming”", ", 1992."],
    &["‘“Yes”, she said’", ". ", "1992."],
    &["“Whose Cities?”", ". ", "1992."],
];

/// A link if the text is an address, and else an element.
fn child(alloc: Global, text: &str) -> Result<ElemChild, Error> {
    let formatted = Formatting::default().add_text(String::from_str(alloc, text)?);
    if text.contains("://") {
        let url = String::from_str(alloc, text)?;
        return Ok(ElemChild::Link {
            text: formatted,
            url,
        });
    }
    let children = ElemChildren(vec![in alloc; ElemChild::Text(formatted)]?);
    Ok(ElemChild::Elem(Elem {
        children,
        display: None,
        meta: None,
    }))
}

fn content(alloc: Global, texts: &[&str]) -> Result<ElemChildren, Error> {
    let mut children = Vec::new(alloc);
    for text in texts {
        children.push(child(alloc, *text)?)?;
    }
    Ok(ElemChildren(children))
}

/// A text, an address that is a link, and a period.
pub fn with_address(alloc: Global, address: &'static str) -> Result<ElemChildren, Error> {
    content(alloc, &["See ", address, "."])
}

/// A style whose locale leaves commas and periods outside of quotes.
///
/// # Errors
/// [`Error::Memory`]: out of memory.
/// [`Error::Style`]: the style is rejected.
pub fn outside_style(alloc: Global) -> Result<Style, Error> {
    let locales = vec![in alloc; Locale::new(alloc)]?;
    let citation = Layout::new(Vec::new(alloc));
    let settings = StyleSettings::default();
    Ok(Style::new(alloc, settings, Vec::new(alloc), citation, None, locales)?)
}

/// The contents, finished by the rules of a style.
pub fn finished(alloc: Global, style: &Style) -> Result<Vec<ElemChildren>, Error> {
    let mut contents = Vec::new(alloc);
    for texts in &TEXTS {
        let mut content = content(alloc, *texts)?;
        finish(alloc, style, &mut content)?;
        contents.push(content)?;
    }
    Ok(contents)
}
