//! Trees that rows give, in the words in which contents are wanted (`tree_words.rs`). The element of
//! an entry has its place, as `(entry 3 "T")`, and that of names has persons, as
//! `(names (author "Kwan, Kevin") "Kwan")`.

use crate::entry::persons;
use crate::fault::Fault;
use crate::form::{Form, Forms};
use crate::nodes::FORMATTING;
use csl::literature::Person;
use csl::style::NameVariable;
use csl::tree::{Elem, ElemChild, ElemChildren, ElemMeta, Formatted, Formatting};

fn formatting(forms: &Forms<'_>) -> Result<Formatting, Fault> {
    Ok(Formatting {
        font_style: forms.choice("font-style")?.unwrap_or_default(),
        font_variant: forms.choice("font-variant")?.unwrap_or_default(),
        font_weight: forms.choice("font-weight")?.unwrap_or_default(),
        text_decoration: forms.choice("text-decoration")?.unwrap_or_default(),
        vertical_align: forms.choice("vertical-align")?.unwrap_or_default(),
    })
}

/// The text of a list, in the formatting of its attributes.
fn formatted(forms: &Forms<'_>, others: &'static str) -> Result<Formatted, Fault> {
    forms.ensure_attributes(&[others, FORMATTING])?;
    let text = String::from_str(forms.alloc, forms.only_text()?)?;
    Ok(formatting(forms)?.add_text(text))
}

/// The persons of each variable of names.
fn persons_by_variable(forms: &Forms<'_>) -> Result<Vec<(Vec<Person>, NameVariable)>, Fault> {
    let mut lists = Vec::new(forms.alloc);
    for form in &forms.items {
        if let Form::List(head, inside) = form {
            if let Some(variable) = NameVariable::from_name(*head) {
                lists.push((persons(inside)?, variable))?;
            }
        }
    }
    Ok(lists)
}

/// The meta of an element, by the word of its list.
pub fn meta(head: &str, forms: &Forms<'_>) -> Result<Option<ElemMeta>, Fault> {
    match head {
        "elem" => Ok(None),
        "date" => Ok(Some(ElemMeta::Date)),
        "text" => Ok(Some(ElemMeta::Text)),
        "number" => Ok(Some(ElemMeta::Number)),
        "label" => Ok(Some(ElemMeta::Label)),
        "citation-number" => Ok(Some(ElemMeta::CitationNumber)),
        "citation-label" => Ok(Some(ElemMeta::CitationLabel)),
        "names" => Ok(Some(ElemMeta::Names(persons_by_variable(forms)?))),
        "entry" => Ok(Some(ElemMeta::Entry(forms.first_number()?))),
        _ => Err(forms.fault("no such part of a tree", head)),
    }
}

/// The child of a list.
#[cycle(given)]
fn child(head: &str, forms: &Forms<'_>) -> Result<ElemChild, Fault> {
    match head {
        "span" => Ok(ElemChild::Text(formatted(forms, "")?)),
        "link" => {
            let url = forms.text("url")?;
            let url = url.ok_or(Fault::Wrong("a link without an address"))?;
            let text = formatted(forms, "url")?;
            Ok(ElemChild::Link { text, url })
        }
        "math" => {
            forms.ensure_attributes(&[])?;
            Ok(ElemChild::Markup(String::from_str(forms.alloc, forms.only_text()?)?))
        }
        "cite" => Ok(ElemChild::Transparent {
            cite_idx: forms.first_number()?,
            format: Formatting::default(),
        }),
        _ => {
            forms.ensure_attributes(&["display"])?;
            let (meta, display) = (meta(head, forms)?, forms.choice("display")?);
            let children = children(forms)?;
            Ok(ElemChild::Elem(Elem {
                children,
                display,
                meta,
            }))
        }
    }
}

/// The children among the forms. A number and the persons of names belong to the element around
/// them.
#[cycle(given)]
fn children(forms: &Forms<'_>) -> Result<ElemChildren, Fault> {
    let mut children = Vec::new(forms.alloc);
    for form in &forms.items {
        match form {
            Form::Text(text) => {
                let text = String::from_str(forms.alloc, *text)?;
                children.push(ElemChild::Text(Formatting::default().add_text(text)))?;
            }
            Form::List(head, _) if NameVariable::from_name(*head).is_some() => {}
            Form::List(head, inside) => children.push(child(*head, inside)?)?,
            Form::Word(word) if word.parse::<usize>().is_err() => {
                return Err(forms.fault("a text is in quotes", *word));
            }
            Form::Word(_) | Form::Attribute(_, _) => {}
        }
    }
    Ok(ElemChildren(children))
}

/// The tree of a line.
pub fn tree(forms: &Forms<'_>) -> Result<ElemChildren, Fault> {
    forms.ensure_attributes(&[])?;
    children(forms)
}
