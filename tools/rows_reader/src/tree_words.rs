//! Contents and states in words, as a row wants them: `(text "T")` is the element of a text,
//! `(span font-style=italic "T")` a text in a formatting, `(link url="u" "T")` a link,
//! `(math "x")` markup, `(cite 0)` the place of a cite that the caller fills, and `(elem ..)` an
//! element of no node. In a tree that a row gives, the places of entries and the persons of names
//! are told too. A state is in the words of the `cite` line that begins with it.

use crate::fault::Fault;
use crate::names::Name;
use csl::literature::Person;
use csl::tree::{Elem, ElemChild, ElemChildren, ElemMeta, Formatted, Formatting};
use csl::{LeftState, NameDisambiguationProperties};

/// Appends a word, after a space unless it is the first of a list or of all.
pub fn add_word(words: &mut String, word: &str) -> Result<(), Fault> {
    if !words.is_empty() && !words.as_str().ends_with('(') {
        words.push(' ')?;
    }
    Ok(words.push_str(word)?)
}

/// Appends a text in quotes.
pub fn add_quoted(words: &mut String, text: &str) -> Result<(), Fault> {
    add_word(words, "\"")?;
    words.push_str(text)?;
    Ok(words.push('"')?)
}

fn add_attribute(words: &mut String, name: &str, value: &str) -> Result<(), Fault> {
    add_word(words, name)?;
    words.push('=')?;
    Ok(words.push_str(value)?)
}

/// Appends an attribute whose value is not that of plain text.
fn add_changed<V: Name + Default + PartialEq>(
    words: &mut String,
    name: &str,
    value: V,
) -> Result<(), Fault> {
    if value == V::default() {
        Ok(())
    } else {
        add_attribute(words, name, value.name())
    }
}

/// Appends the attributes of a formatting.
fn add_formatting(words: &mut String, it: Formatting) -> Result<(), Fault> {
    add_changed(words, "font-style", it.font_style)?;
    add_changed(words, "font-variant", it.font_variant)?;
    add_changed(words, "font-weight", it.font_weight)?;
    add_changed(words, "text-decoration", it.text_decoration)?;
    add_changed(words, "vertical-align", it.vertical_align)
}

/// Appends a text, in a span if it has a formatting.
pub fn add_text(words: &mut String, text: &Formatted) -> Result<(), Fault> {
    if text.formatting == Formatting::default() {
        return add_quoted(words, text.text.as_str());
    }
    add_word(words, "(span")?;
    add_formatting(words, text.formatting)?;
    add_quoted(words, text.text.as_str())?;
    Ok(words.push(')')?)
}

fn add_link(words: &mut String, text: &Formatted, url: &str) -> Result<(), Fault> {
    add_word(words, "(link url=\"")?;
    words.push_str(url)?;
    words.push('"')?;
    add_formatting(words, text.formatting)?;
    add_quoted(words, text.text.as_str())?;
    Ok(words.push(')')?)
}

/// The word that the list of an element begins with.
fn head_of(meta: &Option<ElemMeta>) -> &'static str {
    match meta {
        None => "(elem",
        Some(ElemMeta::Date) => "(date",
        Some(ElemMeta::Text) => "(text",
        Some(ElemMeta::Number) => "(number",
        Some(ElemMeta::Label) => "(label",
        Some(ElemMeta::CitationNumber) => "(citation-number",
        Some(ElemMeta::CitationLabel) => "(citation-label",
        Some(ElemMeta::Names(_)) => "(names",
        Some(ElemMeta::Name(_, _)) => "(name",
        Some(ElemMeta::Entry(_)) => "(entry",
    }
}

/// Appends a person, as an entry has it: `"Kwan, Kevin"`.
pub fn add_person(words: &mut String, person: &Person) -> Result<(), Fault> {
    add_word(words, "\"")?;
    words.push_str(person.name.as_str())?;
    if let Some(given) = &person.given_name {
        words.push_str(", ")?;
        words.push_str(given.as_str())?;
    }
    Ok(words.push('"')?)
}

/// Appends what the word of a meta leaves out.
fn add_whole_meta(words: &mut String, meta: &ElemMeta) -> Result<(), Fault> {
    match meta {
        ElemMeta::Entry(place) => write!(words, " {}", *place)?,
        ElemMeta::Names(lists) => {
            for (persons, variable) in lists {
                add_word(words, "(")?;
                words.push_str(variable.name())?;
                for person in persons {
                    add_person(words, person)?;
                }
                words.push(')')?;
            }
        }
        _ => {}
    }
    Ok(())
}

#[cycle(tree)]
fn add_elem(words: &mut String, elem: &Elem, is_whole: bool) -> Result<(), Fault> {
    add_word(words, head_of(&elem.meta))?;
    match &elem.meta {
        Some(ElemMeta::Name(_, place)) => write!(words, " {}", *place)?,
        Some(meta) if is_whole => add_whole_meta(words, meta)?,
        _ => {}
    }
    if let Some(display) = elem.display {
        add_attribute(words, "display", display.name())?;
    }
    add_children(words, &elem.children, is_whole)?;
    Ok(words.push(')')?)
}

/// Appends a content.
pub fn add_tree(words: &mut String, children: &ElemChildren) -> Result<(), Fault> {
    add_children(words, children, false)
}

/// Appends a content. If it `is_whole`, no part of a meta is left out.
#[cycle(tree)]
pub fn add_children(
    words: &mut String,
    children: &ElemChildren,
    is_whole: bool,
) -> Result<(), Fault> {
    for child in &children.0 {
        match child {
            ElemChild::Text(text) => add_text(words, text)?,
            ElemChild::Elem(elem) => add_elem(words, elem, is_whole)?,
            ElemChild::Link { text, url } => add_link(words, text, url.as_str())?,
            ElemChild::Markup(markup) => {
                add_word(words, "(math")?;
                add_quoted(words, markup.as_str())?;
                words.push(')')?;
            }
            ElemChild::Transparent { cite_idx, .. } => {
                add_word(words, "(cite")?;
                write!(words, " {})", *cite_idx)?;
            }
        }
    }
    Ok(())
}

/// Appends an attribute. Its value is in quotes, unless it is one word.
pub fn add_value(words: &mut String, name: &str, value: &str) -> Result<(), Fault> {
    if !value.is_empty() && value.split(' ').nth(1).is_none() {
        return add_attribute(words, name, value);
    }
    begin_words(words, name)?;
    words.push_str(value)?;
    Ok(words.push('"')?)
}

/// Begins an attribute whose value is words in quotes.
fn begin_words(words: &mut String, name: &str) -> Result<(), Fault> {
    add_word(words, name)?;
    Ok(words.push_str("=\"")?)
}

/// Appends a word to the value of such an attribute.
fn add_word_of_value(words: &mut String, word: &str) -> Result<(), Fault> {
    if !words.as_str().ends_with('"') {
        words.push(' ')?;
    }
    Ok(words.push_str(word)?)
}

/// Appends forms of names.
fn add_shown(words: &mut String, names: &NameDisambiguationProperties) -> Result<(), Fault> {
    add_word(words, "(shown")?;
    add_attribute(words, "default", names.default_name_form().name())?;
    begin_words(words, "of")?;
    for variable in names.variables() {
        add_word_of_value(words, variable.name())?;
    }
    words.push('"')?;
    for list in names.name_forms() {
        add_word(words, "(list")?;
        for form in list {
            add_word(words, form.map_or("none", |it| it.name()))?;
        }
        words.push(')')?;
    }
    Ok(words.push(')')?)
}

/// Appends a state, as far as it differs from the initial one.
pub fn add_state(words: &mut String, state: &LeftState) -> Result<(), Fault> {
    if !state.suppressed.is_empty() {
        begin_words(words, "suppressed")?;
        for variable in &state.suppressed {
            add_word_of_value(words, variable.name())?;
        }
        words.push('"')?;
    }
    if state.suppressing {
        add_word(words, "suppressing=true")?;
    }
    if state.first_date_seen {
        add_word(words, "dated=true")?;
    }
    if let Some(names) = &state.first_names {
        add_shown(words, names)?;
    }
    Ok(())
}
