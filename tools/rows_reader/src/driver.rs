//! What a style asks of a driver: texts around cites and works, what is told apart and collapsed, and
//! how the list looks, as `(around citation prefix="(" delimiter="; " suffix=")")`, and keys to sort
//! by, as `(sort bibliography (key macro=author) (key issued sort=descending))`.

use crate::fault::Fault;
use crate::form::{Form, Forms};
use crate::names::Named;
use csl::Style;
use csl::style::Scope;
use csl_list::{
    AuthorSubstitute, BibliographyOptions, CitationOptions, GivenNameRule, KeySource, ListStyle,
    SortKey, SubstituteRule,
};
use std::alloc::Global;

/// The options of a citation, in CSL's names.
const CITATION: &str = "prefix suffix delimiter class near-note-distance \
    disambiguate-add-names disambiguate-add-givenname givenname-disambiguation-rule \
    disambiguate-add-year-suffix collapse cite-group-delimiter year-suffix-delimiter \
    after-collapse-delimiter";

/// The options of a bibliography, in CSL's names.
const BIBLIOGRAPHY: &str = "prefix suffix delimiter hanging-indent second-field-align \
    entry-spacing line-spacing subsequent-author-substitute subsequent-author-substitute-rule";

/// The key of a list: `(key macro=author)` or `(key issued)`.
fn key(forms: &Forms<'_>) -> Result<SortKey, Fault> {
    forms.ensure_attributes(&["macro sort"])?;
    let is_descending = match forms.value("sort") {
        None | Some("ascending") => false,
        Some("descending") => true,
        Some(word) => return Err(forms.fault("neither ascending nor descending", word)),
    };
    let source = match forms.text("macro")? {
        Some(name) => {
            forms.ensure_lists("")?;
            KeySource::Macro(name)
        }
        None => KeySource::Variable(forms.named(forms.only_word()?)?),
    };
    Ok(SortKey {
        source,
        is_descending,
    })
}

/// The word that names a layout.
fn word_of(scope: Scope) -> &'static str {
    match scope {
        Scope::Citation => "citation",
        Scope::Bibliography => "bibliography",
    }
}

/// The list with this word of a layout, if the style has one.
fn list_of<'f, 't>(forms: &'f Forms<'t>, head: &str, scope: Scope) -> Option<&'f Forms<'t>> {
    for form in &forms.items {
        if let Form::List(own, inside) = form {
            let is_of_layout =
                matches!(inside.items.first(), Some(Form::Word(word)) if *word == word_of(scope));
            if *own == head && is_of_layout {
                return Some(inside);
            }
        }
    }
    None
}

/// The keys of a layout, in their order.
fn keys(forms: &Forms<'_>, scope: Scope) -> Result<Vec<SortKey>, Fault> {
    let mut keys = Vec::new(forms.alloc);
    if let Some(inside) = list_of(forms, "sort", scope) {
        for form in inside.items.iter().skip(1) {
            match form {
                Form::List("key", own) => keys.push(key(own)?)?,
                Form::Word(word)
                | Form::Text(word)
                | Form::Attribute(word, _)
                | Form::List(word, _) => return Err(forms.fault("not a key", *word)),
            }
        }
    }
    Ok(keys)
}

/// A text of these forms, or an empty one.
fn text_of(forms: &Forms<'_>, name: &str) -> Result<String, Fault> {
    Ok(forms.text(name)?.unwrap_or(String::new(forms.alloc)))
}

/// The options of citations, of the forms of a style.
fn citation_options(forms: &Forms<'_>) -> Result<CitationOptions, Fault> {
    let mut options = CitationOptions::new(forms.alloc);
    options.keys = keys(forms, Scope::Citation)?;
    if let Some(own) = list_of(forms, "around", Scope::Citation) {
        own.ensure_attributes(&[CITATION])?;
        options.prefix = text_of(own, "prefix")?;
        options.suffix = text_of(own, "suffix")?;
        options.delimiter = text_of(own, "delimiter")?;
        options.collapse = own.choice("collapse")?;
        options.cite_group_delimiter = own.text("cite-group-delimiter")?;
        options.year_suffix_delimiter = own.text("year-suffix-delimiter")?;
        options.after_collapse_delimiter = own.text("after-collapse-delimiter")?;
        let distance = own.number("near-note-distance")?;
        options.near_note_distance = distance.unwrap_or(options.near_note_distance);
        options.adds_names = own.is_true("disambiguate-add-names")?;
        options.adds_given_names = own.is_true("disambiguate-add-givenname")?;
        let rule: Option<GivenNameRule> = own.choice("givenname-disambiguation-rule")?;
        options.given_name_rule = rule.unwrap_or(options.given_name_rule);
        options.adds_year_suffix = own.is_true("disambiguate-add-year-suffix")?;
        options.begins_with_capital = own.value("class") == Some("note");
    }
    Ok(options)
}

/// The text for names that the work before has too, if the style has one.
fn author_substitute(forms: &Forms<'_>) -> Result<Option<AuthorSubstitute>, Fault> {
    let rule: Option<SubstituteRule> = forms.choice("subsequent-author-substitute-rule")?;
    let rule = rule.unwrap_or(SubstituteRule::CompleteAll);
    let text = forms.text("subsequent-author-substitute")?;
    Ok(text.map(|text| AuthorSubstitute { text, rule }))
}

/// The options of the bibliography, of the forms of a style.
fn bibliography_options(forms: &Forms<'_>) -> Result<BibliographyOptions, Fault> {
    let mut options = BibliographyOptions::new(forms.alloc);
    options.keys = keys(forms, Scope::Bibliography)?;
    if let Some(own) = list_of(forms, "around", Scope::Bibliography) {
        own.ensure_attributes(&[BIBLIOGRAPHY])?;
        options.prefix = text_of(own, "prefix")?;
        options.suffix = text_of(own, "suffix")?;
        options.hanging_indent = own.is_true("hanging-indent")?;
        options.second_field_align = own.choice("second-field-align")?;
        options.line_spacing = own.number("line-spacing")?.unwrap_or(options.line_spacing);
        options.entry_spacing = own
            .number("entry-spacing")?
            .unwrap_or(options.entry_spacing);
        options.author_substitute = author_substitute(own)?;
    }
    Ok(options)
}

/// The style of these forms with the options that they have.
pub fn list_style(forms: &Forms<'_>, style: Style) -> Result<ListStyle, Fault> {
    let (citation, bibliography) = (citation_options(forms)?, bibliography_options(forms)?);
    let is_english = forms
        .value("default-locale")
        .unwrap_or("en")
        .starts_with("en");
    let style = ListStyle::new(forms.alloc, style, citation, Some(bibliography))?;
    Ok(style.with_english(is_english))
}

/// Fails unless the first of the forms is the word of a layout, and the only one.
fn ensure_layout(forms: &Forms<'_>) -> Result<(), Fault> {
    match forms.items.first() {
        Some(Form::Word(word)) if Scope::from_name(*word).is_some() => Ok(()),
        _ => Err(Fault::Wrong("citation or bibliography goes here")),
    }
}

/// Fails if what a driver does is not as it should be.
pub fn ensure_driver(forms: &Forms<'_>) -> Result<(), Fault> {
    for form in &forms.items {
        match form {
            Form::List("around", inside) => {
                ensure_layout(inside)?;
                let _layout = inside.only_word()?;
            }
            Form::List("sort", inside) => {
                ensure_layout(inside)?;
                inside.ensure_attributes(&[])?;
            }
            _ => {}
        }
    }
    drop(citation_options(forms)?);
    drop(bibliography_options(forms)?);
    Ok(())
}
