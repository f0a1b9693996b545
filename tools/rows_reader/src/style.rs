//! Styles: settings, macros, the terms, ordinals and dates of the locale, and layouts. A `(locale ..)`
//! is a further locale, after that one. A row's `layout` line is none of the style's own layouts,
//! which are `(citation ..)` and `(bibliography ..)`. What a driver does, `(around ..)` and
//! `(sort ..)`, changes no row.

use crate::driver::ensure_driver;
use crate::fault::Fault;
use crate::form::{Form, Forms};
use crate::name_nodes::{NAME_OPTIONS, name_options};
use crate::nodes::{FORMATTING, date, layout, macro_of};
use csl::style::{
    DemoteNonDroppingParticle, InheritableNameOptions, Layout, OrdinalSlot, OrdinalTerm,
    StyleSettings, TermEntry, TermForm,
};
use csl::{Language, Locale, Style};

/// The parts of a term: its name, and its texts in the singular and in the plural.
type TermParts<'t> = (&'t str, &'t str, Option<&'t str>);

fn term_parts<'t>(forms: &Forms<'t>) -> Result<TermParts<'t>, Fault> {
    let parts = forms
        .items
        .iter()
        .filter(|it| !matches!(it, Form::Attribute(_, _)));
    let parts: Vec<&Form<'t>> = parts.collect(forms.alloc)?;
    match parts.as_slice() {
        [Form::Word(name) | Form::Text(name), Form::Text(single)] => Ok((*name, *single, None)),
        [
            Form::Word(name) | Form::Text(name),
            Form::Text(single),
            Form::Text(multiple),
        ] => Ok((*name, *single, Some(*multiple))),
        _ => Err(Fault::Wrong("a term is a name and one or two texts")),
    }
}

fn term_entry(
    forms: &Forms<'_>,
    (name, single, multiple): TermParts<'_>,
) -> Result<TermEntry, Fault> {
    forms.ensure_attributes(&["form gender"])?;
    let term = forms.named(name)?;
    let form = forms.choice("form")?.unwrap_or(TermForm::Long);
    let mut entry = match multiple {
        Some(multiple) => TermEntry::counted(forms.alloc, term, form, single, multiple)?,
        None => TermEntry::new(forms.alloc, term, form, single)?,
    };
    entry.gender = forms.choice("gender")?;
    Ok(entry)
}

/// The numbers of an ordinal, if a term is one: `ordinal`, `ordinal-02` or `long-ordinal-02`.
fn ordinal_slot(name: &str) -> Option<OrdinalSlot> {
    if name == "ordinal" {
        return Some(OrdinalSlot::Default);
    }
    if let Some(number) = name.strip_prefix("ordinal-") {
        return number.parse::<u8>().ok().map(OrdinalSlot::Two);
    }
    match name.strip_prefix("long-ordinal-") {
        Some(number) => number.parse::<u8>().ok().map(OrdinalSlot::Long),
        None => None,
    }
}

fn ordinal(forms: &Forms<'_>, text: &str, slot: OrdinalSlot) -> Result<OrdinalTerm, Fault> {
    forms.ensure_attributes(&["gender-form match"])?;
    Ok(OrdinalTerm {
        slot,
        matching: forms.choice("match")?,
        gender: forms.choice("gender-form")?,
        text: String::from_str(forms.alloc, text)?,
    })
}

/// The attributes of a locale.
const LOCALE: &str = "punctuation-in-quote limit-day-ordinals-to-day-1";

/// The locale of the language that the style names, if it names one.
fn default_locale(forms: &Forms<'_>) -> Result<Option<Locale>, Fault> {
    let Some(tag) = forms.value("default-locale") else {
        return Ok(None);
    };
    match Language::from_tag(tag) {
        Some(language) => Ok(Some(language.locale(forms.alloc)?)),
        None => Err(forms.fault("no such locale", tag)),
    }
}

/// The locale among the forms. An option that they do not set is that of the locale after it, if
/// there is one.
fn locale(forms: &Forms<'_>, after: Option<&Locale>) -> Result<Locale, Fault> {
    let mut locale = Locale::new(forms.alloc);
    if let Some(after) = after {
        locale.punctuation_in_quote = after.punctuation_in_quote;
        locale.limit_day_ordinals_to_day_1 = after.limit_day_ordinals_to_day_1;
    }
    if let Some(inside) = forms.boolean("punctuation-in-quote")? {
        locale.punctuation_in_quote = inside;
    }
    if let Some(limited) = forms.boolean("limit-day-ordinals-to-day-1")? {
        locale.limit_day_ordinals_to_day_1 = limited;
    }
    for form in &forms.items {
        match form {
            Form::List("term", inside) => {
                let parts = term_parts(inside)?;
                match ordinal_slot(parts.0) {
                    Some(slot) => locale.ordinals.push(ordinal(inside, parts.1, slot)?)?,
                    None => locale.terms.push(term_entry(inside, parts)?)?,
                }
            }
            Form::List("date", inside) => locale.dates.push(date(inside)?)?,
            _ => {}
        }
    }
    Ok(locale)
}

/// Whether a locale says nothing.
fn is_silent(locale: &Locale) -> bool {
    locale.terms.is_empty()
        && locale.ordinals.is_empty()
        && locale.dates.is_empty()
        && !locale.punctuation_in_quote
        && !locale.limit_day_ordinals_to_day_1
}

/// The locales: that of the style's own forms, each `(locale ..)`, and that of the language that the
/// style names. There are none if the style says nothing of them.
fn locales(forms: &Forms<'_>) -> Result<Vec<Locale>, Fault> {
    let language = default_locale(forms)?;
    let mut locales = Vec::new(forms.alloc);
    let own = locale(forms, language.as_ref())?;
    if !is_silent(&own) || language.is_some() || forms.list("locale").is_some() {
        locales.push(own)?;
    }
    for form in &forms.items {
        if let Form::List("locale", inside) = form {
            inside.ensure_attributes(&[LOCALE])?;
            inside.ensure_lists("term date")?;
            locales.push(locale(inside, None)?)?;
        }
    }
    if let Some(language) = language {
        locales.push(language)?;
    }
    Ok(locales)
}

/// The options of names of a layout of the style, if it has that layout.
fn layout_options(layout: Option<&Forms<'_>>) -> Result<InheritableNameOptions, Fault> {
    match layout {
        Some(forms) => name_options(forms, "name-form", "name-delimiter"),
        None => Ok(InheritableNameOptions::default()),
    }
}

fn settings(forms: &Forms<'_>) -> Result<StyleSettings, Fault> {
    let demotion: Option<DemoteNonDroppingParticle> = forms.choice("demote-non-dropping-particle")?;
    Ok(StyleSettings {
        page_range_format: forms.choice("page-range-format")?,
        demote_non_dropping_particle: demotion.unwrap_or_default(),
        initialize_with_hyphen: forms.boolean("initialize-with-hyphen")? != Some(false),
        names: name_options(forms, "name-form", "name-delimiter")?,
        citation_names: layout_options(forms.list("citation"))?,
        bibliography_names: layout_options(forms.list("bibliography"))?,
    })
}

/// The layout of the style with this word, if it has one.
fn layout_of(forms: &Forms<'_>, head: &str) -> Result<Option<Layout>, Fault> {
    match forms.list(head) {
        Some(inside) => {
            let own = "delimiter name-form name-delimiter";
            inside.ensure_attributes(&[own, NAME_OPTIONS, FORMATTING])?;
            Ok(Some(layout(inside)?))
        }
        None => Ok(None),
    }
}

/// Fails if a form is no part of a style.
fn ensure_parts(forms: &Forms<'_>) -> Result<(), Fault> {
    let own = "page-range-format demote-non-dropping-particle initialize-with-hyphen \
        default-locale name-form name-delimiter";
    forms.ensure_attributes(&[own, LOCALE, NAME_OPTIONS])?;
    forms.ensure_lists("macro term date locale citation bibliography around sort")?;
    ensure_driver(forms)
}

/// The style of these forms.
pub fn style(forms: &Forms<'_>) -> Result<Style, Fault> {
    ensure_parts(forms)?;
    let mut macros = Vec::new(forms.alloc);
    for form in &forms.items {
        if let Form::List("macro", inside) = form {
            macros.push(macro_of(inside)?)?;
        }
    }
    let bibliography = layout_of(forms, "bibliography")?;
    let citation = match layout_of(forms, "citation")? {
        Some(citation) => citation,
        None => Layout::new(Vec::new(forms.alloc)),
    };
    let (settings, locales) = (settings(forms)?, locales(forms)?);
    Ok(Style::new(
        forms.alloc,
        settings,
        macros,
        citation,
        bibliography,
        locales,
    )?)
}
