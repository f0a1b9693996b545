//! What is read of a text of JSON, and why it is refused, as texts.

use crate::described::Description;
use crate::wire::{json, told};
use csl::{BufWriteFormat, ElemChildren};
use csl_entry::SpecificLocator;
use csl_list::{
    BibliographyOptions, CitationItem, CitationOptions, GivenNameRule, KeySource, ListStyle,
    SortKey,
};
use csl_wire_list::{
    DocumentLimits, OptionLimits, WireDocument, bibliography_options_of, citation_options_of,
    document_of, list_style_of,
};
use std::alloc::Global;
use std::process::Abort;

/// Appends a name and a text that is not empty.
fn set_text<R: Abort>(out: &mut Description<'_, R>, name: &str, text: &str) {
    out.set(name, Some(text).filter(|text| !text.is_empty()));
}

/// Appends keys: the name of a macro, or a variable, and `-` before one that sorts downwards.
fn keys<R: Abort>(out: &mut Description<'_, R>, keys: &[SortKey]) {
    for key in keys {
        out.push(if key.is_descending { " key=-" } else { " key=" });
        match &key.source {
            KeySource::Macro(name) => out.push(name.as_str()),
            KeySource::Variable(variable) => out.debug(*variable),
        }
    }
}

/// Appends the options of citations that are set.
fn citation<R: Abort>(out: &mut Description<'_, R>, options: &CitationOptions) {
    set_text(out, "prefix", options.prefix.as_str());
    set_text(out, "suffix", options.suffix.as_str());
    set_text(out, "delimiter", options.delimiter.as_str());
    keys(out, &options.keys);
    out.set("collapse", options.collapse);
    out.set("group", options.cite_group_delimiter.as_deref());
    out.set("suffixes", options.year_suffix_delimiter.as_deref());
    out.set("after", options.after_collapse_delimiter.as_deref());
    let distance = options.near_note_distance;
    out.set("distance", Some(distance).filter(|it| *it != 5));
    out.flag("names", options.adds_names);
    out.flag("given-names", options.adds_given_names);
    let rule = options.given_name_rule;
    out.set("rule", Some(rule).filter(|it| *it != GivenNameRule::ByCite));
    out.flag("year-suffix", options.adds_year_suffix);
    out.flag("capital", options.begins_with_capital);
}

/// Appends the options of a bibliography that are set.
fn bibliography<R: Abort>(out: &mut Description<'_, R>, options: &BibliographyOptions) {
    set_text(out, "prefix", options.prefix.as_str());
    set_text(out, "suffix", options.suffix.as_str());
    keys(out, &options.keys);
    out.flag("hanging", options.hanging_indent);
    out.set("align", options.second_field_align);
    let (line, entry) = (options.line_spacing, options.entry_spacing);
    out.set("line", Some(line).filter(|it| *it != 1));
    out.set("entry", Some(entry).filter(|it| *it != 1));
    if let Some(substitute) = &options.author_substitute {
        out.set("substitute", Some(substitute.text.as_str()));
        out.value(substitute.rule);
    }
}

/// Appends the options of a style: of its citations, and of its bibliography.
fn style<R: Abort>(out: &mut Description<'_, R>, style: &ListStyle) {
    citation(out, style.citation());
    if let Some(options) = style.bibliography() {
        out.push(" /");
        bibliography(out, options);
    }
}

/// Appends the text around a cite.
fn affix<R: Abort>(out: &mut Description<'_, R>, name: &str, affix: &Option<ElemChildren>) {
    if let Some(affix) = affix {
        let text = affix.to_text(out.alloc, BufWriteFormat::Html);
        let text = text.expect(out.rt, "memory");
        out.set(name, Some(text.as_str()));
    }
}

/// Appends a cite: the index of its work, and what else it has.
fn item<R: Abort>(out: &mut Description<'_, R>, item: &CitationItem<'_>) {
    out.push(" [");
    out.debug(item.work);
    if let Some(SpecificLocator(kind, payload)) = item.locator {
        out.value(kind);
        out.value(payload);
    }
    if let Some(purpose) = item.purpose {
        out.value(purpose);
    }
    out.flag("hidden", item.hidden);
    affix(out, "prefix", &item.prefix);
    affix(out, "suffix", &item.suffix);
    out.push("]");
}

/// Appends the names of the works of a document, and its citations: the number of a note, and its
/// cites.
fn parts<R: Abort>(out: &mut Description<'_, R>, document: &WireDocument<'_>) {
    for work in &document.works {
        out.push(work.name);
        out.push(" ");
    }
    out.push("/");
    for citation in &document.citations {
        if let Some(note) = citation.note_number {
            out.push(" note");
            out.value(note.get());
            out.push(":");
        }
        for inside in &citation.items {
            item(out, inside);
        }
        out.push(";");
    }
}

/// The options that are set in a style.
pub(crate) fn options_text(rt: &impl Abort, alloc: Global, options: &ListStyle) -> String {
    let mut out = Description::new(rt, alloc);
    style(&mut out, options);
    out.into_text()
}

/// The names of the works of a document, and its citations.
pub(crate) fn document_text(rt: &impl Abort, alloc: Global, document: &WireDocument<'_>) -> String {
    let mut out = Description::new(rt, alloc);
    parts(&mut out, document);
    out.into_text()
}

/// What a text is read as, as the options of citations of a stranger, or the refusal.
pub(crate) fn citation_options(rt: &impl Abort, alloc: Global, text: &str) -> String {
    let strangers = OptionLimits::of_strangers();
    match citation_options_of(alloc, &json(rt, alloc, text), strangers) {
        Ok(options) => {
            let mut out = Description::new(rt, alloc);
            citation(&mut out, &options);
            out.into_text()
        }
        Err(error) => told(rt, alloc, error),
    }
}

/// What a text is read as, as the options of a bibliography of a stranger, or the refusal.
pub(crate) fn bibliography_options(rt: &impl Abort, alloc: Global, text: &str) -> String {
    let strangers = OptionLimits::of_strangers();
    match bibliography_options_of(alloc, &json(rt, alloc, text), strangers) {
        Ok(options) => {
            let mut out = Description::new(rt, alloc);
            bibliography(&mut out, &options);
            out.into_text()
        }
        Err(error) => told(rt, alloc, error),
    }
}

/// The options that a style of a stranger with its options is read with, or the refusal.
pub(crate) fn options_of_style(rt: &impl Abort, alloc: Global, text: &str) -> String {
    match list_style_of(alloc, &json(rt, alloc, text), OptionLimits::of_strangers()) {
        Ok(style) => options_text(rt, alloc, &style),
        Err(error) => told(rt, alloc, error),
    }
}

/// What a text is read as, as a document of a stranger, or the refusal.
pub(crate) fn document(rt: &impl Abort, alloc: Global, text: &str) -> String {
    let value = json(rt, alloc, text);
    match document_of(alloc, &value, DocumentLimits::of_strangers()) {
        Ok(document) => document_text(rt, alloc, &document),
        Err(error) => told(rt, alloc, error),
    }
}
