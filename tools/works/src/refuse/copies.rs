//! Each `clone` that allocates. Each copy is compared with its original. If memory runs out, a work
//! makes all its copies once more.

use crate::error::WorkError;
use crate::refuse::cites::forms;
use crate::refuse::twice;
use crate::trees::{text, texts};
use csl::entry::{
    NameDisambiguationProperties, NumberOrPageVariableResult, NumberVariableResult,
    SpeculativeCiteProperties,
};
use csl::literature::{
    FormatString, LanguageIdentifier, MaybeTyped, Numeric, PageRanges, PageRangesPart, Person,
    PersonRole, PersonsWithRoles,
};
use csl::style::{NameVariable, StandardVariable};
use csl::tree::{Elem, ElemChild, ElemMeta};
use csl::{CiteProperties, DisambiguateState, ElemChildren, Entry, LeftState, Memory};
use csl_samples::BuiltIn;
use std::alloc::Global;
use std::borrow::Cow;

/// Appends the type of a copy, and whether it equals the original.
fn say(said: &mut String, name: &str, is_equal: bool) -> Result<(), WorkError> {
    if !said.is_empty() {
        said.push_str(", ")?;
    }
    said.push_str(name)?;
    said.push_str(if is_equal { " equal" } else { " not equal" })?;
    Ok(())
}

/// Compares a copy with its original, and appends the result.
fn tell<T: PartialEq + Drop>(
    said: &mut String,
    name: &str,
    value: &T,
    copy: Result<T, Memory>,
) -> Result<(), WorkError> {
    say(said, name, copy? == *value)
}

/// A person in a role that [`PersonRole`] does not name.
fn adviser(alloc: Global) -> Result<PersonsWithRoles, WorkError> {
    let names = vec![in alloc; Person::institution(alloc, "Kwan")?]?;
    let role = PersonRole::Unknown(String::from_str(alloc, "adviser")?);
    Ok(PersonsWithRoles { names, role })
}

fn language(alloc: Global) -> Result<LanguageIdentifier, WorkError> {
    let region = String::from_str(alloc, "US")?;
    Ok(LanguageIdentifier {
        language: String::from_str(alloc, "en")?,
        region: Some(region),
    })
}

/// A set of three numbers.
fn numeric(alloc: Global) -> Result<Numeric, WorkError> {
    Ok(Numeric::parse(alloc, "4-6, 9")?)
}

/// Page ranges with one part of several numbers, so that copying the part allocates.
fn pages(alloc: Global) -> Result<PageRanges, WorkError> {
    let ranges = vec![in alloc; PageRangesPart::SinglePage(numeric(alloc)?)]?;
    Ok(PageRanges { ranges })
}

/// An article with many fields.
fn article(alloc: Global) -> Result<Entry, WorkError> {
    let mut book = BuiltIn::CrazyRich.entry(alloc)?;
    let mut essay = BuiltIn::Feminism.entry(alloc)?;
    let mut article = BuiltIn::QuantizedVortex.entry(alloc)?;
    article.page_range = Some(MaybeTyped::Typed(pages(alloc)?));
    article.volume = Some(MaybeTyped::Typed(numeric(alloc)?));
    article.publisher = book.publisher.take();
    article.url = essay.url.take();
    article.affiliated = Some(vec![in alloc; adviser(alloc)?]?);
    article.language = Some(language(alloc)?);
    Ok(article)
}

fn tell_texts(alloc: Global, said: &mut String, title: &FormatString) -> Result<(), WorkError> {
    tell(said, "FormatString", title, title.clone(alloc))?;
    tell(
        said,
        "ChunkedString",
        &title.value,
        title.value.clone(alloc),
    )?;
    match title.value.0.first() {
        Some(chunk) => tell(said, "StringChunk", chunk, chunk.clone(alloc)),
        None => Ok(()),
    }
}

fn tell_pages(
    alloc: Global,
    said: &mut String,
    pages: &MaybeTyped<PageRanges>,
) -> Result<(), WorkError> {
    tell(said, "MaybeTyped<PageRanges>", pages, pages.clone(alloc))?;
    let MaybeTyped::Typed(pages) = pages else {
        return Ok(());
    };
    tell(said, "PageRanges", pages, pages.clone(alloc))?;
    match pages.ranges.first() {
        Some(part) => tell(said, "PageRangesPart", part, part.clone(alloc)),
        None => Ok(()),
    }
}

fn tell_adviser(alloc: Global, said: &mut String, it: &PersonsWithRoles) -> Result<(), WorkError> {
    tell(said, "PersonsWithRoles", it, it.clone(alloc))?;
    tell(said, "PersonRole", &it.role, it.role.clone(alloc))?;
    match it.names.first() {
        Some(person) => tell(said, "Person", person, person.clone(alloc)),
        None => Ok(()),
    }
}

/// Copies the publisher, address, serial numbers and language of an entry.
fn tell_sources(alloc: Global, said: &mut String, work: &Entry) -> Result<(), WorkError> {
    if let Some(it) = &work.publisher {
        tell(said, "Publisher", it, it.clone(alloc))?;
    }
    if let Some(it) = &work.url {
        tell(said, "QualifiedUrl", it, it.clone(alloc))?;
    }
    if let Some(it) = &work.serial_number {
        tell(said, "SerialNumber", it, it.clone(alloc))?;
    }
    if let Some(it) = &work.language {
        tell(said, "LanguageIdentifier", it, it.clone(alloc))?;
    }
    Ok(())
}

/// Copies an entry and its parts, and returns which copies are equal.
fn tell_entry(alloc: Global, work: &Entry) -> Result<String, WorkError> {
    let mut said = String::new(alloc);
    tell(&mut said, "Entry", work, work.clone(alloc))?;
    if let Some(volume) = &work.volume {
        tell(
            &mut said,
            "MaybeTyped<Numeric>",
            volume,
            volume.clone(alloc),
        )?;
    }
    if let Some(title) = &work.title {
        tell_texts(alloc, &mut said, title)?;
    }
    if let Some(pages) = &work.page_range {
        tell_pages(alloc, &mut said, pages)?;
    }
    if let Some([adviser, ..]) = work.affiliated.as_deref() {
        tell_adviser(alloc, &mut said, adviser)?;
    }
    tell_sources(alloc, &mut said, work)?;
    Ok(said)
}

/// Copies an article with many fields, and its parts.
pub fn entry(alloc: Global) -> Result<String, WorkError> {
    let article = article(alloc)?;
    twice(|| tell_entry(alloc, &article))
}

/// Copies an answer to a number variable, and the number that it owns.
fn tell_number(
    alloc: Global,
    said: &mut String,
    answer: &NumberVariableResult<'_>,
) -> Result<(), WorkError> {
    tell(said, "NumberVariableResult", answer, answer.clone(alloc))?;
    match answer {
        NumberVariableResult::Regular(MaybeTyped::Typed(Cow::Owned(number))) => {
            tell(said, "Numeric", number, number.clone(alloc))
        }
        _ => Ok(()),
    }
}

/// Copies answers and their parts, and returns which copies are equal.
fn tell_answers(
    alloc: Global,
    answers: &[NumberOrPageVariableResult<'_>],
) -> Result<String, WorkError> {
    let mut said = String::new(alloc);
    for answer in answers {
        tell(
            &mut said,
            "NumberOrPageVariableResult",
            answer,
            answer.clone(alloc),
        )?;
        if let NumberOrPageVariableResult::Number(number) = answer {
            tell_number(alloc, &mut said, number)?;
        }
    }
    Ok(said)
}

/// Copies an answer that owns its number, and its parts.
pub fn answers(alloc: Global) -> Result<String, WorkError> {
    let number = MaybeTyped::Typed(Cow::Owned(numeric(alloc)?));
    let answer = NumberVariableResult::from_regular(number);
    let answers = vec![in alloc; NumberOrPageVariableResult::Number(answer)]?;
    twice(|| tell_answers(alloc, &answers))
}

/// The name forms of a disambiguation state, if it has any.
fn forms_in(state: &DisambiguateState) -> Option<&NameDisambiguationProperties> {
    match state {
        DisambiguateState::NameDisambiguation(forms) => Some(forms),
        _ => None,
    }
}

fn tell_state(
    alloc: Global,
    said: &mut String,
    state: &DisambiguateState,
) -> Result<(), WorkError> {
    let copy = state.clone(alloc)?;
    let is_equal = forms_in(&copy) == forms_in(state);
    say(said, "DisambiguateState", is_equal)?;
    match forms_in(state) {
        Some(forms) => tell(
            said,
            "NameDisambiguationProperties",
            forms,
            forms.clone(alloc),
        ),
        None => Ok(()),
    }
}

fn is_same(copy: &SpeculativeCiteProperties<'_>, props: &SpeculativeCiteProperties<'_>) -> bool {
    copy.locator == props.locator
        && copy.citation_number == props.citation_number
        && copy.ibid == props.ibid
        && forms_in(&copy.disambiguation) == forms_in(&props.disambiguation)
}

fn tell_speculative(
    alloc: Global,
    said: &mut String,
    props: &SpeculativeCiteProperties<'_>,
) -> Result<(), WorkError> {
    let copy = props.clone(alloc)?;
    let is_equal = is_same(&copy, props);
    say(said, "SpeculativeCiteProperties", is_equal)?;
    tell_state(alloc, said, &props.disambiguation)
}

/// Copies the properties of a cite and their parts, and returns which copies are equal.
fn tell_cite(alloc: Global, props: &CiteProperties<'_>) -> Result<String, WorkError> {
    let mut said = String::new(alloc);
    let copy = props.clone(alloc)?;
    let is_equal = is_same(&copy.speculative, &props.speculative);
    say(&mut said, "CiteProperties", is_equal)?;
    tell_speculative(alloc, &mut said, &props.speculative)?;
    Ok(said)
}

/// Copies the properties of a cite and their parts.
pub fn cite(alloc: Global) -> Result<String, WorkError> {
    let state = DisambiguateState::NameDisambiguation(forms(alloc)?);
    let props = CiteProperties::first(state);
    twice(|| tell_cite(alloc, &props))
}

/// Copies the left state of a rendering, and returns whether both are equal.
fn tell_left(alloc: Global, left: &LeftState) -> Result<String, WorkError> {
    let mut said = String::new(alloc);
    let copy = left.clone(alloc)?;
    let is_equal = copy.suppressed == left.suppressed && copy.first_names == left.first_names;
    say(&mut said, "LeftState", is_equal)?;
    Ok(said)
}

/// Copies a left state with a suppressed variable and name forms.
pub fn left(alloc: Global) -> Result<String, WorkError> {
    let mut left = LeftState::new(alloc);
    left.suppressed.insert(StandardVariable::Title.into())?;
    left.first_names = Some(forms(alloc)?);
    twice(|| tell_left(alloc, &left))
}

/// An element of two texts, marked as the content of names.
fn names_elem(alloc: Global) -> Result<Elem, WorkError> {
    let persons = vec![in alloc; Person::institution(alloc, "Kwan")?]?;
    let names = vec![in alloc; (persons, NameVariable::Author)]?;
    Ok(Elem {
        children: ElemChildren(texts(alloc)?),
        display: None,
        meta: Some(ElemMeta::Names(names)),
    })
}

/// Copies an element and its parts.
fn tell_elem(alloc: Global, said: &mut String, elem: &Elem) -> Result<(), WorkError> {
    tell(said, "Elem", elem, elem.clone(alloc))?;
    tell(
        said,
        "ElemChildren",
        &elem.children,
        elem.children.clone(alloc),
    )?;
    match &elem.meta {
        Some(meta) => tell(said, "ElemMeta", meta, meta.clone(alloc)),
        None => Ok(()),
    }
}

fn tell_children(alloc: Global, children: &[ElemChild]) -> Result<String, WorkError> {
    let mut said = String::new(alloc);
    for child in children {
        tell(&mut said, "ElemChild", child, child.clone(alloc))?;
        match child {
            ElemChild::Elem(elem) => tell_elem(alloc, &mut said, elem)?,
            ElemChild::Text(text) => tell(&mut said, "Formatted", text, text.clone(alloc))?,
            _ => {}
        }
    }
    Ok(said)
}

/// Copies a tree and its parts.
pub fn tree(alloc: Global) -> Result<String, WorkError> {
    let names = ElemChild::Elem(names_elem(alloc)?);
    let children = vec![in alloc; names, text(alloc, "a")?]?;
    twice(|| tell_children(alloc, &children))
}
