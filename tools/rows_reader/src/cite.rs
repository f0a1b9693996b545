//! Cites: what the citation says of a cite, as `position=subsequent (locator page "7")`, and the
//! state in which its layout begins.

use crate::fault::Fault;
use crate::form::{Form, Forms};
use csl::entry::{
    CertainCiteProperties, IbidState, LocatorPayload, SpecialForm, SpecificLocator,
    SpeculativeCiteProperties,
};
use csl::{
    CitationNumber, CiteProperties, DisambiguateState, DisambiguatedNameForm, LeftState,
    NameDisambiguationProperties, NoteNumber,
};

/// The attributes of a cite. With the style's own layout it has no others.
pub const CITE: &str = "position near-note ibid first-reference-note-number citation-number \
    disambiguate year-suffix scope";

/// The attributes of a rendering by a `layout` or a `node` line.
const RENDERING: &str = "before only form sort suppressed suppressing dated";

/// The locator: `(locator page "7")`, or without a text one that the caller writes.
pub fn specific_locator<'t>(forms: &Forms<'t>) -> Result<SpecificLocator<'t>, Fault> {
    match forms.items.as_slice() {
        [Form::Word(name), Form::Text(text)] => {
            let locator = forms.named(*name)?;
            Ok(SpecificLocator(locator, LocatorPayload::Str(*text)))
        }
        [Form::Word(name)] => {
            let locator = forms.named(*name)?;
            Ok(SpecificLocator(locator, LocatorPayload::Transparent))
        }
        _ => Err(Fault::Wrong("a locator is a word and a text")),
    }
}

/// The form of each name of a list.
fn list(forms: &Forms<'_>) -> Result<Vec<Option<DisambiguatedNameForm>>, Fault> {
    let mut list = Vec::new(forms.alloc);
    for form in &forms.items {
        match form {
            Form::Word("none") => list.push(None)?,
            Form::Word(word) => list.push(Some(forms.named(*word)?))?,
            Form::Text(word) | Form::Attribute(word, _) | Form::List(word, _) => {
                return Err(forms.fault("not the form of a name", *word));
            }
        }
    }
    Ok(list)
}

/// Forms of names: `(shown default=short of="author" (list long none))`.
fn shown(forms: &Forms<'_>) -> Result<NameDisambiguationProperties, Fault> {
    forms.ensure_attributes(&["default of"])?;
    let default = forms.choice("default")?;
    let default = default.ok_or(Fault::Wrong("no form of a name that becomes shown"))?;
    let variables = forms
        .choices("of")?
        .ok_or(Fault::Wrong("forms of no variable"))?;
    let mut lists = Vec::new(forms.alloc);
    forms.ensure_lists("list")?;
    for form in &forms.items {
        if let Form::List(_, inside) = form {
            lists.push(list(inside)?)?;
        }
    }
    Ok(NameDisambiguationProperties::new(default, variables, lists))
}

/// What disambiguates the cite: at most one of the three.
fn disambiguation(forms: &Forms<'_>) -> Result<DisambiguateState, Fault> {
    let names = match forms.list("shown") {
        Some(inside) => Some(shown(inside)?),
        None => None,
    };
    let suffix = match forms.number("year-suffix")? {
        Some(number) => match u16::try_from(number) {
            Ok(number) => Some(number),
            Err(_) => return Err(Fault::Wrong("a year suffix is below 65536")),
        },
        None => None,
    };
    match (names, suffix, forms.is_true("disambiguate")?) {
        (None, None, false) => Ok(DisambiguateState::None),
        (None, None, true) => Ok(DisambiguateState::Choose),
        (None, Some(number), false) => Ok(DisambiguateState::YearSuffix(number)),
        (Some(names), None, false) => Ok(DisambiguateState::NameDisambiguation(names)),
        _ => Err(Fault::Wrong("a cite is disambiguated in one way")),
    }
}

/// The citation number. In a row it counts from 1.
fn citation_number(forms: &Forms<'_>) -> Result<CitationNumber, Fault> {
    let number = forms.number("citation-number")?.unwrap_or(1).checked_sub(1);
    match number {
        Some(number) => CitationNumber::new(number).ok_or(Fault::Wrong("no citation number")),
        None => Err(Fault::Wrong("no citation number")),
    }
}

/// The number of the note with the first cite of the entry.
fn first_note_number(forms: &Forms<'_>) -> Result<Option<NoteNumber>, Fault> {
    match forms.number("first-reference-note-number")? {
        Some(number) => match NoteNumber::new(number) {
            Some(number) => Ok(Some(number)),
            None => Err(Fault::Wrong("no number of a note")),
        },
        None => Ok(None),
    }
}

/// Whether the cite is the first of its entry.
fn is_first(forms: &Forms<'_>) -> Result<bool, Fault> {
    match forms.value("position") {
        None | Some("first") => Ok(true),
        Some("subsequent") => Ok(false),
        Some(position) => Err(forms.fault("a position is first or subsequent", position)),
    }
}

/// Fails if a form is no part of a cite.
fn ensure_parts(forms: &Forms<'_>) -> Result<(), Fault> {
    forms.ensure_attributes(&[CITE, RENDERING])?;
    forms.ensure_lists("locator shown")
}

/// The properties of the cite. Its index is 0.
pub fn properties<'t>(forms: &Forms<'t>) -> Result<CiteProperties<'t>, Fault> {
    ensure_parts(forms)?;
    let locator = match forms.list("locator") {
        Some(inside) => Some(specific_locator(inside)?),
        None => None,
    };
    Ok(CiteProperties {
        certain: CertainCiteProperties {
            first_note_number: first_note_number(forms)?,
            is_first: is_first(forms)?,
            is_near_note: forms.is_true("near-note")?,
            initial_idx: 0,
        },
        speculative: SpeculativeCiteProperties {
            locator,
            citation_number: citation_number(forms)?,
            disambiguation: disambiguation(forms)?,
            ibid: forms.choice("ibid")?.unwrap_or(IbidState::Different),
        },
    })
}

/// The part that the cite shows, if it does not show the whole.
pub fn special_form(forms: &Forms<'_>) -> Result<Option<SpecialForm>, Fault> {
    match (forms.value("only"), forms.value("form")) {
        (None, None) => Ok(None),
        (Some(name), None) => Ok(Some(SpecialForm::VarOnly(forms.named(name)?))),
        (None, Some("first-date")) => Ok(Some(SpecialForm::OnlyFirstDate)),
        (None, Some("year-suffix")) => Ok(Some(SpecialForm::OnlyYearSuffix)),
        (None, Some("no-author")) => Ok(Some(SpecialForm::SuppressAuthor)),
        (None, Some(form)) => Err(forms.fault("no such form of a cite", form)),
        (Some(_), Some(form)) => Err(forms.fault("a form beside only", form)),
    }
}

/// The state in which the nodes begin.
pub fn start(forms: &Forms<'_>) -> Result<LeftState, Fault> {
    let mut start = LeftState::new(forms.alloc);
    start.suppressing = forms.is_true("suppressing")?;
    start.first_date_seen = forms.is_true("dated")?;
    if let Some(variables) = forms.choices("suppressed")? {
        for variable in variables {
            let _is_new = start.suppressed.insert(variable)?;
        }
    }
    Ok(start)
}
