//! Works, each with the works that it is a part of, as the library has them:
//! `chapter (title "T") (authors "Kwan, Kevin") (in anthology (volume 2) (in book (volume 7)))`.

use crate::entry::{date, number, pages, persons, text};
use crate::fault::Fault;
use crate::form::{Form, Forms};
use csl::Entry;
use csl::literature::{
    Date, FormatString, LanguageIdentifier, MaybeTyped, Numeric, PersonRole, PersonsWithRoles,
    Publisher, QualifiedUrl,
};
use std::alloc::Global;
use url::Url;

/// The field of this name, if it holds a text.
fn text_field<'e>(entry: &'e mut Entry, name: &str) -> Option<&'e mut Option<FormatString>> {
    match name {
        "title" => Some(&mut entry.title),
        "location" => Some(&mut entry.location),
        "organization" => Some(&mut entry.organization),
        "runtime" => Some(&mut entry.runtime),
        "archive" => Some(&mut entry.archive),
        "archive-location" => Some(&mut entry.archive_location),
        "call-number" => Some(&mut entry.call_number),
        "note" => Some(&mut entry.note),
        "abstract" => Some(&mut entry.abstract_),
        "genre" => Some(&mut entry.genre),
        _ => None,
    }
}

/// The field of this name, if it holds a number or a text in its place.
fn number_field<'e>(
    entry: &'e mut Entry,
    name: &str,
) -> Option<&'e mut Option<MaybeTyped<Numeric>>> {
    match name {
        "issue" => Some(&mut entry.issue),
        "volume" => Some(&mut entry.volume),
        "edition" => Some(&mut entry.edition),
        "chapter" => Some(&mut entry.chapter),
        _ => None,
    }
}

fn role(name: &str) -> Option<PersonRole> {
    match name {
        "translator" => Some(PersonRole::Translator),
        "compiler" => Some(PersonRole::Compiler),
        "founder" => Some(PersonRole::Founder),
        "collaborator" => Some(PersonRole::Collaborator),
        "organizer" => Some(PersonRole::Organizer),
        "cast-member" => Some(PersonRole::CastMember),
        "composer" => Some(PersonRole::Composer),
        "producer" => Some(PersonRole::Producer),
        "executive-producer" => Some(PersonRole::ExecutiveProducer),
        "writer" => Some(PersonRole::Writer),
        "director" => Some(PersonRole::Director),
        "illustrator" => Some(PersonRole::Illustrator),
        "narrator" => Some(PersonRole::Narrator),
        _ => None,
    }
}

/// A text without a short form, if there is one.
fn plain(alloc: Global, text: Option<&str>) -> Result<Option<FormatString>, Fault> {
    match text {
        Some(text) => Ok(Some(FormatString::plain(alloc, text)?)),
        None => Ok(None),
    }
}

/// A publisher, with its place: `"Vanguard" place="New York"`. It may have neither.
fn publisher(forms: &Forms<'_>) -> Result<Publisher, Fault> {
    forms.ensure_attributes(&["place"])?;
    let name = match forms.items.first() {
        Some(Form::Text(name)) => Some(*name),
        _ => None,
    };
    let location = plain(forms.alloc, forms.value("place"))?;
    let name = plain(forms.alloc, name)?;
    Ok(Publisher { name, location })
}

/// An address, and the year of the visit: `"https://aeon.co/" visited=2021`.
fn address(forms: &Forms<'_>) -> Result<QualifiedUrl, Fault> {
    forms.ensure_attributes(&["visited"])?;
    let text = forms.only_text()?;
    let visit_date = match forms.value("visited") {
        Some(year) => match year.parse::<i32>() {
            Ok(year) => Some(Date::of_year(year)),
            Err(_) => return Err(forms.fault("not a year", year)),
        },
        None => None,
    };
    match Url::parse(forms.alloc, text) {
        Ok(value) => Ok(QualifiedUrl { value, visit_date }),
        Err(_) => Err(forms.fault("not an address", text)),
    }
}

/// A language, and its region: `"en" region=US`.
fn language(forms: &Forms<'_>) -> Result<LanguageIdentifier, Fault> {
    forms.ensure_attributes(&["region"])?;
    let region = forms.text("region")?;
    let language = String::from_str(forms.alloc, forms.only_text()?)?;
    Ok(LanguageIdentifier { language, region })
}

/// Adds a serial number, after the name of its scheme: `doi "10.1007/BF02731494"`.
fn add_serial_number(entry: &mut Entry, forms: &Forms<'_>) -> Result<(), Fault> {
    match forms.items.as_slice() {
        [Form::Word(scheme), Form::Text(number)] => {
            Ok(entry.set_keyed_serial_number(forms.alloc, *scheme, *number)?)
        }
        _ => Err(Fault::Wrong("a serial number is a word and a text")),
    }
}

/// Adds persons of a role.
fn affiliate(entry: &mut Entry, role: PersonRole, forms: &Forms<'_>) -> Result<(), Fault> {
    let names = persons(forms)?;
    let mut groups = match entry.affiliated.take() {
        Some(groups) => groups,
        None => Vec::new(forms.alloc),
    };
    groups.push(PersonsWithRoles { names, role })?;
    entry.affiliated = Some(groups);
    Ok(())
}

/// Sets the field of a text, or of a number or a text in its place, if the word names one. Returns
/// whether it does.
fn set_text_or_number(entry: &mut Entry, name: &str, forms: &Forms<'_>) -> Result<bool, Fault> {
    if let Some(field) = text_field(entry, name) {
        *field = Some(text(forms)?);
        return Ok(true);
    }
    if let Some(field) = number_field(entry, name) {
        *field = Some(number(forms)?);
        return Ok(true);
    }
    Ok(false)
}

/// A number of volumes or of pages.
fn total(forms: &Forms<'_>) -> Result<Option<Numeric>, Fault> {
    match number(forms)? {
        MaybeTyped::Typed(number) => Ok(Some(number)),
        MaybeTyped::String(_) => Err(Fault::Wrong("a total is a number")),
    }
}

/// Sets the field that a word names.
fn set_field(entry: &mut Entry, name: &str, forms: &Forms<'_>) -> Result<(), Fault> {
    if set_text_or_number(entry, name, forms)? {
        return Ok(());
    }
    match name {
        "key" => entry.key = String::from_str(forms.alloc, forms.only_text()?)?,
        "authors" => entry.authors = Some(persons(forms)?),
        "editors" => entry.editors = Some(persons(forms)?),
        "date" => entry.date = Some(date(forms)?),
        "url" => entry.url = Some(address(forms)?),
        "publisher" => entry.publisher = Some(publisher(forms)?),
        "language" => entry.language = Some(language(forms)?),
        "page-range" => entry.page_range = Some(pages(forms)?),
        "volume-total" => entry.volume_total = total(forms)?,
        "page-total" => entry.page_total = total(forms)?,
        "serial-number" => add_serial_number(entry, forms)?,
        _ => match role(name) {
            Some(role) => affiliate(entry, role, forms)?,
            None => return Err(forms.fault("no such field of a work", name)),
        },
    }
    Ok(())
}

/// The work of these forms: its type, a list for each field, and a list for each work that it is a
/// part of. Its key is `key` if no list sets it.
#[cycle(work)]
pub fn work(forms: &Forms<'_>) -> Result<Entry, Fault> {
    let Some(Form::Word(name)) = forms.items.first() else {
        return Err(Fault::Wrong("a work begins with its type"));
    };
    let mut entry = Entry::new(forms.alloc, "key", forms.named(*name)?)?;
    for form in forms.items.iter().skip(1) {
        match form {
            Form::List("in", inside) => entry.parents.push(work(inside)?)?,
            Form::List(field, inside) => set_field(&mut entry, *field, inside)?,
            Form::Word(word) | Form::Text(word) | Form::Attribute(word, _) => {
                return Err(forms.fault("a work is a type and lists", *word));
            }
        }
    }
    Ok(entry)
}
