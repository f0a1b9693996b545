//! What an entry answers, in the words of an `entry` line: `(title "T" short="S") (volume 9)`.

use crate::fault::Fault;
use crate::form::{Form, Forms};
use crate::tree_words::{add_person, add_quoted, add_value, add_word};
use csl::entry::{
    legislation_kind, recording_kind, same_date, same_number, same_pages, same_persons, same_text,
};
use csl::literature::{ChunkKind, ChunkedString, Date, LongShortForm, MaybeTyped};
use csl::style::{Kind, Named, StandardVariable, Variable};
use csl::{Alphanumerical, Entry, EntryLike, Snapshot, same_answers};
use std::alloc::Global;
use std::collections::BTreeSet;
use std::fmt;

/// The names of all kinds, with one space between them.
const KINDS: &str = "article article-journal article-magazine article-newspaper bill book \
    broadcast chapter classic collection dataset document entry entry-dictionary \
    entry-encyclopedia event figure graphic hearing interview legal_case legislation manuscript \
    map motion_picture musical_score pamphlet paper-conference patent performance periodical \
    personal_communication post post-weblog regulation report review review-book software song \
    speech standard thesis treaty webpage";

/// Appends the name of a kind.
pub fn add_kind(words: &mut String, kind: Kind) -> Result<(), Fault> {
    for name in KINDS.split(' ') {
        if Kind::from_name(name) == Some(kind) {
            return add_word(words, name);
        }
    }
    add_word(words, "?")
}

/// Appends a value as it displays itself.
fn add_shown<T: fmt::Display>(words: &mut String, value: &T) -> Result<(), Fault> {
    add_word(words, "")?;
    Ok(write!(words, "{value}")?)
}

/// Appends the pieces of a text.
fn add_pieces(words: &mut String, text: &ChunkedString) -> Result<(), Fault> {
    for piece in &text.0 {
        let head = match piece.kind {
            ChunkKind::Normal => "",
            ChunkKind::Verbatim => "(verbatim",
            ChunkKind::Math => "(math",
        };
        if head.is_empty() {
            add_quoted(words, piece.value.as_str())?;
        } else {
            add_word(words, head)?;
            add_quoted(words, piece.value.as_str())?;
            words.push(')')?;
        }
    }
    Ok(())
}

/// The text of a variable in a form, in words.
fn text_words<T: EntryLike>(
    alloc: Global,
    entry: &T,
    form: LongShortForm,
    variable: StandardVariable,
) -> Result<String, Fault> {
    let mut words = String::new(alloc);
    match &entry.resolve_standard_variable(alloc, form, variable)? {
        Some(text) => add_pieces(&mut words, text.as_ref())?,
        None => {}
    }
    Ok(words)
}

/// Appends the text of a variable, and its short form if that is another.
fn add_text<T: EntryLike>(
    words: &mut String,
    alloc: Global,
    entry: &T,
    variable: StandardVariable,
) -> Result<(), Fault> {
    let long = text_words(alloc, entry, LongShortForm::Long, variable)?;
    let short = text_words(alloc, entry, LongShortForm::Short, variable)?;
    words.push_str(long.as_str())?;
    if short.as_str() != long.as_str() {
        add_word(words, "short=")?;
        words.push_str(short.as_str())?;
    }
    Ok(())
}

/// Appends a date: its year, and its month and its day if it has them.
fn add_day(words: &mut String, date: &Date) -> Result<(), Fault> {
    add_shown(words, &date.year())?;
    for place in [date.month(), date.day()] {
        if let Some(place) = place {
            add_shown(words, &(u32::from(place) + 1))?;
        }
    }
    Ok(())
}

/// The answer of an entry to a variable, in words. There are none if it has no answer.
fn answer<T: EntryLike>(alloc: Global, entry: &T, variable: Variable) -> Result<String, Fault> {
    let mut words = String::new(alloc);
    match variable {
        Variable::Number(variable) => match &entry.resolve_number_variable(alloc, variable)? {
            Some(MaybeTyped::Typed(number)) => add_shown(&mut words, number.as_ref())?,
            Some(MaybeTyped::String(text)) => add_quoted(&mut words, text.as_str())?,
            None => {}
        },
        Variable::Page(variable) => match &entry.resolve_page_variable(alloc, variable)? {
            Some(MaybeTyped::Typed(pages)) => add_shown(&mut words, pages)?,
            Some(MaybeTyped::String(text)) => add_quoted(&mut words, text.as_str())?,
            None => {}
        },
        Variable::Standard(variable) => add_text(&mut words, alloc, entry, variable)?,
        Variable::Name(variable) => {
            for person in &entry.resolve_name_variable(alloc, variable)? {
                add_person(&mut words, person.as_ref())?;
            }
        }
        Variable::Date(variable) => {
            if let Some(date) = &entry.resolve_date_variable(alloc, variable)? {
                add_day(&mut words, date.as_ref())?;
            }
        }
    }
    Ok(words)
}

/// Appends the names of all kinds that the entry is of.
fn add_kinds<T: EntryLike>(words: &mut String, entry: &T) -> Result<(), Fault> {
    for name in KINDS.split(' ') {
        if let Some(kind) = Kind::from_name(name) {
            if entry.matches_entry_type(kind) {
                add_word(words, name)?;
            }
        }
    }
    Ok(())
}

/// Appends the names of those variables of a list that the entry does not answer.
fn add_unanswered<T: EntryLike>(
    words: &mut String,
    entry: &T,
    forms: &Forms<'_>,
) -> Result<(), Fault> {
    let variables: Option<Vec<Variable>> = forms.choices("none")?;
    if let Some(variables) = variables {
        for variable in variables {
            if answer(forms.alloc, entry, variable)?.is_empty() {
                add_word(words, variable.name())?;
            }
        }
    }
    Ok(())
}

fn add_optional_kind(words: &mut String, kind: Option<Kind>) -> Result<(), Fault> {
    match kind {
        Some(kind) => add_kind(words, kind),
        None => Ok(()),
    }
}

/// Appends the value of an attribute of a line of answers. Some ask the whole work.
fn add_answer<T: EntryLike>(
    words: &mut String,
    entry: &T,
    work: Option<&Entry>,
    name: &str,
    forms: &Forms<'_>,
) -> Result<(), Fault> {
    match (name, work) {
        ("none", _) => add_unanswered(words, entry, forms),
        ("type", _) => add_kinds(words, entry),
        ("key", _) => Ok(words.push_str(entry.key().as_str())?),
        ("english", _) => Ok(words.push_str(match entry.is_english() {
            Some(true) => "true",
            Some(false) => "false",
            None => "",
        })?),
        ("label", Some(work)) => {
            let label = Alphanumerical::default().citation(forms.alloc, work)?;
            Ok(words.push_str(label.as_str())?)
        }
        ("recording", Some(work)) => add_optional_kind(words, recording_kind(work)),
        ("law", Some(work)) => add_optional_kind(words, legislation_kind(work)),
        _ => Err(forms.fault("no such answer", name)),
    }
}

/// Appends the answers of an entry to what a line asks.
pub fn add_answers<T: EntryLike>(
    words: &mut String,
    entry: &T,
    work: Option<&Entry>,
    forms: &Forms<'_>,
) -> Result<(), Fault> {
    for form in &forms.items {
        match form {
            Form::List(name, _) => {
                add_word(words, "(")?;
                words.push_str(*name)?;
                let found = answer(forms.alloc, entry, forms.named(*name)?)?;
                if !found.is_empty() {
                    add_word(words, found.as_str())?;
                }
                words.push(')')?;
            }
            Form::Attribute(name, _) => {
                let mut found = String::new(forms.alloc);
                add_answer(&mut found, entry, work, *name, forms)?;
                add_value(words, *name, found.as_str())?;
            }
            Form::Word(word) | Form::Text(word) => {
                return Err(forms.fault("an answer is a list", *word));
            }
        }
    }
    Ok(())
}

fn insert(named: &mut Named, variable: Variable) -> Result<(), Fault> {
    let _is_new = match variable {
        Variable::Number(variable) => named.numbers.insert(variable)?,
        Variable::Page(variable) => named.pages.insert(variable)?,
        Variable::Standard(variable) => named.standards.insert(variable)?,
        Variable::Name(variable) => named.names.insert(variable)?,
        Variable::Date(variable) => named.dates.insert(variable)?,
    };
    Ok(())
}

/// The variables and kinds of a line: `title author type=book`.
pub fn named(forms: &Forms<'_>) -> Result<Named, Fault> {
    forms.ensure_attributes(&["type"])?;
    let alloc = forms.alloc;
    let mut named = Named {
        numbers: BTreeSet::new(alloc),
        pages: BTreeSet::new(alloc),
        standards: BTreeSet::new(alloc),
        names: BTreeSet::new(alloc),
        dates: BTreeSet::new(alloc),
        kinds: BTreeSet::new(alloc),
    };
    for form in &forms.items {
        match form {
            Form::Word(name) => insert(&mut named, forms.named(*name)?)?,
            Form::Attribute(_, _) => {}
            Form::Text(word) | Form::List(word, _) => {
                return Err(forms.fault("not a variable", *word));
            }
        }
    }
    if let Some(kinds) = forms.choices("type")? {
        for kind in kinds {
            let _is_new = named.kinds.insert(kind)?;
        }
    }
    Ok(named)
}

/// Appends the answers of a snapshot of an entry. Its copy is equal and answers the same.
pub fn add_answers_of_snapshot(
    words: &mut String,
    entry: &Entry,
    named: &Named,
    forms: &Forms<'_>,
) -> Result<(), Fault> {
    let snapshot = Snapshot::new(forms.alloc, entry, named)?;
    add_answers(words, &snapshot, None, forms)?;
    let copy = snapshot.clone(forms.alloc)?;
    let mut again = String::new(forms.alloc);
    add_answers(&mut again, &copy, None, forms)?;
    if copy != snapshot || again.as_str() != words.as_str() {
        words.push_str(", a copy: ")?;
        words.push_str(again.as_str())?;
    }
    Ok(())
}

/// Whether two entries answer these variables and kinds alike. Their snapshots are equal exactly if
/// they do, and either entry may come first.
pub fn are_alike(alloc: Global, left: &Entry, right: &Entry, named: &Named) -> Result<bool, Fault> {
    let are_alike = same_answers(alloc, left, right, named)?;
    let snapshot = Snapshot::new(alloc, left, named)?;
    let other = Snapshot::new(alloc, right, named)?;
    let is_equal = snapshot == other;
    if is_equal != are_alike || same_answers(alloc, right, left, named)? != are_alike {
        return Err(Fault::Wrong("the snapshots, or the entries in the other order, differ"));
    }
    Ok(are_alike)
}

/// Whether two entries have the same answer to a variable, of a text in its long form.
pub fn is_same(
    alloc: Global,
    left: &Entry,
    right: &Entry,
    variable: Variable,
) -> Result<bool, Fault> {
    match variable {
        Variable::Number(variable) => Ok(same_number(
            &left.resolve_number_variable(alloc, variable)?,
            &right.resolve_number_variable(alloc, variable)?,
        )),
        Variable::Page(variable) => Ok(same_pages(
            &left.resolve_page_variable(alloc, variable)?,
            &right.resolve_page_variable(alloc, variable)?,
        )),
        Variable::Standard(variable) => Ok(same_text(
            &left.resolve_standard_variable(alloc, LongShortForm::Long, variable)?,
            &right.resolve_standard_variable(alloc, LongShortForm::Long, variable)?,
        )),
        Variable::Name(variable) => Ok(same_persons(
            &left.resolve_name_variable(alloc, variable)?,
            &right.resolve_name_variable(alloc, variable)?,
        )),
        Variable::Date(variable) => Ok(same_date(
            &left.resolve_date_variable(alloc, variable)?,
            &right.resolve_date_variable(alloc, variable)?,
        )),
    }
}
