//! The answers and labels of an entry.

use crate::error::WorkError;
use csl::literature::{
    Date, EntryType, FormatString, LongShortForm, MaybeTyped, Numeric, Person, PersonRole,
    PersonsWithRoles,
};
use csl::style::{DateVariable, NameVariable, NumberVariable, PageVariable, StandardVariable};
use csl::{Alphanumerical, Entry, EntryLike};
use std::alloc::Global;

static NUMBERS: [NumberVariable; 17] = [
    NumberVariable::ChapterNumber,
    NumberVariable::CitationNumber,
    NumberVariable::CollectionNumber,
    NumberVariable::Edition,
    NumberVariable::FirstReferenceNoteNumber,
    NumberVariable::Issue,
    NumberVariable::Locator,
    NumberVariable::Number,
    NumberVariable::NumberOfPages,
    NumberVariable::NumberOfVolumes,
    NumberVariable::PageFirst,
    NumberVariable::PartNumber,
    NumberVariable::PrintingNumber,
    NumberVariable::Section,
    NumberVariable::SupplementNumber,
    NumberVariable::Version,
    NumberVariable::Volume,
];

static TEXTS: [StandardVariable; 47] = [
    StandardVariable::Abstract,
    StandardVariable::Annote,
    StandardVariable::Archive,
    StandardVariable::ArchiveCollection,
    StandardVariable::ArchiveLocation,
    StandardVariable::ArchivePlace,
    StandardVariable::Authority,
    StandardVariable::CallNumber,
    StandardVariable::CitationKey,
    StandardVariable::CitationLabel,
    StandardVariable::CollectionTitle,
    StandardVariable::ContainerTitle,
    StandardVariable::ContainerTitleShort,
    StandardVariable::Dimensions,
    StandardVariable::Division,
    StandardVariable::DOI,
    StandardVariable::Event,
    StandardVariable::EventTitle,
    StandardVariable::EventPlace,
    StandardVariable::Genre,
    StandardVariable::ISBN,
    StandardVariable::ISSN,
    StandardVariable::Jurisdiction,
    StandardVariable::Keyword,
    StandardVariable::Language,
    StandardVariable::License,
    StandardVariable::Medium,
    StandardVariable::Note,
    StandardVariable::OriginalPublisher,
    StandardVariable::OriginalPublisherPlace,
    StandardVariable::OriginalTitle,
    StandardVariable::PartTitle,
    StandardVariable::PMCID,
    StandardVariable::PMID,
    StandardVariable::Publisher,
    StandardVariable::PublisherPlace,
    StandardVariable::References,
    StandardVariable::ReviewedGenre,
    StandardVariable::ReviewedTitle,
    StandardVariable::Scale,
    StandardVariable::Source,
    StandardVariable::Status,
    StandardVariable::Title,
    StandardVariable::TitleShort,
    StandardVariable::URL,
    StandardVariable::VolumeTitle,
    StandardVariable::YearSuffix,
];

static NAMES: [NameVariable; 27] = [
    NameVariable::Author,
    NameVariable::Chair,
    NameVariable::CollectionEditor,
    NameVariable::Compiler,
    NameVariable::Composer,
    NameVariable::ContainerAuthor,
    NameVariable::Contributor,
    NameVariable::Curator,
    NameVariable::Director,
    NameVariable::Editor,
    NameVariable::EditorialDirector,
    NameVariable::EditorTranslator,
    NameVariable::ExecutiveProducer,
    NameVariable::Guest,
    NameVariable::Host,
    NameVariable::Illustrator,
    NameVariable::Interviewer,
    NameVariable::Narrator,
    NameVariable::Organizer,
    NameVariable::OriginalAuthor,
    NameVariable::Performer,
    NameVariable::Producer,
    NameVariable::Recipient,
    NameVariable::ReviewedAuthor,
    NameVariable::ScriptWriter,
    NameVariable::SeriesCreator,
    NameVariable::Translator,
];

static DATES: [DateVariable; 6] = [
    DateVariable::Accessed,
    DateVariable::AvailableDate,
    DateVariable::EventDate,
    DateVariable::Issued,
    DateVariable::OriginalDate,
    DateVariable::Submitted,
];

/// `size` persons of the same name.
fn persons(alloc: Global, size: usize) -> Result<Vec<Person>, WorkError> {
    let mut persons = Vec::new(alloc);
    for _ in 0..size {
        persons.push(Person::institution(alloc, "Kwan")?)?;
    }
    Ok(persons)
}

/// A periodical, with a title and a volume.
fn journal(alloc: Global) -> Result<Entry, WorkError> {
    let mut journal = Entry::new(alloc, "journal", EntryType::Periodical)?;
    journal.title = Some(FormatString::plain(alloc, "Il Nuovo Cimento")?);
    journal.volume = Some(MaybeTyped::Typed(Numeric::new(20)));
    Ok(journal)
}

/// An article of a journal, with `size` authors and `size` translators.
pub fn article(alloc: Global, size: usize) -> Result<Entry, WorkError> {
    let translators = PersonsWithRoles {
        names: persons(alloc, size)?,
        role: PersonRole::Translator,
    };
    let mut article = Entry::new(alloc, "article", EntryType::Article)?;
    article.title = Some(FormatString::plain(alloc, "Vortices")?);
    article.authors = Some(persons(alloc, size)?);
    article.affiliated = Some(vec![in alloc; translators]?);
    article.date = Date::new(1961, Some(4), None, None, false);
    article.parents = vec![in alloc; journal(alloc)?]?;
    Ok(article)
}

/// Counts the number variables that an entry answers.
fn numbers<T: EntryLike>(alloc: Global, entry: &T) -> Result<usize, WorkError> {
    let mut found = 0;
    for variable in &NUMBERS {
        if entry.resolve_number_variable(alloc, *variable)?.is_some() {
            found += 1;
        }
    }
    Ok(found)
}

/// Counts the page and date variables that an entry answers.
fn pages_and_dates<T: EntryLike>(alloc: Global, entry: &T) -> Result<usize, WorkError> {
    let pages = entry.resolve_page_variable(alloc, PageVariable::Page)?;
    let mut found = usize::from(pages.is_some());
    for variable in &DATES {
        if entry.resolve_date_variable(alloc, *variable)?.is_some() {
            found += 1;
        }
    }
    Ok(found)
}

/// Counts the standard variables that an entry answers in a form.
fn texts<T: EntryLike>(alloc: Global, entry: &T, form: LongShortForm) -> Result<usize, WorkError> {
    let mut found = 0;
    for variable in &TEXTS {
        if entry
            .resolve_standard_variable(alloc, form, *variable)?
            .is_some()
        {
            found += 1;
        }
    }
    Ok(found)
}

/// Counts the persons that an entry answers to all name variables.
fn names<T: EntryLike>(alloc: Global, entry: &T) -> Result<usize, WorkError> {
    let mut found = 0;
    for variable in &NAMES {
        found += entry.resolve_name_variable(alloc, *variable)?.len();
    }
    Ok(found)
}

/// Looks up every variable of an article with `size` authors and `size` translators, the standard
/// ones in both forms, and counts the answers.
pub fn answers(alloc: Global, size: usize) -> Result<usize, WorkError> {
    let entry = article(alloc, size)?;
    let numbers = numbers(alloc, &entry)? + pages_and_dates(alloc, &entry)?;
    let long = texts(alloc, &entry, LongShortForm::Long)?;
    let short = texts(alloc, &entry, LongShortForm::Short)?;
    Ok(numbers + long + short + names(alloc, &entry)?)
}

/// Labels an article of four authors `size` times, and counts the bytes of the labels.
pub fn labels(alloc: Global, size: usize) -> Result<usize, WorkError> {
    let entry = article(alloc, 4)?;
    let mut bytes = 0;
    for _ in 0..size {
        bytes += Alphanumerical::new().citation(alloc, &entry)?.len();
    }
    Ok(bytes)
}
