//! The literature model. Each work repeats a unit to make its input, and makes one call on it.

use crate::error::WorkError;
use csl::Entry;
use csl::literature::{EntryType, Numeric, NumericValue, PageRanges, Person};
use std::alloc::Global;

/// A text of `size` units and an end.
pub fn repetition(alloc: Global, unit: &str, size: usize, end: &str) -> Result<String, WorkError> {
    let mut text = String::new(alloc);
    for _ in 0..size {
        text.push_str(unit)?;
    }
    text.push_str(end)?;
    Ok(text)
}

/// Parses a list of numbers, and counts them.
pub fn numeric(alloc: Global, size: usize) -> Result<usize, WorkError> {
    let text = repetition(alloc, "17, ", size, "4")?;
    let numeric = Numeric::parse(alloc, text.as_str())?;
    match &numeric.value {
        NumericValue::Number(_) => Ok(1),
        NumericValue::Set(numbers) => Ok(numbers.len()),
    }
}

/// `size` page ranges and one page, parsed.
pub fn page_ranges(alloc: Global, size: usize) -> Result<PageRanges, WorkError> {
    let text = repetition(alloc, "321-328, ", size, "7")?;
    Ok(PageRanges::parse(alloc, text.as_str())?)
}

/// Parses a list of page ranges, and counts its parts.
pub fn pages(alloc: Global, size: usize) -> Result<usize, WorkError> {
    Ok(page_ranges(alloc, size)?.ranges.len())
}

/// Writes the initials of many given names, and counts their bytes.
pub fn initials(alloc: Global, size: usize) -> Result<usize, WorkError> {
    let given_name = repetition(alloc, "Jean-Luc ", size, "Marie")?;
    let person = Person::new(alloc, "Kwan", given_name.as_str())?;
    let mut written = String::new(alloc);
    person.initials(&mut written, Some(". "), true)?;
    Ok(written.len())
}

/// Finds the particle of a name of many words, and counts its bytes.
pub fn particle(alloc: Global, size: usize) -> Result<usize, WorkError> {
    let name = repetition(alloc, "van der ", size, "Berg")?;
    let person = Person::new(alloc, name.as_str(), "Vincent")?;
    match person.name_particle() {
        Some(particle) => Ok(particle.len()),
        None => Err(WorkError::Unexpected("no particle")),
    }
}

/// `size` authors of the same name.
pub fn authors(alloc: Global, size: usize) -> Result<Vec<Person>, WorkError> {
    let mut authors = Vec::new(alloc);
    for _ in 0..size {
        authors.push(Person::new(alloc, "Kwan", "Kevin")?)?;
    }
    Ok(authors)
}

/// Copies an entry with many authors, and counts the authors of the copy.
pub fn clone_entry(alloc: Global, size: usize) -> Result<usize, WorkError> {
    let mut entry = Entry::new(alloc, "crazy-rich", EntryType::Book)?;
    entry.authors = Some(authors(alloc, size)?);
    let copy = entry.clone(alloc)?;
    Ok(copy.authors().map_or(0, |authors| authors.len()))
}
