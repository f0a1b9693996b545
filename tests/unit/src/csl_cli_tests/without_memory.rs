//! An entry type of these tests. It wraps another entry, and runs out of memory in one lookup.

use csl_entry::EntryLike;
use csl_style::{DateVariable, Kind, NameVariable, NumberVariable, PageVariable, StandardVariable};
use lit_model::{
    ChunkedString, Date, LongShortForm, MaybeTyped, Memory, Numeric, PageRanges, Person,
};
use std::alloc::Global;
use std::borrow::{Cow, CowStr};
use std::cell::Cell;

/// An entry with the answers of another one. One lookup runs out of memory.
#[derive(Drop)]
pub(crate) struct WithoutMemory<'e, T> {
    entry: &'e T,
    /// The number of lookups still answered before the refused one, or `None` after it.
    answers_left: Cell<Option<u32>>,
}

impl<'e, T> WithoutMemory<'e, T> {
    /// Wraps an entry, to refuse the lookup after the first `answered` ones.
    pub(crate) fn behind(entry: &'e T, answered: u32) -> WithoutMemory<'e, T> {
        WithoutMemory {
            entry,
            answers_left: Cell::new(Some(answered)),
        }
    }

    /// Whether a lookup was refused.
    pub(crate) fn has_refused(&self) -> bool {
        self.answers_left.get().is_none()
    }

    /// Counts a lookup.
    ///
    /// # Errors
    /// [`Memory`]: this lookup is the refused one.
    fn count(&self) -> Result<(), Memory> {
        match self.answers_left.get() {
            None => Ok(()),
            Some(0) => {
                self.answers_left.set(None);
                Err(Memory)
            }
            Some(left) => {
                self.answers_left.set(Some(left - 1));
                Ok(())
            }
        }
    }
}

impl<T: EntryLike> EntryLike for WithoutMemory<'_, T> {
    ghost answers = { ? };

    ghost key_text = { ? };

    ghost english = { ? };

    fn resolve_number_variable(
        &self,
        alloc: Global,
        variable: NumberVariable,
    ) -> Result<Option<MaybeTyped<Cow<'_, Numeric>>>, Memory> {
        self.count()?;
        self.entry.resolve_number_variable(alloc, variable)
    }

    fn resolve_page_variable(
        &self,
        alloc: Global,
        variable: PageVariable,
    ) -> Result<Option<MaybeTyped<PageRanges>>, Memory> {
        self.count()?;
        self.entry.resolve_page_variable(alloc, variable)
    }

    fn resolve_standard_variable(
        &self,
        alloc: Global,
        form: LongShortForm,
        variable: StandardVariable,
    ) -> Result<Option<Cow<'_, ChunkedString>>, Memory> {
        self.count()?;
        self.entry.resolve_standard_variable(alloc, form, variable)
    }

    fn resolve_name_variable(
        &self,
        alloc: Global,
        variable: NameVariable,
    ) -> Result<Vec<Cow<'_, Person>>, Memory> {
        self.count()?;
        self.entry.resolve_name_variable(alloc, variable)
    }

    fn resolve_date_variable(
        &self,
        alloc: Global,
        variable: DateVariable,
    ) -> Result<Option<Cow<'_, Date>>, Memory> {
        self.count()?;
        self.entry.resolve_date_variable(alloc, variable)
    }

    fn matches_entry_type(&self, kind: Kind) -> bool {
        self.entry.matches_entry_type(kind)
    }

    fn is_english(&self) -> Option<bool> {
        self.entry.is_english()
    }

    fn key(&self) -> CowStr<'_, Global> {
        self.entry.key()
    }
}
