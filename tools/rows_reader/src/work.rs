//! An entry that is a table: it answers what its row says.

use csl::literature::{
    ChunkedString, Date, FormatString, LongShortForm, MaybeTyped, Numeric, PageRanges, Person,
};
use csl::style::{
    DateVariable, Kind, NameVariable, NumberVariable, PageVariable, StandardVariable,
};
use csl::{EntryLike, Memory};
use std::alloc::Global;
use std::borrow::{Cow, CowStr};

/// A table of answers. If a variable has several, the first counts.
#[derive(Drop)]
pub struct Work {
    pub numbers: Vec<(NumberVariable, MaybeTyped<Numeric>)>,
    pub pages: Vec<(PageVariable, MaybeTyped<PageRanges>)>,
    pub texts: Vec<(StandardVariable, FormatString)>,
    pub names: Vec<(NameVariable, Vec<Person>)>,
    pub dates: Vec<(DateVariable, Date)>,
    pub kinds: Vec<Kind>,
    /// Whether it is English, if it says so.
    pub english: Option<bool>,
    /// A variable whose lookup runs out of memory.
    pub refused: Option<StandardVariable>,
}

impl Work {
    /// An entry that answers nothing.
    pub fn new(alloc: Global) -> Work {
        Work {
            numbers: Vec::new(alloc),
            pages: Vec::new(alloc),
            texts: Vec::new(alloc),
            names: Vec::new(alloc),
            dates: Vec::new(alloc),
            kinds: Vec::new(alloc),
            english: None,
            refused: None,
        }
    }
}

/// The first answer to a variable.
fn answer_in<V: Copy + PartialEq, A>(answers: &[(V, A)], variable: V) -> Option<&A> {
    for (own, answer) in answers {
        if *own == variable {
            return Some(answer);
        }
    }
    None
}

impl EntryLike for Work {
    // Nothing proves this program, so what is stated here of its entry has no use.
    ghost use Rattle.std.specs.Prelude.{false, [], None, codes};

    ghost answers = { λ _. record {
      numbers = λ _. None;
      pages = λ _. None;
      standards = λ _ _. None;
      names = λ _. [];
      dates = λ _. None;
      kinds = λ _. false;
    } };

    ghost key_text = { λ _. codes "row" };

    ghost english = { λ _. None };

    fn resolve_number_variable(
        &self,
        alloc: Global,
        variable: NumberVariable,
    ) -> Result<Option<MaybeTyped<Cow<'_, Numeric>>>, Memory> {
        match answer_in(&self.numbers, variable) {
            None => Ok(None),
            Some(MaybeTyped::Typed(number)) => Ok(Some(MaybeTyped::Typed(Cow::Borrowed(number)))),
            Some(MaybeTyped::String(text)) => {
                let text = String::from_str(alloc, text.as_str())?;
                Ok(Some(MaybeTyped::String(text)))
            }
        }
    }

    fn resolve_page_variable(
        &self,
        alloc: Global,
        variable: PageVariable,
    ) -> Result<Option<MaybeTyped<PageRanges>>, Memory> {
        match answer_in(&self.pages, variable) {
            None => Ok(None),
            Some(pages) => Ok(Some(pages.clone(alloc)?)),
        }
    }

    fn resolve_standard_variable(
        &self,
        _alloc: Global,
        form: LongShortForm,
        variable: StandardVariable,
    ) -> Result<Option<Cow<'_, ChunkedString>>, Memory> {
        if self.refused == Some(variable) {
            return Err(Memory);
        }
        match answer_in(&self.texts, variable) {
            None => Ok(None),
            Some(text) => Ok(Some(Cow::Borrowed(text.select(form)))),
        }
    }

    fn resolve_name_variable(
        &self,
        alloc: Global,
        variable: NameVariable,
    ) -> Result<Vec<Cow<'_, Person>>, Memory> {
        let mut persons = Vec::new(alloc);
        if let Some(own) = answer_in(&self.names, variable) {
            for person in own {
                persons.push(Cow::Borrowed(person))?;
            }
        }
        Ok(persons)
    }

    fn resolve_date_variable(
        &self,
        _alloc: Global,
        variable: DateVariable,
    ) -> Result<Option<Cow<'_, Date>>, Memory> {
        match answer_in(&self.dates, variable) {
            None => Ok(None),
            Some(date) => Ok(Some(Cow::Borrowed(date))),
        }
    }

    fn matches_entry_type(&self, kind: Kind) -> bool {
        self.kinds.contains(&kind)
    }

    fn is_english(&self) -> Option<bool> {
        self.english
    }

    fn key(&self) -> CowStr<'_, Global> {
        CowStr::Borrowed("row")
    }
}
