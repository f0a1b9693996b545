//! Cites: their properties with copies, and what they answer.

use crate::assertions::{assert_of, assert_same};
use crate::shared::{alone, put};
use csl_elements::{
    DateVariable, Locator, NameVariable, NumberOrPageVariable, NumberVariable, PageVariable,
    StandardVariable,
};
use csl_entry::{
    CertainCiteProperties, CitationNumber, CiteProperties, DisambiguateState,
    DisambiguatedNameForm, IbidState, InstanceContext, LocatorPayload,
    NameDisambiguationProperties, NoteNumber, NumberOrPageVariableResult, NumberVariableResult,
    Sorting, SpecialForm, SpecificLocator, SpeculativeCiteProperties, csl_language, letter,
};
use lit_model::{
    Date, Entry, EntryType, LanguageIdentifier, LongShortForm, MaybeTyped, Numeric, PageRanges,
    Person,
};
use std::alloc::Global;
use std::borrow::Cow;
use std::process::Abort;
use std::test::Fail;

/// The third cite that the caller handed in, of an entry whose first note is 6, with citation number 5
/// as a reader counts.
fn properties(
    rt: &impl Abort,
    disambiguation: DisambiguateState,
    page: LocatorPayload<'static>,
) -> CiteProperties<'static> {
    CiteProperties {
        certain: CertainCiteProperties {
            first_note_number: NoteNumber::new(6),
            is_first: true,
            is_near_note: false,
            initial_idx: 2,
        },
        speculative: SpeculativeCiteProperties {
            locator: Some(SpecificLocator(Locator::Page, page)),
            citation_number: CitationNumber::new(4).expect(rt, "a citation number"),
            disambiguation,
            ibid: IbidState::Ibid,
        },
    }
}

/// A cite in words: its properties, and its state with the number of its variables or its year
/// suffix.
fn words_of(alloc: Global, cite: &CiteProperties<'_>) -> Result<String, Fail> {
    let (certain, locator) = (cite.certain, cite.speculative.locator);
    let (number, ibid) = (
        cite.speculative.citation_number.get(),
        cite.speculative.ibid,
    );
    let (state, count) = match &cite.speculative.disambiguation {
        DisambiguateState::None => ("none", 0),
        DisambiguateState::NameDisambiguation(names) => ("names", names.variables().len()),
        DisambiguateState::Choose => ("choose", 0),
        DisambiguateState::YearSuffix(number) => ("suffix", *number as usize),
    };
    Ok(format!(in alloc; "{certain:?} {locator:?} {number} {ibid:?} {state} {count}")?)
}

#[test]
fn copied_properties_of_a_cite_are_equal(rt: HostRuntime) -> Result<(), Fail> {
    let alloc = rt.alloc();
    let author = alone(&rt, alloc, NameVariable::Author);
    let full = DisambiguatedNameForm::ShortFull;
    let names = NameDisambiguationProperties::new(full, author, Vec::new(alloc));
    for (state, words) in [
        (DisambiguateState::None, "none 0"),
        (DisambiguateState::Choose, "choose 0"),
        (DisambiguateState::YearSuffix(256), "suffix 256"),
        (DisambiguateState::NameDisambiguation(names), "names 1"),
    ] {
        let cite = properties(&rt, state.clone(alloc)?, LocatorPayload::Str("5"));
        let (text, copy) = (words_of(alloc, &cite)?, cite.clone(alloc)?);
        assert!(rt; text.as_str().ends_with(words), "{text} of {words}");
        assert_same(&rt, &words_of(alloc, &copy)?.as_str(), &text.as_str());
        let again = CiteProperties {
            certain: copy.certain,
            speculative: SpeculativeCiteProperties::clone(&copy.speculative, alloc)?,
        };
        assert_same(&rt, &words_of(alloc, &again)?.as_str(), &text.as_str());
    }
    let first = CiteProperties::first(DisambiguateState::Choose);
    let (certain, speculative) = (&first.certain, &first.speculative);
    assert!(rt; certain.is_first && certain.initial_idx == 0 && !certain.is_near_note);
    assert_same(&rt, &certain.first_note_number, &None);
    let number = speculative.citation_number.get();
    assert_same(&rt, &(number, speculative.ibid), &(0, IbidState::Different));
    assert!(rt; speculative.locator.is_none());
    Ok(())
}

/// A number, and whether it is a citation number and a note number. Citation numbers are printed one
/// greater.
static NUMBERS: [(u32, bool, bool); 4] = [
    (0, true, true),
    (2147483646, true, true),
    (2147483647, false, true),
    (2147483648, false, false),
];

#[test]
fn printed_numbers_fit_an_i32(rt: HostRuntime) {
    for &(number, is_citation_number, is_note_number) in &NUMBERS {
        let citation = CitationNumber::new(number).map(|it| it.get());
        assert_same(&rt, &citation, &is_citation_number.then_some(number));
        let note = NoteNumber::new(number).map(|it| it.get());
        assert_same(&rt, &note, &is_note_number.then_some(number));
    }
}

/// The answer as text: `'` and a text that is not a number, `@` and the index of a text that the
/// caller writes, or `none`.
fn number_text(alloc: Global, found: Option<NumberVariableResult<'_>>) -> Result<String, Fail> {
    Ok(match found {
        None => String::from_str(alloc, "none")?,
        Some(NumberVariableResult::Regular(MaybeTyped::Typed(number))) => {
            number.as_ref().to_string(alloc)?
        }
        Some(NumberVariableResult::Regular(MaybeTyped::String(text))) => {
            format!(in alloc; "'{text}")?
        }
        Some(NumberVariableResult::Transparent(index)) => format!(in alloc; "@{index}")?,
    })
}

/// Volume 3 of a book of 2014 by two authors, with the pages 7 to 9.
fn book(rt: &impl Abort, alloc: Global) -> Result<Entry, Fail> {
    let mut authors = alone(rt, alloc, Person::institution(alloc, "Ann")?);
    put(rt, &mut authors, Person::institution(alloc, "Ben")?);
    Ok(
        Entry::titled(alloc, "key", EntryType::Book, "Nature")?
            .with_authors(authors)
            .with_date(Date::of_year(2014))
            .with_volume(MaybeTyped::Typed(Numeric::new(3)))
            .with_page_range(MaybeTyped::Typed(PageRanges::parse(alloc, "7-9")?)),
    )
}

/// A cite of the entry, to be sorted by a macro, and without its author.
fn cite_of<'s>(entry: &'s Entry, cite_props: &'s CiteProperties<'s>) -> InstanceContext<'s, Entry> {
    InstanceContext {
        entry,
        cite_props,
        sorting: Some(Sorting::Macro),
        kind: Some(SpecialForm::SuppressAuthor),
    }
}

/// The citation answers the first three variables.
#[test]
fn numbers_of_the_citation_and_of_the_entry(rt: HostRuntime) -> Result<(), Fail> {
    let alloc = rt.alloc();
    let book = book(&rt, alloc)?;
    for (page, wanted) in [
        (LocatorPayload::Str(" 12"), "12"),
        (LocatorPayload::Str("12 b"), "'12 b"),
        (LocatorPayload::Transparent, "@2"),
    ] {
        let props = properties(&rt, DisambiguateState::None, page);
        let cite = cite_of(&book, &props);
        for (variable, wanted) in [
            (NumberVariable::CitationNumber, "5"),
            (NumberVariable::FirstReferenceNoteNumber, "6"),
            (NumberVariable::Locator, wanted),
            (NumberVariable::Volume, "3"),
            (NumberVariable::Issue, "none"),
        ] {
            let text = number_text(alloc, cite.resolve_number_variable(alloc, variable)?)?;
            assert_of(&rt, &text.as_str(), &wanted, variable);
            let either: NumberOrPageVariable = variable.into();
            let found = match cite.resolve_number_or_page_variable(alloc, either)? {
                Some(NumberOrPageVariableResult::Number(number)) => Some(number),
                _ => None,
            };
            assert_of(&rt, &number_text(alloc, found)?.as_str(), &wanted, variable);
        }
    }
    Ok(())
}

/// Pages that the entry holds are lent. The citation answers the year suffix.
#[test]
fn pages_texts_persons_and_dates(rt: HostRuntime) -> Result<(), Fail> {
    let alloc = rt.alloc();
    let book = book(&rt, alloc)?;
    let suffix = DisambiguateState::YearSuffix(0);
    let props = properties(&rt, suffix, LocatorPayload::Transparent);
    let cite = cite_of(&book, &props).clone()?;
    assert_same(&rt, &cite.sorting, &Some(Sorting::Macro));
    assert_same(&rt, &cite.kind, &Some(SpecialForm::SuppressAuthor));
    let (page, form) = (PageVariable::Page, LongShortForm::Long);
    let pages = MaybeTyped::Typed(PageRanges::parse(alloc, "7-9")?);
    assert!(rt;
        cite.resolve_page_variable(alloc, page)?.as_ref() == Some(&pages),
        "pages"
    );
    let lent = cite.lend_pages(alloc, page)?;
    assert!(rt;
        matches!(&lent, Some(Cow::Borrowed(lent)) if **lent == pages),
        "lent pages"
    );
    let either = cite.resolve_number_or_page_variable(alloc, page.into())?;
    let is_same = either == Some(NumberOrPageVariableResult::Page(pages));
    assert!(rt; is_same, "pages in place of a number");
    for (variable, wanted) in [
        (StandardVariable::YearSuffix, "a"),
        (StandardVariable::Title, "Nature"),
    ] {
        let text = cite
            .resolve_standard_variable(alloc, form, variable)?
            .expect(&rt, "a text");
        let words = text.as_ref().to_text(alloc)?;
        assert_of(&rt, &words.as_str(), &wanted, variable);
        let lent = cite.lend_text(alloc, form, variable)?.expect(&rt, "a text");
        assert_of(&rt, &lent.is_white_space(), &false, variable);
    }
    for (variable, count) in [(NameVariable::Author, 2), (NameVariable::Editor, 0)] {
        let persons = cite.resolve_name_variable(alloc, variable)?;
        let answers = (persons.len(), cite.has_persons(alloc, variable)?);
        assert_of(&rt, &answers, &(count, count > 0), variable);
    }
    let issued = cite.resolve_date_variable(alloc, DateVariable::Issued)?;
    assert_same(&rt, &issued.map(|date| date.as_ref().year()), &Some(2014));
    Ok(())
}

#[test]
fn suffixes_and_languages_in_letters(rt: HostRuntime) -> Result<(), Fail> {
    let alloc = rt.alloc();
    assert_same(&rt, &letter(alloc, 701)?.as_str(), &"zz");
    assert_same(&rt, &letter(alloc, 702)?.as_str(), &"aaa");
    let american = LanguageIdentifier {
        language: String::from_str(alloc, "en")?,
        region: Some(String::from_str(alloc, "US")?),
    };
    assert_same(&rt, &csl_language(alloc, &american)?.as_str(), &"en-US");
    Ok(())
}
