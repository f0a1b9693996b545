//! The ordinals of the locales of a style: of those that a number has, the first counts.

use crate::assertions::assert_text;
use crate::shared::{alone, put};
use csl_style::{
    GrammarGender, Layout, Locale, LocaleOrdinals, OrdinalSlot, OrdinalTable, OrdinalTerm,
    OtherTerm, Style, StyleSettings, TermEntry, TermForm,
};
use lit_model::Ordinals;
use std::alloc::Global;
use std::process::Abort;
use std::test::Fail;

const FEMININE: Option<GrammarGender> = Some(GrammarGender::Feminine);

/// Ordinals of one locale: their slots, genders and texts.
static ORDINALS: [(OrdinalSlot, Option<GrammarGender>, &str); 6] = [
    (OrdinalSlot::Default, None, "th"),
    (OrdinalSlot::Two(3), None, "rd"),
    (OrdinalSlot::Two(3), None, "d"),
    (OrdinalSlot::Two(3), FEMININE, "a"),
    (OrdinalSlot::Long(3), None, "third"),
    (OrdinalSlot::Long(3), FEMININE, "terza"),
];

/// A locale of a term, and one of these ordinals.
fn locales(rt: &impl Abort, alloc: Global) -> Result<Vec<Locale>, Fail> {
    let and = TermEntry::new(alloc, OtherTerm::And.into(), TermForm::Long, "and")?;
    let mut terms = Locale::new(alloc);
    put(rt, &mut terms.terms, and);
    let mut locales = alone(rt, alloc, terms);
    let mut locale = Locale::new(alloc);
    for (slot, gender, text) in &ORDINALS {
        let ordinal = OrdinalTerm {
            slot: *slot,
            matching: None,
            gender: *gender,
            text: String::from_str(alloc, *text)?,
        };
        put(rt, &mut locale.ordinals, ordinal);
    }
    put(rt, &mut locales, locale);
    Ok(locales)
}

/// A number, a gender, the suffix and the word.
type Row = (
    i32,
    Option<GrammarGender>,
    &'static str,
    Option<&'static str>,
);

static NUMBERS: [Row; 6] = [
    (3, None, "rd", Some("third")),
    (3, FEMININE, "a", Some("terza")),
    (23, None, "rd", None),
    (-3, None, "rd", None),
    (4, FEMININE, "th", None),
    (i32::MIN, None, "th", None),
];

#[test]
fn ordinals_by_gender_and_digits(rt: HostRuntime) -> Result<(), Fail> {
    let alloc = rt.alloc();
    let locales = locales(&rt, alloc)?;
    let table = OrdinalTable::new(alloc, &locales)?;
    let ordinals = LocaleOrdinals {
        locales: &locales,
        table: &table,
    };
    for &(number, gender, suffix, word) in &NUMBERS {
        assert_text(&rt, ordinals.lookup(number, gender), Some(suffix));
        assert_text(&rt, ordinals.long(number, gender), word);
    }
    Ok(())
}

#[test]
fn ordinals_outlive_the_value_that_is_asked(rt: HostRuntime) -> Result<(), Fail> {
    let alloc = rt.alloc();
    let (macros, citation) = (Vec::new(alloc), Layout::new(Vec::new(alloc)));
    let (settings, locales) = (StyleSettings::default(), locales(&rt, alloc)?);
    let style = Style::new(alloc, settings, macros, citation, None, locales)?;
    let suffix = style.ordinals().suffix(3, FEMININE);
    assert_text(&rt, suffix, Some("a"));
    assert_text(&rt, style.ordinal(3, FEMININE), Some("a"));
    assert_text(&rt, style.ordinals().word(3, FEMININE), Some("terza"));
    Ok(())
}
