//! Tests that the locales have all that CSL's own have: how many terms, ordinals and parts of dates,
//! and a sum over all of them and the options. The expected figures are those that
//! `tools/compare_locales` prints of the files of CSL's own locales. Also the tags of
//! languages.

use crate::assertions::assert_same;
use crate::shared::assert_cases;
use csl::style::{Date, DatePart, Locale, OrdinalTerm, TermEntry};
use csl::{
    Language, Memory, brazilian_portuguese, british_english, dutch, english, french, german,
    italian, japanese, polish, simplified_chinese, spanish,
};
use std::alloc::Global;
use std::fmt::Debug;
use std::process::Abort;

/// Where the sum of a row begins, and by what each byte multiplies it.
const BASIS: u64 = 0xcbf2_9ce4_8422_2325;

const PRIME: u64 = 0x0100_0000_01b3;

/// A sum over rows, whatever their order: FNV-1a of the bytes of each row, added up. A row is some
/// texts, each ended by a zero.
#[derive(Drop)]
struct Sum {
    alloc: Global,
    rows: u64,
    row: u64,
}

impl Sum {
    fn new(alloc: Global) -> Sum {
        Sum {
            alloc,
            rows: 0,
            row: BASIS,
        }
    }

    fn add_byte(&mut self, byte: u8) {
        self.row = (self.row ^ u64::from(byte)).wrapping_mul(PRIME);
    }

    fn add_text(&mut self, text: &str) {
        for byte in text.bytes() {
            self.add_byte(byte);
        }
        self.add_byte(0);
    }

    /// Adds the name of a value in small letters.
    fn add_name<T: Debug>(&mut self, rt: &impl Abort, value: &T) {
        let name = format!(in self.alloc; "{value:?}").expect(rt, "memory");
        for byte in name.as_str().bytes() {
            self.add_byte(byte.to_ascii_lowercase());
        }
        self.add_byte(0);
    }

    fn end_row(&mut self) {
        self.rows = self.rows.wrapping_add(self.row);
        self.row = BASIS;
    }
}

fn add_term(rt: &impl Abort, sum: &mut Sum, term: &TermEntry) {
    sum.add_text("term");
    sum.add_name(rt, &term.term);
    sum.add_name(rt, &term.form);
    sum.add_text(term.text(false));
    sum.add_text(term.text(true));
    sum.add_name(rt, &term.gender);
    sum.end_row();
}

fn add_ordinal(rt: &impl Abort, sum: &mut Sum, ordinal: &OrdinalTerm) {
    sum.add_text("ordinal");
    sum.add_name(rt, &ordinal.slot);
    sum.add_name(rt, &ordinal.matching);
    sum.add_name(rt, &ordinal.gender);
    sum.add_text(ordinal.text.as_str());
    sum.end_row();
}

fn add_part(rt: &impl Abort, sum: &mut Sum, date: &Date, place: usize, part: &DatePart) {
    sum.add_text("date");
    sum.add_name(rt, &date.form);
    sum.add_name(rt, &place);
    sum.add_name(rt, &part.name);
    sum.add_name(rt, &part.form);
    sum.add_text(part.affixes.prefix.as_deref().unwrap_or(""));
    sum.add_text(part.affixes.suffix.as_deref().unwrap_or(""));
    sum.end_row();
}

/// Adds the parts of a date and its delimiter, and returns how many parts there are.
fn add_date(rt: &impl Abort, sum: &mut Sum, date: &Date) -> usize {
    let mut count = 0;
    for part in &date.date_part {
        count += 1;
        add_part(rt, sum, date, count, part);
    }
    sum.add_text("date");
    sum.add_name(rt, &date.form);
    sum.add_text("delimiter");
    sum.add_text(date.delimiter.as_deref().unwrap_or(""));
    sum.end_row();
    count
}

fn add_option(rt: &impl Abort, sum: &mut Sum, name: &str, is_set: bool) {
    sum.add_text("option");
    sum.add_text(name);
    sum.add_name(rt, &is_set);
    sum.end_row();
}

/// Languages by their tags: the name of each, how many terms, ordinals and parts of dates its locale
/// has, and the sum over its rows.
const LANGUAGES: &str = "
en-US => English 204 17 6 0xab2ad11d0ac68c55
en-GB => BritishEnglish 204 17 6 0x58d6cc0380abd4e0
de-DE => German 208 11 6 0xec7122845fad860b
fr-FR => French 204 13 6 0xefaee49e058a386c
es-ES => Spanish 204 11 6 0x78bcc5fe92ffecf4
it-IT => Italian 206 33 6 0x16929069ee46e5e5
pt-BR => BrazilianPortuguese 204 23 6 0xf8b1d905590ec253
nl-NL => Dutch 204 29 6 0xfd35a93be425c7f0
pl-PL => Polish 204 11 6 0x9786bda4261a8152
ja-JP => Japanese 204 17 6 0x85d509ed2206e5d9
zh-CN => SimplifiedChinese 205 11 6 0x8a85ac5fbec94aea
";

/// How many terms, ordinals and parts of dates a locale has, and the sum over its rows.
fn figures(rt: &impl Abort, alloc: Global, locale: &Locale) -> String {
    let mut sum = Sum::new(alloc);
    for term in &locale.terms {
        add_term(rt, &mut sum, term);
    }
    for ordinal in &locale.ordinals {
        add_ordinal(rt, &mut sum, ordinal);
    }
    let mut parts = 0;
    for date in &locale.dates {
        parts += add_date(rt, &mut sum, date);
    }
    let quotes = locale.punctuation_in_quote;
    add_option(rt, &mut sum, "punctuation_in_quote", quotes);
    let days = locale.limit_day_ordinals_to_day_1;
    add_option(rt, &mut sum, "limit_day_ordinals_to_day_1", days);
    let (terms, ordinals, sum) = (locale.terms.len(), locale.ordinals.len(), sum.rows);
    format!(in alloc; "{terms} {ordinals} {parts} {sum:#018x}").expect(rt, "memory")
}

/// The locale of a language, by the call of its name.
fn locale_by_name(alloc: Global, language: Language) -> Result<Locale, Memory> {
    match language {
        Language::English => english(alloc),
        Language::BritishEnglish => british_english(alloc),
        Language::German => german(alloc),
        Language::French => french(alloc),
        Language::Spanish => spanish(alloc),
        Language::Italian => italian(alloc),
        Language::BrazilianPortuguese => brazilian_portuguese(alloc),
        Language::Dutch => dutch(alloc),
        Language::Polish => polish(alloc),
        Language::Japanese => japanese(alloc),
        Language::SimplifiedChinese => simplified_chinese(alloc),
    }
}

#[test]
fn languages_have_all_of_their_locales(rt: HostRuntime) {
    let alloc = rt.alloc();
    let answer = |tag: &str| {
        let language = Language::from_tag(tag).expect(&rt, "a language");
        assert_same(&rt, &language.tag(), &tag);
        let [locale, by_name] = [language.locale(alloc), locale_by_name(alloc, language)].map(
            |locale| figures(&rt, alloc, &locale.expect(&rt, "memory")),
        );
        assert_same(&rt, &locale.as_str(), &by_name.as_str());
        format!(in alloc; "{language:?} {locale}").expect(&rt, "memory")
    };
    assert_cases(&rt, alloc, LANGUAGES, &answer);
}

/// Texts, and the languages that they are tags of: in either case, with `_` for `-`, and without a
/// region.
const TAGS: &str = "
EN-us => Some(English)
en_US => Some(English)
en => Some(English)
en_gb => Some(BritishEnglish)
DE => Some(German)
pt => Some(BrazilianPortuguese)
pt_br => Some(BrazilianPortuguese)
zh => Some(SimplifiedChinese)
pt-PT => None
es-MX => None
zh-TW => None
da => None
- => None
en- => None
en US => None
English => None
";

#[test]
fn tags_find_languages(rt: HostRuntime) {
    let alloc = rt.alloc();
    let answer = |tag: &str| {
        let language = Language::from_tag(tag);
        format!(in alloc; "{language:?}").expect(&rt, "memory")
    };
    assert_cases(&rt, alloc, TAGS, &answer);
    assert_same(&rt, &Language::from_tag(""), &None);
}
