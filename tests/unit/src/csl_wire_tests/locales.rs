//! Locales that are read: terms, ordinals, dates and options.

use crate::csl_wire_tests::described_nodes::date;
use crate::csl_wire_tests::reading::json;
use crate::described::Description;
use crate::shared::assert_cases;
use csl_elements::Locale;
use csl_wire::{Limits, locale_of};
use std::alloc::Global;
use std::process::Abort;

/// Appends the terms, ordinals, dates and options of a locale.
pub(crate) fn locale<R: Abort>(out: &mut Description<'_, R>, locale: &Locale) {
    out.flag("in-quote", locale.punctuation_in_quote);
    out.flag("day-1", locale.limit_day_ordinals_to_day_1);
    for entry in &locale.terms {
        out.push(" (");
        out.push("term");
        out.value(entry.term);
        out.value(entry.form);
        out.value(entry.single.as_str());
        out.set("multiple", entry.multiple.as_deref());
        out.set("gender", entry.gender);
        out.push(")");
    }
    for ordinal in &locale.ordinals {
        out.push(" (ordinal");
        out.value(ordinal.slot);
        out.set("match", ordinal.matching);
        out.set("gender", ordinal.gender);
        out.value(ordinal.text.as_str());
        out.push(")");
    }
    for inside in &locale.dates {
        out.push(" (date");
        date(out, inside);
        out.push(")");
    }
}

/// The locale that a text is read as.
fn locale_as_text(rt: &impl Abort, alloc: Global, text: &str) -> String {
    let value = json(rt, alloc, text);
    let read = locale_of(alloc, &value, Limits::of_strangers()).expect(rt, "a locale");
    let mut out = Description::new(rt, alloc);
    locale(&mut out, &read);
    out.into_text()
}

const LOCALES: &str = r#"
{} =>
{"terms": [], "dates": null, "punctuation-in-quote": false} =>
{"punctuation-in-quote": true, "limit-day-ordinals-to-day-1": true} => in-quote day-1
{"terms": [{"name": "page", "form": "short", "single": "p.", "multiple": "pp."}, {"name":
  "month-02", "single": "février", "gender": "masculine"}, {"name": "edition", "single": "édition",
  "gender": "feminine"}, {"name": "editor", "form": "verb-short", "single": "ed. by"}, {"name":
  "and", "form": "symbol", "single": "&"}, {"name": "locator:page", "single": ""}]}
  => (term Page(Page) Short "p." multiple="pp.") (term Other(Month(1)) Long "février"
  gender=Masculine) (term Number(Edition) Long "édition" gender=Feminine) (term Name(Editor)
  VerbShort "ed. by") (term Other(And) Symbol "&") (term Locator(Page) Long "")
{"terms": [{"name": "ordinal", "single": "th"}, {"name": "ordinal-02", "single": "nd"}, {"name":
  "ordinal-12", "single": "th", "match": "last-two-digits"}, {"name": "ordinal-99", "single": "x",
  "match": "whole-number"}, {"name": "ordinal-00", "single": "y", "match": "last-digit",
  "gender-form": "feminine"}]}
  => (ordinal Default "th") (ordinal Two(2) "nd") (ordinal Two(12) match=LastTwoDigits "th")
  (ordinal Two(99) match=WholeNumber "x") (ordinal Two(0) match=LastDigit gender=Feminine "y")
{"terms": [{"name": "long-ordinal-01", "single": "first", "gender-form": "masculine"}, {"name":
  "long-ordinal-10", "single": "tenth"}]}
  => (ordinal Long(1) gender=Masculine "first") (ordinal Long(10) "tenth")
# terms and ordinals keep their own orders
{"terms": [{"name": "ordinal", "single": "."}, {"name": "at", "single": "in"}, {"name":
  "ordinal-01", "single": "er"}, {"name": "by", "single": "von"}]}
  => (term Other(At) Long "in") (term Other(By) Long "von") (ordinal Default ".") (ordinal Two(1)
  "er")
{"dates": [{"form": "numeric", "delimiter": "/", "date-part": [ {"name": "month", "form":
  "numeric-leading-zeros"}, {"name": "year"}]}, {"form": "text", "font-style": "italic", "prefix":
  "(", "suffix": ")"}]}
  => (date form=Numeric delimiter="/" [(part Month form=NumericLeadingZeros)(part Year)]) (date
  form=Text style=Italic prefix="(" suffix=")" [])
"#;

#[test]
fn terms_ordinals_dates_and_options(rt: HostRuntime) {
    let alloc = rt.alloc();
    let answer = |text: &str| locale_as_text(&rt, alloc, text);
    assert_cases(&rt, alloc, LOCALES, &answer);
}
