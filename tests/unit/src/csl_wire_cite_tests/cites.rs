//! What cites are read as, and why they are refused.

use crate::described::Description;
use crate::shared::assert_cases;
use crate::wire::{json, told};
use csl_entry::{CiteProperties, DisambiguateState, IbidState, SpecificLocator};
use csl_wire_cite::{WorkLimits, cite_of};
use std::alloc::Global;
use std::process::Abort;

/// Appends how a cite is disambiguated.
fn state<R: Abort>(out: &mut Description<'_, R>, state: &DisambiguateState) {
    match state {
        DisambiguateState::None => {}
        DisambiguateState::Choose => out.push(" choose"),
        DisambiguateState::YearSuffix(number) => out.set("suffix", Some(*number)),
        DisambiguateState::NameDisambiguation(names) => {
            out.set("names", Some(names.default_name_form()));
            out.value(names.variables());
            for list in names.name_forms() {
                out.value(list);
            }
        }
    }
}

/// Appends the properties of a cite that differ from those of a first cite. Its citation number and
/// its year suffix count from 0.
fn properties<R: Abort>(out: &mut Description<'_, R>, cite: &CiteProperties<'_>) {
    let (certain, speculative) = (&cite.certain, &cite.speculative);
    out.push(if certain.is_first { "first" } else { "later" });
    out.flag("near", certain.is_near_note);
    if speculative.ibid != IbidState::Different {
        out.value(speculative.ibid);
    }
    let number = speculative.citation_number.get();
    out.set("number", Some(number).filter(|number| *number > 0));
    let index = certain.initial_idx;
    out.set("index", Some(index).filter(|index| *index > 0));
    out.set("note", certain.first_note_number.map(|note| note.get()));
    if let Some(SpecificLocator(kind, payload)) = speculative.locator {
        out.value(kind);
        out.value(payload);
    }
    state(out, &speculative.disambiguation);
}

/// What a text is read as, or the refusal.
fn cite_as_text(rt: &impl Abort, alloc: Global, text: &str) -> String {
    match cite_of(alloc, &json(rt, alloc, text), WorkLimits::of_strangers()) {
        Ok(cite) => {
            let mut out = Description::new(rt, alloc);
            properties(&mut out, &cite.properties);
            out.set("only", cite.form);
            out.into_text()
        }
        Err(error) => told(rt, alloc, error),
    }
}

/// Cites. Citation numbers count from 1. A year suffix is the number from 0 of the word over a to z
/// (CSL 1.0.2, Disambiguation: disambiguate-add-year-suffix).
const CITES: &str = r#"
# positions
{} => first
{"position": "first"} => first
{"position": "subsequent"} => later
{"position": "ibid"} => later Ibid
{"position": "ibid-with-locator", "near-note": true} => later near IbidWithLocator
{"position": "last"} => /position unknown-name: no value here has this name: "last"
{"position": ["first"]} => /position wrong-type: a text goes here
{"near-note": 1} => /near-note wrong-type: true or false goes here
# numbers
{"citation-number": 1} => first
{"citation-number": 2147483647} => first number=2147483646
{"citation-number": 0} => /citation-number out-of-range: a citation number is from 1 to 2147483647
{"citation-number": 2147483648}
  => /citation-number out-of-range: a citation number is from 1 to 2147483647
{"citation-number": "3"} => /citation-number wrong-type: a number goes here
{"first-reference-note-number": 6, "index": 4294967295} => first index=4294967295 note=6
{"first-reference-note-number": 2147483647, "index": null} => first note=2147483647
{"first-reference-note-number": 2147483648}
  => /first-reference-note-number out-of-range: a note number is from 0 to 2147483647
{"index": -1} => /index out-of-range: a whole number from 0 to 4294967295 goes here
# locators
{"locator": {"label": "page", "value": "7"}} => first Page Str("7")
{"locator": {"label": "sub-verbo"}, "index": 3} => first index=3 SubVerbo Transparent
{"locator": {"value": "7"}} => /locator missing-member: a member is missing: "label"
{"locator": {"label": "pages", "value": "7"}}
  => /locator/label unknown-name: no locator has this name: "pages" (the nearest is "page")
{"locator": {"label": "page", "value": 7}} => /locator/value wrong-type: a text goes here
{"locator": {"label": "page", "text": "7"}}
  => /locator unknown-member: no member here has this name: "text"
{"locator": "7"} => /locator wrong-type: an object goes here
# year suffixes
{"year-suffix": "a"} => first suffix=0
{"year-suffix": "z"} => first suffix=25
{"year-suffix": "aa"} => first suffix=26
{"year-suffix": "zz"} => first suffix=701
{"year-suffix": "aaa"} => first suffix=702
{"year-suffix": "crxp"} => first suffix=65535
{"year-suffix": "crxq"}
  => /year-suffix out-of-range: a year suffix is of letters from a to z, and at most crxp
{"year-suffix": "zzzzzzzzzzzzzzzzzzzz"}
  => /year-suffix out-of-range: a year suffix is of letters from a to z, and at most crxp
{"year-suffix": ""}
  => /year-suffix out-of-range: a year suffix is of letters from a to z, and at most crxp
{"year-suffix": "A"}
  => /year-suffix out-of-range: a year suffix is of letters from a to z, and at most crxp
{"year-suffix": "a`"}
  => /year-suffix out-of-range: a year suffix is of letters from a to z, and at most crxp
{"year-suffix": 0} => /year-suffix wrong-type: a text goes here
{"year-suffix": "a", "disambiguate": true}
  => wrong-type: a cite has one of disambiguate, year-suffix and names
# forms of names
{"names": {"default": "short", "variable": ["author"], "lists": [["count", "short-initials",
  "short"], ["long-initials", "long", null]]}}
  => first names=ShortFull [Author] [Some(Count), Some(ShortInitialized), Some(ShortFull)]
  [Some(LongInitialized), Some(LongFull), None]
{"names": {"default": "count", "variable": []}, "disambiguate": false} => first names=Count []
{"disambiguate": true} => first choose
{"disambiguate": true, "names": {}}
  => wrong-type: a cite has one of disambiguate, year-suffix and names
{"names": {"default": "short", "variable": ["author"]}, "year-suffix": "b"}
  => wrong-type: a cite has one of disambiguate, year-suffix and names
{"names": {"variable": ["author"]}} => /names missing-member: a member is missing: "default"
{"names": {"default": "short"}} => /names missing-member: a member is missing: "variable"
{"names": {"default": "shrt", "variable": ["author"]}}
  => /names/default unknown-name: no value here has this name: "shrt" (the nearest is "short")
{"names": {"default": "short", "variable": ["autor"]}}
  => /names/variable/0 unknown-name: no name variable has this name: "autor" (the nearest is
  "author")
{"names": {"default": "short", "variable": ["author"], "lists": ["long"]}}
  => /names/lists/0 wrong-type: a list goes here
{"names": {"default": "short", "variable": ["author"], "lists": [[], ["long", 1]]}}
  => /names/lists/1/1 wrong-type: a text goes here
{"names": {"default": "short", "variable": ["author"], "lists": [["lng"]]}}
  => /names/lists/0/0 unknown-name: no value here has this name: "lng" (the nearest is "long")
# parts that are printed
{"form": "first-date"} => first only=OnlyFirstDate
{"form": "year-suffix"} => first only=OnlyYearSuffix
{"form": "no-author"} => first only=SuppressAuthor
{"only": "title"} => first only=VarOnly(Standard(Title))
{"only": "title", "form": "no-author"} => wrong-type: a cite has one of form and only
{"form": "no-autor"}
  => /form unknown-name: no value here has this name: "no-autor" (the nearest is "no-author")
{"only": "titel"} => /only unknown-name: no variable has this name: "titel" (the nearest is "title")
{"prefix": "see "} => unknown-member: no member here has this name: "prefix"
"#;

#[test]
fn cites(rt: HostRuntime) {
    let alloc = rt.alloc();
    assert_cases(&rt, alloc, CITES, &|text| cite_as_text(&rt, alloc, text));
}
