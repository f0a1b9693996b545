//! Options of styles, by their attributes in CSL 1.0.2, and why they are refused.

use crate::csl_wire_list_tests::reading::{
    bibliography_options, citation_options, options_of_style, options_text,
};
use crate::shared::assert_cases;
use crate::wire::json;
use csl_wire::{Form, Limits, Reader};
use csl_wire_list::{OptionLimits, list_style_in, list_style_of};

/// Options of citations, and those that are read otherwise than where none are set.
const CITATIONS: &str = r#"
{} =>
{"layout": {"prefix": "(", "suffix": ")", "delimiter": "; "}}
  => prefix="(" suffix=")" delimiter="; "
{"layout": {"suffix": "."}, "sort": null} => suffix="."
{"sort": [{"macro": "author"}, {"variable": "issued", "sort": "descending"}, {"variable": "title",
  "sort": "ascending"}]}
  => key=author key=-Date(Issued) key=Standard(Title)
{"collapse": "citation-number"} => collapse=CitationNumber
{"collapse": "year", "cite-group-delimiter": ", "} => collapse=Year group=", "
{"collapse": "year-suffix", "year-suffix-delimiter": ","} => collapse=YearSuffix suffixes=","
{"collapse": "year-suffix-ranged", "after-collapse-delimiter": "; "}
  => collapse=YearSuffixRanged after="; "
{"near-note-distance": 12} => distance=12
{"disambiguate-add-names": true, "disambiguate-add-givenname": false} => names
{"disambiguate-add-givenname": true, "givenname-disambiguation-rule": "primary-name-with-initials"}
  => given-names rule=PrimaryNameWithInitials
{"disambiguate-add-year-suffix": true, "colapse": null} => year-suffix
# rules of given names
{"givenname-disambiguation-rule": "all-names"} => rule=AllNames
{"givenname-disambiguation-rule": "all-names-with-initials"} => rule=AllNamesWithInitials
{"givenname-disambiguation-rule": "primary-name"} => rule=PrimaryName
{"givenname-disambiguation-rule": "primary-name-with-initials"} => rule=PrimaryNameWithInitials
{"givenname-disambiguation-rule": "by-cite"} =>
# refused
[] => wrong-type: an object goes here
{"colapse": "year"}
  => unknown-member: no member here has this name: "colapse" (the nearest is "collapse")
# affixes and delimiter belong to the layout
{"delimiter": "; "} => unknown-member: no member here has this name: "delimiter"
{"layout": "; "} => /layout wrong-type: an object goes here
{"layout": {"delimeter": "; "}}
  => /layout unknown-member: no member here has this name: "delimeter" (the nearest is "delimiter")
{"layout": {"delimiter": 1}} => /layout/delimiter wrong-type: a text goes here
{"collapse": "years"}
  => /collapse unknown-name: no value here has this name: "years" (the nearest is "year")
{"collapse": true} => /collapse wrong-type: a text goes here
{"cite-group-delimiter": [","]} => /cite-group-delimiter wrong-type: a text goes here
{"near-note-distance": "5"} => /near-note-distance wrong-type: a number goes here
{"near-note-distance": 5.0}
  => /near-note-distance out-of-range: a whole number from 0 to 4294967295 goes here
{"disambiguate-add-names": "true"} => /disambiguate-add-names wrong-type: true or false goes here
{"givenname-disambiguation-rule": "all"}
  => /givenname-disambiguation-rule unknown-name: no value here has this name: "all"
{"sort": {"macro": "author"}} => /sort wrong-type: a list goes here
{"sort": [{"macro": "author"}, {}]} => /sort/1 missing-member: a member is missing: "variable"
{"sort": [{"macro": "author", "variable": "title"}]}
  => /sort/0 wrong-type: a key has one of variable and macro
{"sort": [{"variable": "titel"}]}
  => /sort/0/variable unknown-name: no variable has this name: "titel" (the nearest is "title")
{"sort": [{"variable": "title", "sort": "down"}]}
  => /sort/0/sort unknown-name: no value here has this name: "down"
"#;

#[test]
fn options_of_citations(rt: HostRuntime) {
    let alloc = rt.alloc();
    let answer = |text: &str| citation_options(&rt, alloc, text);
    assert_cases(&rt, alloc, CITATIONS, &answer);
}

/// Options of bibliographies, likewise.
const BIBLIOGRAPHIES: &str = r#"
{} =>
{"layout": {"prefix": "- ", "suffix": "."}} => prefix="- " suffix="."
{"sort": [{"variable": "citation-number"}, {"macro": "issued", "sort": "descending"}]}
  => key=Number(CitationNumber) key=-issued
{"hanging-indent": true} => hanging
{"second-field-align": "flush"} => align=Flush
{"second-field-align": "margin"} => align=Margin
{"line-spacing": 2, "entry-spacing": 0} => line=2 entry=0
{"subsequent-author-substitute": "———"} => substitute="———" CompleteAll
{"subsequent-author-substitute": "", "subsequent-author-substitute-rule": "complete-each"}
  => substitute="" CompleteEach
{"subsequent-author-substitute": "-", "subsequent-author-substitute-rule": "partial-each"}
  => substitute="-" PartialEach
{"subsequent-author-substitute": "-", "subsequent-author-substitute-rule": "partial-first"}
  => substitute="-" PartialFirst
# without a text the rule changes nothing
{"subsequent-author-substitute-rule": "partial-first"} =>
# refused
{"layout": {"delimiter": "; "}} => /layout unknown-member: no member here has this name: "delimiter"
{"collapse": "year"} => unknown-member: no member here has this name: "collapse"
{"hanging-indent": 1} => /hanging-indent wrong-type: true or false goes here
{"second-field-align": "true"}
  => /second-field-align unknown-name: no value here has this name: "true"
{"line-spacing": 0} => /line-spacing out-of-range: a distance of lines is from 1 to 4294967295
{"entry-spacing": -1} => /entry-spacing out-of-range: a whole number from 0 to 4294967295 goes here
{"subsequent-author-substitute": false}
  => /subsequent-author-substitute wrong-type: a text goes here
{"subsequent-author-substitute-rule": "complete-al"}
  => /subsequent-author-substitute-rule unknown-name: no value here has this name: "complete-al"
  (the nearest is "complete-all")
"#;

#[test]
fn options_of_bibliographies(rt: HostRuntime) {
    let alloc = rt.alloc();
    let answer = |text: &str| bibliography_options(&rt, alloc, text);
    assert_cases(&rt, alloc, BIBLIOGRAPHIES, &answer);
}

/// Styles with their options: those of citations before a slash, and those of bibliographies after
/// it.
const STYLES: &str = r#"
{"style": {}, "class": "in-text"} => /
{"style": {}, "class": "note"} => capital /
{"style": {}, "class": "note", "citation": {"layout": {"suffix": "."}}} => suffix="." capital /
{"style": {}} => /
{"style": {}, "citation": {"layout": {"delimiter": "; "}}, "bibliography": {"hanging-indent": true}}
  => delimiter="; " / hanging
{"style": {"macros": [{"name": "author"}]}, "citation": null, "bibliography": {"sort": [{"macro":
  "author"}]}}
  => / key=author
# refused
{"style": {}, "class": "notes"}
  => /class unknown-name: no value here has this name: "notes" (the nearest is "note")
{} => missing-member: a member is missing: "style"
{"style": {}, "citations": {}}
  => unknown-member: no member here has this name: "citations" (the nearest is "citation")
{"style": {"citation": {"collapse": "year"}}}
  => /style/citation unknown-member: no member here has this name: "collapse"
{"style": {}, "bibliography": {"sort": [{"variable": "bok"}]}}
  => /bibliography/sort/0/variable unknown-name: no variable has this name: "bok"
{"style": {"macros": [{"name": "author"}]}, "citation": {"sort": [{"macro": "author"}, {"macro":
  "autor"}]}}
  => /citation/sort/1/macro unknown-name: no value here has this name: "autor" (the nearest is
  "author")
{"style": {}, "bibliography": {"sort": [{"macro": "author"}]}}
  => /bibliography/sort/0/macro unknown-name: no value here has this name: "author"
"#;

#[test]
fn styles_with_options(rt: HostRuntime) {
    let alloc = rt.alloc();
    let answer = |text: &str| options_of_style(&rt, alloc, text);
    assert_cases(&rt, alloc, STYLES, &answer);
}

/// Styles, and whether works are English by them that do not say so.
static LANGUAGES: [(&str, bool); 6] = [
    (r#"{"style": {}}"#, true),
    (r#"{"style": {"locales": ["en-GB"]}}"#, true),
    (r#"{"style": {"locales": ["EN"]}}"#, true),
    (r#"{"style": {"locales": ["de-DE", "en-US"]}}"#, false),
    // a locale without a tag says nothing
    (r#"{"style": {"locales": [{}, "fr"]}}"#, false),
    (r#"{"style": {"locales": [{}]}}"#, true),
];

#[test]
fn languages_of_styles(rt: HostRuntime) {
    let alloc = rt.alloc();
    for &(text, wanted) in &LANGUAGES {
        let value = json(&rt, alloc, text);
        let style = list_style_of(alloc, &value, OptionLimits::of_strangers());
        let style = style.expect(&rt, "a style");
        assert_eq!(&rt; style.is_english(), wanted, "of {text}");
    }
}

/// A request with a style has further members.
#[test]
fn style_of_a_request(rt: HostRuntime) {
    let alloc = rt.alloc();
    let request = r#"{"op": "style", "style": {}, "citation": {"layout": {"delimiter": "; "}}}"#;
    let value = json(&rt, alloc, request);
    let limits = Limits::of_strangers();
    let form = Form::of(
        Reader {
            alloc,
            limits,
            marks: false,
        },
        &value,
        &[&["op", "style", "citation"]],
    );
    let form = form.expect(&rt, "a request");
    let style = list_style_in(form, OptionLimits::of_strangers()).expect(&rt, "a style");
    let came = options_text(&rt, alloc, &style);
    assert_eq!(&rt; came.as_str(), r#" delimiter="; " /"#);
}
