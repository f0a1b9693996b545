//! Nodes that are read: each element with each of its attributes, and the defaults of those that are
//! absent; and why nodes are refused.

use crate::csl_wire_tests::reading::nodes_as_text;
use crate::shared::assert_cases;

/// Nodes, and what they are read as.
const NODES: &str = r#"
# texts
[] => []
[{"text": {"variable": "title"}}] => [(text variable=Standard(Title) Long)]
[{"text": {"variable": "container-title", "form": "short"}}]
  => [(text variable=Standard(ContainerTitle) Short)]
[{"text": {"macro": "author"}}] => [(text macro="author")]
[{"text": {"value": ""}}, {"text": {"value": "a"}}] => [(text value="")(text value="a")]
[{"text": {"term": "page", "form": "verb-short", "plural": true}}]
  => [(text term=Page(Page) VerbShort plural)]
# a term of a locator that has the name of a variable too, and one of both
[{"text": {"term": "locator:page"}}, {"text": {"term": "paragraph"}}]
  => [(text term=Locator(Page) Long)(text term=Locator(Paragraph) Long)]
[{"text": {"term": "month-05", "plural": false}}, {"text": {"term": "no date"}}]
  => [(text term=Other(Month(4)) Long)(text term=Other(NoDate) Long)]
[{"text": {"value": "a", "quotes": true, "strip-periods": true, "prefix": "(", "suffix": ")",
  "display": "block"}}]
  => [(text value="a" quotes strip-periods prefix="(" suffix=")" display=Block)]
# formatting and display
[{"text": {"value": "a", "font-style": "italic", "font-variant": "small-caps", "font-weight":
  "bold", "text-decoration": "underline", "vertical-align": "sup"}}]
  => [(text value="a" style=Italic variant=SmallCaps weight=Bold decoration=Underline align=Sup)]
[{"text": {"value": "a", "font-style": "normal", "font-variant": "normal", "font-weight": "normal",
  "text-decoration": "none", "vertical-align": "none"}}]
  => [(text value="a" style=Normal variant=Normal weight=Normal decoration=None align=None)]
[{"text": {"value": "a", "font-weight": "light", "vertical-align": "sub"}}, {"text": {"value": "b",
  "vertical-align": "baseline"}}]
  => [(text value="a" weight=Light align=Sub)(text value="b" align=Baseline)]
[{"group": {"display": "left-margin"}}, {"group": {"display": "right-inline"}}, {"group":
  {"display": "indent"}}]
  => [(group display=LeftMargin [])(group display=RightInline [])(group display=Indent [])]
# numbers and labels
[{"number": {"variable": "volume"}}] => [(number Number(Volume) Numeric)]
[{"number": {"variable": "page", "form": "roman", "font-style": "italic", "prefix": "p", "suffix":
  "q", "display": "block"}}]
  => [(number Page(Page) Roman style=Italic prefix="p" suffix="q" display=Block)]
[{"number": {"variable": "edition", "form": "long-ordinal"}}, {"number": {"variable": "edition",
  "form": "ordinal"}}]
  => [(number Number(Edition) LongOrdinal)(number Number(Edition) Ordinal)]
[{"label": {"variable": "locator"}}] => [(label Number(Locator) Long Contextual)]
[{"label": {"variable": "page", "form": "short", "plural": "never", "strip-periods": true, "suffix":
  " "}}, {"label": {"variable": "issue", "form": "symbol", "plural": "always"}}]
  => [(label Page(Page) Short Never strip-periods suffix=" ")(label Number(Issue) Symbol Always)]
# dates
[{"date": {"variable": "issued"}}] => [(date variable=Issued [])]
[{"date": {"variable": "accessed", "form": "text", "date-parts": "year-month", "delimiter": "-",
  "font-weight": "bold", "prefix": "(", "suffix": ")", "display": "indent"}}]
  => [(date variable=Accessed form=Text parts=YearMonth delimiter="-" weight=Bold prefix="("
  suffix=")" display=Indent [])]
[{"date": {"variable": "event-date", "form": "numeric", "date-parts": "year", "date-part": [
  {"name": "year", "form": "short"}, {"name": "month", "form": "numeric-leading-zeros",
  "strip-periods": true, "prefix": "/"}, {"name": "day", "form": "ordinal", "font-style": "italic"},
  {"name": "day"}]}}]
  => [(date variable=EventDate form=Numeric parts=Year [(part Year form=Short)(part Month
  form=NumericLeadingZeros strip-periods prefix="/")(part Day form=Ordinal style=Italic)(part
  Day)])]
# names
[{"names": {"variable": ["author"]}}] => [(names [Author] [])]
[{"names": {"variable": ["editor", "translator"], "delimiter": "; ", "prefix": "(", "suffix": ")",
  "display": "block", "font-variant": "small-caps", "name-form": "short", "name-delimiter": ", ",
  "names-delimiter": "/"}}]
  => [(names [Editor, Translator] delimiter="; " name-delimiter=", " name-form=Short
  between-lists="/" variant=SmallCaps prefix="(" suffix=")" display=Block [])]
[{"names": {"variable": ["author"], "and": "symbol", "delimiter-precedes-et-al": "never",
  "delimiter-precedes-last": "after-inverted-name", "et-al-min": 4, "et-al-use-first": 1,
  "et-al-subsequent-min": 3, "et-al-subsequent-use-first": 2, "et-al-use-last": true, "initialize":
  false, "initialize-with": ". ", "name-as-sort-order": "all", "sort-separator": ", "}}]
  => [(names [Author] and=Symbol before-et-al=Never before-last=AfterInvertedName min=4 first=1
  later-min=3 later-first=2 use-last=true initialize=false with=". " sort-order=All separator=", "
  [])]
[{"names": {"variable": ["author"], "children": [ {"name": {"form": "count", "delimiter": "; ",
  "and": "text", "name-as-sort-order": "first", "delimiter-precedes-et-al": "contextual",
  "delimiter-precedes-last": "always", "font-style": "italic", "name-part": [ {"name": "family",
  "font-variant": "small-caps", "suffix": "!"}, {"name": "given"}]}}, {"et-al": {"term":
  "and others", "font-style": "italic"}}, {"label": {"form": "verb", "plural": "always", "prefix":
  " "}}, {"substitute": [{"names": {"variable": ["editor"]}}, {"text": {"variable": "title"}}]}]}}]
  => [(names [Author] [(name and=Text name-delimiter="; " before-et-al=Contextual
  before-last=Always name-form=Count sort-order=First style=Italic [(part Family variant=SmallCaps
  suffix="!")(part Given)])(et-al AndOthers style=Italic)(label Verb Always prefix=" ")(substitute
  [(names [Editor] [])(text variable=Standard(Title) Long)])])]
[{"names": {"variable": [], "children": [{"name": {"form": "long"}}, {"et-al": {}}, {"label": {}},
  {"substitute": []}]}}]
  => [(names [] [(name name-form=Long [])(et-al EtAl)(label Long Contextual)(substitute [])])]
# groups and choices
[{"group": {"delimiter": ", ", "font-style": "italic", "prefix": "[", "suffix": "]", "children":
  [{"text": {"value": "a"}}, {"group": {}}]}}]
  => [(group delimiter=", " style=Italic prefix="[" suffix="]" [(text value="a")(group [])])]
[{"choose": {"if": {}}}] => [(choose (if All []))]
[{"choose": {"if": {"match": "any", "type": ["book", "thesis"], "variable": ["DOI", "volume"],
  "children": [{"text": {"value": "a"}}]}, "else-if": [{"match": "none", "is-numeric": ["edition"],
  "is-uncertain-date": ["issued"], "children": [{"text": {"value": "b"}}]}, {"disambiguate": true},
  {"disambiguate": false}], "else": [{"text": {"value": "c"}}]}}]
  => [(choose (if Any type=[Book, Thesis] variable=[Standard(DOI), Number(Volume)] [(text
  value="a")])(else-if None is-numeric=[Number(Edition)] is-uncertain-date=[Issued] [(text
  value="b")])(else-if All disambiguate=true [])(else-if All disambiguate=false [])(else [(text
  value="c")]))]
[{"choose": {"if": {"match": "all", "locator": ["page", "sub-verbo"], "position": ["first",
  "subsequent", "ibid", "ibid-with-locator", "near-note"]}, "else": []}}]
  => [(choose (if All locator=[Page, SubVerbo] position=[First, Subsequent, Ibid, IbidWithLocator,
  NearNote] [])(else []))]
# a list is no absent one
[{"choose": {"if": {"type": [], "variable": null}}}] => [(choose (if All type=[] []))]
# a member that is null is absent, whatever its name; of members of one name the last counts; the
# order of members is free, and so is white space
[{"text": {"variable": "title", "term": null, "form": null, "quotes": null, "prefix": null}}]
  => [(text variable=Standard(Title) Long)]
[{"group": {"children": null, "delimiter": null}}] => [(group [])]
[{"group": {"quotes": null, "": null}}] => [(group [])]
[{"text": {"value": "a", "value": "b", "prefix": 7, "prefix": "("}}]
  => [(text value="b" prefix="(")]
[{"text":{"suffix":"\u00e9\n\"","value":"a"}}] => [(text value="a" suffix="é\n\"")]
"#;

#[test]
fn nodes_that_are_read(rt: HostRuntime) {
    let alloc = rt.alloc();
    assert_cases(&rt, alloc, NODES, &|text| nodes_as_text(&rt, alloc, text));
}

/// Nodes, and the place of a refusal, its code and its words.
const REFUSALS: &str = r#"
# unknown names
[{"texts": {}}] => /0 unknown-name: no node has this name: "texts" (the nearest is "text")
[{"text": {"variable": "titel"}}]
  => /0/text/variable unknown-name: no variable has this name: "titel" (the nearest is "title")
# no name is near
[{"text": {"variable": "year"}}] => /0/text/variable unknown-name: no variable has this name: "year"
[{"text": {"term": "locator:pages"}}]
  => /0/text/term unknown-name: no term has this name: "locator:pages"
[{"text": {"value": "a", "font-style": "oblique"}}]
  => /0/text/font-style unknown-name: no value here has this name: "oblique"
[{"text": {"variable": "title", "form": "verb"}}]
  => /0/text/form unknown-name: no value here has this name: "verb"
# a beginning is no name
[{"text": {"term": "page", "form": "verb-"}}]
  => /0/text/form unknown-name: no value here has this name: "verb-" (the nearest is "verb")
[{"number": {"variable": "title"}}]
  => /0/number/variable unknown-name: no number variable has this name: "title"
[{"date": {"variable": "isued"}}]
  => /0/date/variable unknown-name: no date variable has this name: "isued" (the nearest is
  "issued")
[{"date": {"variable": "issued", "date-part": [{"name": "day"}, {"name": "season"}]}}]
  => /0/date/date-part/1/name unknown-name: no value here has this name: "season"
[{"names": {"variable": ["author", "editr"]}}]
  => /0/names/variable/1 unknown-name: no name variable has this name: "editr" (the nearest is
  "editor")
[{"names": {"variable": ["author"], "children": [{"name": {}}, {"names": {}}]}}]
  => /0/names/children/1 unknown-name: no child of names has this name: "names" (the nearest is
  "name")
[{"names": {"variable": ["author"], "children": [{"substitute": [{"text": {"term": "et. al"}}]}]}}]
  => /0/names/children/0/substitute/0/text/term unknown-name: no term has this name: "et. al" (the
  nearest is "et-al")
[{"choose": {"if": {}, "else-if": [{}, {"type": ["book", "bok"]}]}}]
  => /0/choose/else-if/1/type/1 unknown-name: no type has this name: "bok" (the nearest is "book")
[{"choose": {"if": {"position": ["first", "last"]}}}]
  => /0/choose/if/position/1 unknown-name: no value here has this name: "last"
# unknown members, and those that another element or another source of a text takes
[{"group": {"delimeter": ", "}}]
  => /0/group unknown-member: no member here has this name: "delimeter" (the nearest is "delimiter")
[{"text": {"variable": "title", "plural": true}}]
  => /0/text unknown-member: no member here has this name: "plural"
[{"text": {"macro": "a", "form": "short"}}]
  => /0/text unknown-member: no member here has this name: "form"
[{"text": {"variable": "title", "value": "a"}}]
  => /0/text unknown-member: no member here has this name: "value"
[{"number": {"variable": "volume", "quotes": true}}]
  => /0/number unknown-member: no member here has this name: "quotes"
[{"label": {"variable": "page", "display": "block"}}]
  => /0/label unknown-member: no member here has this name: "display"
[{"names": {"variable": ["author"], "children": [{"label": {"variable": "page"}}]}}]
  => /0/names/children/0/label unknown-member: no member here has this name: "variable"
[{"names": {"variable": ["author"], "children": [{"et-al": {"prefix": "a"}}]}}]
  => /0/names/children/0/et-al unknown-member: no member here has this name: "prefix"
[{"names": {"variable": ["author"], "form": "short"}}]
  => /0/names unknown-member: no member here has this name: "form"
[{"choose": {"if": {}, "delimiter": ", "}}]
  => /0/choose unknown-member: no member here has this name: "delimiter"
[{"choose": {"if": {"prefix": "a"}}}]
  => /0/choose/if unknown-member: no member here has this name: "prefix"
# wrong types
{} => wrong-type: a list goes here
[7] => /0 wrong-type: an object goes here
[null] => /0 wrong-type: an object goes here
[{}] => /0 wrong-type: an object with one member goes here, the name of an element
[{"text": {"value": "a"}, "group": {}}]
  => /0 wrong-type: an object with one member goes here, the name of an element
[{"group": []}] => /0/group wrong-type: an object goes here
[{"group": {"children": {}}}] => /0/group/children wrong-type: a list goes here
[{"text": {"value": 3}}] => /0/text/value wrong-type: a text goes here
[{"text": {"value": "a", "quotes": "true"}}] => /0/text/quotes wrong-type: true or false goes here
[{"text": {"variable": ["title"]}}] => /0/text/variable wrong-type: a text goes here
[{"names": {"variable": "author"}}] => /0/names/variable wrong-type: a list goes here
[{"names": {"variable": ["author", null]}}] => /0/names/variable/1 wrong-type: a text goes here
[{"names": {"variable": ["author"], "et-al-min": "3"}}]
  => /0/names/et-al-min wrong-type: a number goes here
[{"choose": {"if": {"disambiguate": 1}}}]
  => /0/choose/if/disambiguate wrong-type: true or false goes here
# missing members
[{"text": {}}] => /0/text missing-member: a text has a variable, a term, a macro or a value
[{"text": {"value": null}}]
  => /0/text missing-member: a text has a variable, a term, a macro or a value
[{"number": {}}] => /0/number missing-member: a member is missing: "variable"
[{"label": {"form": "short"}}] => /0/label missing-member: a member is missing: "variable"
[{"date": {"form": "text"}}] => /0/date missing-member: a member is missing: "variable"
[{"names": {"variable": null}}] => /0/names missing-member: a member is missing: "variable"
[{"choose": {"else": []}}] => /0/choose missing-member: a member is missing: "if"
[{"names": {"variable": ["author"], "children": [{"name": {"name-part": [{}]}}]}}]
  => /0/names/children/0/name/name-part/0 missing-member: a member is missing: "name"
"#;

#[test]
fn refused_nodes(rt: HostRuntime) {
    let alloc = rt.alloc();
    let answer = |text: &str| nodes_as_text(&rt, alloc, text);
    assert_cases(&rt, alloc, REFUSALS, &answer);
}
