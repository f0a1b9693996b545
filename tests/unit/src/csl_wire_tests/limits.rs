//! How long a text, how large a number and how deep nodes may be.

use crate::csl_wire_tests::reading::{json, nodes_as_text, read_nodes, told};
use crate::shared::{alone, assert_cases, repeated};
use crate::wire::{assert_bounds, refusal_of};
use csl_elements::LayoutRenderingElement;
use csl_wire::{Limits, nodes_of, value_of_text};
use serde_json::{Map, Value};
use std::alloc::Global;
use std::process::Abort;

/// Texts of strangers: letters of one byte, and of two.
const TEXTS: &str = r#"
200 of a in [{"text": {"value": "@"}}] => /0/text/value too-long: the text is too long
100 of é in [{"text": {"value": "@"}}] => /0/text/value too-long: the text is too long
"#;

#[test]
fn texts_of_strangers_have_200_bytes(rt: HostRuntime) {
    let alloc = rt.alloc();
    let answer = |text: &str| {
        let value = json(&rt, alloc, text);
        for limits in [Limits::none(), Limits { text: 202 }] {
            assert!(&rt; nodes_of(alloc, &value, limits).is_ok());
        }
        refusal_of(&rt, alloc, nodes_of(alloc, &value, Limits::of_strangers()))
    };
    assert_bounds(&rt, alloc, TEXTS, &answer);
}

/// A word of a refusal has at most 200 bytes too.
#[test]
fn long_words_are_not_named(rt: HostRuntime) {
    let word = repeated(&rt, rt.alloc(), "a", 201);
    let text = format!(in rt.alloc(); "[{{\"{word}\": 1}}]").expect(&rt, "memory");
    let came = nodes_as_text(&rt, rt.alloc(), text.as_str());
    let wanted = "/0 unknown-name: no node has this name";
    assert_eq!(&rt; came.as_str(), wanted);
}

/// Numbers, and the refusals of those that are none from 0 to 4294967295.
const NUMBERS: &str = "
0 => [(names [Author] min=0 [])]
4294967295 => [(names [Author] min=4294967295 [])]
4294967296 => /0/names/et-al-min out-of-range: a whole number from 0 to 4294967295 goes here
-1 => /0/names/et-al-min out-of-range: a whole number from 0 to 4294967295 goes here
3.0 => /0/names/et-al-min out-of-range: a whole number from 0 to 4294967295 goes here
3e0 => /0/names/et-al-min out-of-range: a whole number from 0 to 4294967295 goes here
18446744073709551616
  => /0/names/et-al-min out-of-range: a whole number from 0 to 4294967295 goes here
";

#[test]
fn whole_numbers_below_two_to_the_32(rt: HostRuntime) {
    let alloc = rt.alloc();
    let answer = |number: &str| {
        let before = r#"[{"names": {"variable": ["author"], "et-al-min": "#;
        let text = format!(in alloc; "{before}{number}}}}}]").expect(&rt, "memory");
        nodes_as_text(&rt, alloc, text.as_str())
    };
    assert_cases(&rt, alloc, NUMBERS, &answer);
}

/// A list of groups in one another: so many lists of nodes, three levels of JSON each but the last.
fn groups(rt: &impl Abort, alloc: Global, lists: usize) -> String {
    let before = repeated(rt, alloc, r#"[{"group": {"children": "#, lists - 1);
    let after = repeated(rt, alloc, "}}]", lists - 1);
    format!(in alloc; "{before}[]{after}").expect(rt, "memory")
}

/// How many lists of nodes stand in one another.
fn depth(list: &[LayoutRenderingElement]) -> usize {
    match list.first() {
        Some(LayoutRenderingElement::Group(group)) => 1 + depth(group.children.as_slice()),
        _ => 1,
    }
}

#[test]
fn json_of_127_levels(rt: HostRuntime) {
    let deepest = groups(&rt, rt.alloc(), 43);
    let nodes = read_nodes(&rt, rt.alloc(), deepest.as_str()).expect(&rt, "nodes");
    assert_eq!(&rt; depth(nodes.as_slice()), 43);
    let deeper = format!(in rt.alloc(); "[{deepest}]").expect(&rt, "memory");
    let error = value_of_text(rt.alloc(), deeper.as_str()).err();
    let came = told(&rt, rt.alloc(), error.expect(&rt, "a refusal"));
    assert!(&rt;
        came.as_str()
            .starts_with(" not-json: no JSON of at most 127 levels")
    );
}

/// An object with one member.
fn object_of(rt: &impl Abort, alloc: Global, name: &str, inside: Value) -> Value {
    let mut members: Map<String, Value> = Map::new(alloc);
    let name = String::from_str(alloc, name).expect(rt, "memory");
    let before: Result<Option<Value>, _> = members.insert(name, inside);
    assert!(rt; before.is_ok());
    Value::Object(members)
}

/// A list of one group with these children.
fn group_of(rt: &impl Abort, alloc: Global, children: Value) -> Value {
    let group = object_of(rt, alloc, "children", children);
    let node = object_of(rt, alloc, "group", group);
    Value::Array(alone(rt, alloc, node))
}

/// Values that no parser made may be deeper.
#[test]
fn nodes_of_43_lists(rt: HostRuntime) {
    let deepest = groups(&rt, rt.alloc(), 43);
    let mut value = json(&rt, rt.alloc(), deepest.as_str());
    value = group_of(&rt, rt.alloc(), value);
    let error = nodes_of(rt.alloc(), &value, Limits::none()).err();
    let came = told(&rt, rt.alloc(), error.expect(&rt, "a refusal"));
    let place = repeated(&rt, rt.alloc(), "/0/group/children", 43);
    let wanted = format!(in rt.alloc(); "{place} too-deep: the nodes are too deep");
    assert_eq!(&rt; came.as_str(), wanted.expect(&rt, "memory").as_str());
}
