//! Contents in the formats of replies.

use crate::csl_wire_reply_tests::reading::read_tree;
use crate::shared::assert_cases;
use crate::wire::{json, refusal_of};
use csl_elements::Display;
use csl_tree::{Elem, ElemChild, ElemChildren};
use csl_wire_reply::{Formats, content_value, tree_value};
use std::alloc::Global;
use std::mem;
use std::process::Abort;

/// The formats of these names, which may say that all links stay.
fn formats(names: &str) -> Formats {
    Formats {
        plain: names.contains("plain"),
        html: names.contains("html"),
        tree: names.contains("tree"),
        has_all_links: names.contains("links"),
    }
}

/// Formats and a content as a tree, and the reply.
const REPLIES: &str = r#"
# two texts, one of them in italics
none [{"text":"a"},{"text":"<b>","font-style":"italic"}] => {}
plain [{"text":"a"},{"text":"<b>","font-style":"italic"}] => {"plain":"a<b>"}
plain,html [{"text":"a"},{"text":"<b>","font-style":"italic"}]
  => {"html":"a<span style=\"font-style: italic;\">&lt;b&gt;</span>","plain":"a<b>"}
tree [{"text":"a"},{"text":"<b>","font-style":"italic"}]
  => {"tree":[{"text":"a"},{"font-style":"italic","text":"<b>"}]}
# a block around a text
plain [{"children":[{"text":"a"}],"display":"block","meta":{"kind":"date"}}] => {"plain":"\na\n"}
tree [{"children":[{"text":"a"}],"display":"block","meta":{"kind":"date"}}]
  => {"tree":[{"children":[{"text":"a"}],"display":"block","meta":{"kind":"date"}}]}
# an element without display and meta, and a text
tree [{"children":[{"text":"a"}]},{"text":"b"}] => {"tree":[{"text":"ab"}]}
# two links
html,tree [{"text":"a","url":"javascript:1"},{"text":"b","url":"https://x.y/?z"}]
  => {"html":"a<a href=\"https://x.y/?z\">b</a>","tree":[{"text":"a"},{"text":"b","url":"https://x.y/?z"}]}
html,links [{"text":"a","url":"javascript:1"},{"text":"b","url":"https://x.y/?z"}]
  => {"html":"<a href=\"javascript:1\">a</a><a href=\"https://x.y/?z\">b</a>"}
"#;

/// Trees with all parts that a tree has, each of which is written so.
const TREES: &str = r#"
[{"font-style":"italic","font-variant":"small-caps","font-weight":"bold","text":"a"}]
[{"font-weight":"light","text":"a","text-decoration":"underline","vertical-align":"baseline"}]
[{"text":"a","vertical-align":"sup"},{"text":"\"q\\ \u0001\n\t—é","vertical-align":"sub"}]
[{"markup":"<i>x</i>"},{"cite":3},{"cite":0,"font-style":"italic"},{"text":"a","url":"https://x.y/"}]
[{"children":[{"text":"a"}],"display":"left-margin","meta":{"kind":"text"}}]
[{"children":[{"text":"a"}],"display":"right-inline","meta":{"kind":"number"}}]
[{"children":[{"text":"a"}],"display":"indent","meta":{"kind":"label"}}]
[{"children":[{"text":"1"}],"meta":{"kind":"citation-number"}}]
[{"children":[{"text":"Roe10"}],"meta":{"kind":"citation-label"}}]
[{"children":[{"text":"a"}],"meta":{"index":7,"kind":"entry"}}]
[{"children":[{"text":"Kim"}],"meta":{"index":1,"kind":"name","variable":"editor-translator"}}]
[{"children":[{"text":"Roe"}],"meta":{"kind":"names","names":[{"persons":[{"comma-suffix":true,"family":"Roe","given":"Max","prefix":"van","suffix":"Jr."},{"alias":"Bo","family":"Kim","suffix":"II"}],"variable":"author"},{"persons":[],"variable":"translator"}]}}]
"#;

#[test]
fn trees_are_written_whole(rt: HostRuntime) {
    let alloc = rt.alloc();
    for tree in TREES.trim().lines() {
        let content = read_tree(&rt, alloc, &json(&rt, alloc, tree));
        let value = tree_value(alloc, &content, 56).expect(&rt, "a value");
        let text = value.to_string(alloc).ok().expect(&rt, "memory");
        assert_eq!(&rt; text.as_str(), tree);
    }
}

#[test]
fn contents_in_their_formats(rt: HostRuntime) {
    let alloc = rt.alloc();
    let answer = |case: &str| {
        let (names, tree) = case.split_once(' ').expect(&rt, "formats");
        let content = read_tree(&rt, alloc, &json(&rt, alloc, tree));
        let value = content_value(alloc, content, formats(names)).expect(&rt, "a value");
        value.to_string(alloc).ok().expect(&rt, "memory")
    };
    assert_cases(&rt, alloc, REPLIES, &answer);
}

/// A block in so many others.
fn blocks(rt: &impl Abort, alloc: Global, levels: usize) -> ElemChildren {
    let mut content = ElemChildren::new(alloc);
    for _ in 0..levels {
        let elem = Elem {
            children: mem::replace(&mut content, ElemChildren::new(alloc)),
            display: Some(Display::Block),
            meta: None,
        };
        content.0.push(ElemChild::Elem(elem)).expect(rt, "memory");
    }
    content
}

#[test]
fn a_deep_tree_is_refused(rt: HostRuntime) {
    let alloc = rt.alloc();
    let value = content_value(alloc, blocks(&rt, alloc, 56), formats("tree"));
    assert!(rt; value.is_ok());
    let refused = content_value(alloc, blocks(&rt, alloc, 57), formats("tree"));
    let refusal = refusal_of(&rt, alloc, refused);
    assert!(rt; refusal.as_str().starts_with(" too-deep: "), "{refusal}");
    let plain = content_value(alloc, blocks(&rt, alloc, 57), formats("plain"));
    assert!(rt; plain.is_ok());
}
