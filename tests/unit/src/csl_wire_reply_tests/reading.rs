//! A reader of trees: the content that a tree of JSON stands for.

use crate::shared::{put, string};
use csl_elements::{
    Display, FontStyle, FontVariant, FontWeight, NameVariable, TextDecoration, VerticalAlign,
};
use csl_tree::{Elem, ElemChild, ElemChildren, ElemMeta, Formatted, Formatting};
use lit_model::Person;
use serde_json::Value;
use std::alloc::Global;
use std::process::Abort;

/// The text of a member, if there is one.
fn text_if<'v>(rt: &impl Abort, value: &'v Value, name: &str) -> Option<&'v str> {
    value
        .get(name)
        .map(|text| text.as_str().expect(rt, "a text"))
}

/// A copy of the text of a member that has to be there.
fn text(rt: &impl Abort, alloc: Global, value: &Value, name: &str) -> String {
    string(rt, alloc, text_if(rt, value, name).expect(rt, "a member"))
}

/// The number of a member that has to be there.
fn number(rt: &impl Abort, value: &Value, name: &str) -> usize {
    let number = value
        .get(name)
        .and_then(Value::as_u64)
        .expect(rt, "a number");
    usize::try_from(number).ok().expect(rt, "an index")
}

/// The formatting of a value.
fn formatting(rt: &impl Abort, value: &Value) -> Formatting {
    Formatting {
        font_style: match text_if(rt, value, "font-style") {
            Some("italic") => FontStyle::Italic,
            _ => FontStyle::Normal,
        },
        font_variant: match text_if(rt, value, "font-variant") {
            Some("small-caps") => FontVariant::SmallCaps,
            _ => FontVariant::Normal,
        },
        font_weight: match text_if(rt, value, "font-weight") {
            Some("bold") => FontWeight::Bold,
            Some("light") => FontWeight::Light,
            _ => FontWeight::Normal,
        },
        text_decoration: match text_if(rt, value, "text-decoration") {
            Some("underline") => TextDecoration::Underline,
            _ => TextDecoration::None,
        },
        vertical_align: match text_if(rt, value, "vertical-align") {
            Some("baseline") => VerticalAlign::Baseline,
            Some("sup") => VerticalAlign::Sup,
            Some("sub") => VerticalAlign::Sub,
            _ => VerticalAlign::None,
        },
    }
}

/// The text of a value with its formatting.
fn formatted(rt: &impl Abort, alloc: Global, value: &Value) -> Formatted {
    formatting(rt, value).add_text(text(rt, alloc, value, "text"))
}

/// The name variable of a member.
fn variable(rt: &impl Abort, value: &Value) -> NameVariable {
    let name = text_if(rt, value, "variable").expect(rt, "a variable");
    NameVariable::from_name(name).expect(rt, "a name variable")
}

/// A copy of the text of a member, if there is one.
fn copied_if(rt: &impl Abort, alloc: Global, value: &Value, name: &str) -> Option<String> {
    text_if(rt, value, name).map(|text| string(rt, alloc, text))
}

/// A person.
fn person(rt: &impl Abort, alloc: Global, value: &Value) -> Person {
    Person {
        name: text(rt, alloc, value, "family"),
        given_name: copied_if(rt, alloc, value, "given"),
        prefix: copied_if(rt, alloc, value, "prefix"),
        suffix: copied_if(rt, alloc, value, "suffix"),
        alias: copied_if(rt, alloc, value, "alias"),
        comma_suffix: value.get("comma-suffix").is_some(),
    }
}

/// The items of a member.
fn items<'v>(rt: &impl Abort, value: &'v Value, name: &str) -> &'v [Value] {
    let items = value
        .get(name)
        .and_then(Value::as_array)
        .expect(rt, "a list");
    items.as_slice()
}

/// The variables of names with their persons.
fn names(rt: &impl Abort, alloc: Global, value: &Value) -> ElemMeta {
    let mut names = Vec::new(alloc);
    for name in items(rt, value, "names") {
        let mut persons = Vec::new(alloc);
        for it in items(rt, name, "persons") {
            put(rt, &mut persons, person(rt, alloc, it));
        }
        put(rt, &mut names, (persons, variable(rt, name)));
    }
    ElemMeta::Names(names)
}

/// The kind of a node.
fn meta(rt: &impl Abort, alloc: Global, value: &Value) -> ElemMeta {
    match text_if(rt, value, "kind").expect(rt, "a kind") {
        "names" => names(rt, alloc, value),
        "date" => ElemMeta::Date,
        "text" => ElemMeta::Text,
        "number" => ElemMeta::Number,
        "label" => ElemMeta::Label,
        "citation-number" => ElemMeta::CitationNumber,
        "name" => ElemMeta::Name(variable(rt, value), number(rt, value, "index")),
        "entry" => ElemMeta::Entry(number(rt, value, "index")),
        _ => ElemMeta::CitationLabel,
    }
}

/// The display of an element.
fn display(rt: &impl Abort, value: &Value) -> Option<Display> {
    match text_if(rt, value, "display") {
        Some("block") => Some(Display::Block),
        Some("left-margin") => Some(Display::LeftMargin),
        Some("right-inline") => Some(Display::RightInline),
        Some(_) => Some(Display::Indent),
        None => None,
    }
}

/// A child.
fn child(rt: &impl Abort, alloc: Global, value: &Value) -> ElemChild {
    if let Some(children) = value.get("children") {
        return ElemChild::Elem(Elem {
            children: read_tree(rt, alloc, children),
            display: display(rt, value),
            meta: value.get("meta").map(|inside| meta(rt, alloc, inside)),
        });
    }
    if value.get("markup").is_some() {
        return ElemChild::Markup(text(rt, alloc, value, "markup"));
    }
    if value.get("cite").is_some() {
        return ElemChild::Transparent {
            cite_idx: number(rt, value, "cite"),
            format: formatting(rt, value),
        };
    }
    let text = formatted(rt, alloc, value);
    match copied_if(rt, alloc, value, "url") {
        Some(url) => ElemChild::Link { text, url },
        None => ElemChild::Text(text),
    }
}

/// The content of a tree.
pub(crate) fn read_tree(rt: &impl Abort, alloc: Global, value: &Value) -> ElemChildren {
    let mut children = Vec::new(alloc);
    for it in value.as_array().expect(rt, "a list") {
        put(rt, &mut children, child(rt, alloc, it));
    }
    ElemChildren(children)
}
