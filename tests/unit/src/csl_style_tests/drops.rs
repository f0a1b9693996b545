//! Deeply nested nodes drop. Recursion at each level would need more stack than a test has.

use crate::assertions::assert_same;
use crate::shared::{alone, put};
use csl_style::{
    Choose, ChooseBranch, Group, LayoutRenderingElement, NameVariable, Names, Substitute, Text,
};
use std::alloc::Global;
use std::mem;
use std::process::Abort;
use std::test::Fail;

/// How often the nodes of a row are nested.
const TIMES: usize = 10_000;

/// Nodes around each other, from the outside in.
static NESTED: [&'static str; 6] = [
    "group",
    "if",
    "else-if",
    "else",
    "substitute",
    "group if else-if else substitute",
];

/// The node that a word puts around others.
fn node_around(
    rt: &impl Abort,
    alloc: Global,
    word: &str,
    children: Vec<LayoutRenderingElement>,
) -> LayoutRenderingElement {
    let empty = Choose::new(alloc, ChooseBranch::new(Vec::new(alloc)));
    match word {
        "if" => Choose::new(alloc, ChooseBranch::new(children)).into(),
        "else-if" => Choose {
            else_if: alone(rt, alloc, ChooseBranch::new(children)),
            ..empty
        }
        .into(),
        "else" => Choose {
            otherwise: Some(children),
            ..empty
        }
        .into(),
        "substitute" => Names {
            children: alone(rt, alloc, Substitute { children }.into()),
            ..Names::new(alloc, alone(rt, alloc, NameVariable::Author))
        }
        .into(),
        _ => Group::new(children).into(),
    }
}

/// Nested nodes: `times` times the nodes that the words put around each other. At each time these
/// texts stand beside the nested nodes.
fn nested_nodes(
    rt: &impl Abort,
    alloc: Global,
    words: &str,
    times: usize,
    texts: &[&str],
) -> Result<Vec<LayoutRenderingElement>, Fail> {
    let mut nodes = Vec::new(alloc);
    for _ in 0..times {
        for word in words.rsplit(' ') {
            nodes = alone(rt, alloc, node_around(rt, alloc, word, nodes));
        }
        for text in texts {
            put(rt, &mut nodes, Text::value(alloc, *text)?.into());
        }
    }
    Ok(nodes)
}

#[test]
fn deeply_nested_nodes_drop(rt: HostRuntime) -> Result<(), Fail> {
    for words in &NESTED {
        let alone = nested_nodes(&rt, rt.alloc(), *words, TIMES, &[])?;
        assert_same(&rt, &alone.len(), &1);
        let with_others = nested_nodes(&rt, rt.alloc(), *words, TIMES, &["a", "b"])?;
        assert_same(&rt, &with_others.len(), &3);
    }
    Ok(())
}

#[test]
fn a_group_is_taken_apart_through_a_reference(rt: HostRuntime) -> Result<(), Fail> {
    let alloc = rt.alloc();
    let children = nested_nodes(&rt, alloc, "if", 1, &["a"])?;
    let mut node: LayoutRenderingElement = Group::new(children).into();
    let counts = [0, 1].map(|_| match &mut node {
        LayoutRenderingElement::Group(group) => {
            mem::replace(&mut group.children, Vec::new(alloc)).len()
        }
        _ => 0,
    });
    assert_same(&rt, &counts, &[2, 0]);
    Ok(())
}
