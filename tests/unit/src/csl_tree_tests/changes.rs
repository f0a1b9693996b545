//! Changes of a tree in its place.

use crate::assertions::assert_of;
use crate::csl_tree_tests::trees::{assert_tree, read};
use crate::shared::alone;
use csl_tree::{ElemChildren, ElemMeta};
use std::test::Fail;

/// A tree, and the tree after each link became its text, unless its address begins with `https`.
const KEPT: &str = "
@x|https://x.y/ => @x|https://x.y/
@x|ftp://z/ y @/x|u @x|https://x.y/ => x y /x @x|https://x.y/
( ( @x|u $m #7 ) @_|u )block:date => ( ( x $m #7 ) _ )block:date
";

/// A tree, and the tree after every other link became its text, from the first one on.
const TURNS: &str = "
@x|u => x
( ( @x|u $m #7 )block:date @y|u ) @z|u z @/x|u => ( ( x $m #7 )block:date @y|u ) z z @/x|u
";

#[test]
fn each_link_is_asked_once_in_turn(rt: HostRuntime) -> Result<(), Fail> {
    let alloc = rt.alloc();
    for line in KEPT.trim().lines() {
        let (source, wanted) = line.split_once(" => ").expect(&rt, "two trees");
        let mut tree = read(&rt, alloc, source)?;
        tree.keep_links(|address: &str| address.starts_with("https"));
        assert_tree(&rt, alloc, &tree, wanted, source)?;
    }
    for line in TURNS.trim().lines() {
        let (source, wanted) = line.split_once(" => ").expect(&rt, "two trees");
        let mut tree = read(&rt, alloc, source)?;
        let mut is_next_allowed = true;
        tree.keep_links(|_: &str| {
            is_next_allowed = !is_next_allowed;
            is_next_allowed
        });
        assert_tree(&rt, alloc, &tree, wanted, source)?;
    }
    Ok(())
}

#[test]
fn the_first_names_and_the_last_text_are_lent(rt: HostRuntime) -> Result<(), Fail> {
    let alloc = rt.alloc();
    for (source, wanted) in [
        ("( ( x ):x ) ( y ):y", Some("( ( x ):label ) ( y ):y")),
        ("a", None),
    ] {
        let mut tree = read(&rt, alloc, source)?;
        let found = tree.find_names_mut();
        assert_of(&rt, &found.is_some(), &wanted.is_some(), source);
        if let Some(names) = found {
            names.meta = Some(ElemMeta::Label);
        }
        assert_tree(&rt, alloc, &tree, wanted.unwrap_or(source), source)?;
    }
    for (source, wanted) in [("a ( b )", Some("a ( bc )")), ("a @b|", None)] {
        let mut tree = read(&rt, alloc, source)?;
        let found = tree.last_text_mut();
        assert_of(&rt, &found.is_some(), &wanted.is_some(), source);
        if let Some(last) = found {
            last.text.push_str("c")?;
        }
        assert_tree(&rt, alloc, &tree, wanted.unwrap_or(source), source)?;
    }
    Ok(())
}

#[test]
fn remove_any_meta_leaves_the_rest(rt: HostRuntime) -> Result<(), Fail> {
    let alloc = rt.alloc();
    let source = "( a ( b ):date )";
    let mut tree = read(&rt, alloc, source)?;
    let taken = tree.remove_any_meta().expect(&rt, "an element");
    let taken = ElemChildren(alone(&rt, alloc, taken));
    assert_tree(&rt, alloc, &taken, "( b ):date", source)?;
    assert_tree(&rt, alloc, &tree, "( a )", source)?;
    assert_of(&rt, &tree.remove_any_meta().is_none(), &true, source);
    assert_tree(&rt, alloc, &tree, "( a )", source)
}
