//! Contents that are written into a flat tree by calls, and what these take of a limit.
//!
//! The words of a script have one space between them, and each stands for one call:
//!
//! | Word | Call |
//! |---|---|
//! | `[` | opens a part |
//! | `]` | closes the part as a block with the meta of a date |
//! | `}<\|>` | closes the part and splices it between `<` and `>`, each of which may be missing |
//! | `!` | discards the part |
//! | `=a` | pushes the text `a` as a text |
//! | `()` | pushes an element without children |
//! | any other | pushes the child that the word describes, as in descriptions of trees |

use crate::assertions::{assert_of, assert_same};
use crate::csl_tree_tests::trees::{assert_tree, read_formatted, read_leaf};
use csl_elements::Display;
use csl_tree::{Elem, ElemChild, ElemChildren, ElemMeta, FlatTree, Formatted, Formatting};
use std::alloc::Global;
use std::process::Abort;
use std::test::Fail;

/// The text of an affix, or `None` if it is missing.
fn read_affix(alloc: Global, word: &str) -> Result<Option<Formatted>, Fail> {
    if word.is_empty() {
        return Ok(None);
    }
    Ok(Some(read_formatted(alloc, word)?))
}

/// Calls the function of a word.
fn call(rt: &impl Abort, alloc: Global, tree: &mut FlatTree, word: &str) -> Result<(), Fail> {
    if let Some(text) = word.strip_prefix('=') {
        return Ok(tree.push_text(text, Formatting::default())?);
    }
    if let Some(affixes) = word.strip_prefix('}') {
        let (before, after) = affixes.split_once('|').expect(rt, "there are two affixes");
        let (before, after) = (read_affix(alloc, before)?, read_affix(alloc, after)?);
        return Ok(tree.close_spliced(before, after)?);
    }
    match word {
        "[" => tree.open()?,
        "]" => tree.close_elem(Some(Display::Block), Some(ElemMeta::Date))?,
        "!" => tree.discard(),
        "()" => tree.push(ElemChild::from(Elem {
            children: ElemChildren::new(alloc),
            display: None,
            meta: None,
        }))?,
        _ => tree.push(read_leaf(rt, alloc, word)?)?,
    }
    Ok(())
}

/// A flat tree after the calls of a script, of which 1,000 bytes may be taken.
fn tree_of(rt: &impl Abort, alloc: Global, script: &str) -> Result<FlatTree, Fail> {
    let mut tree = FlatTree::new(alloc);
    tree.limit(1000);
    for word in script.split(' ') {
        if !word.is_empty() {
            call(rt, alloc, &mut tree, word)?;
        }
    }
    Ok(tree)
}

/// A script, the tree after its calls, and how many bytes of a limit these take: each text its own,
/// and each leaf and element 64 more, also a child that joins the last one.
static CALLS: [(&str, &str, u64); 18] = [
    ("", "", 0),
    ("=", "", 0),
    ("=ab =c", "abc", 67),
    ("=ab /c", "ab /c", 131),
    ("ab c", "abc", 131),
    ("a _ $_ @_|u b", "ab", 130),
    ("$abc", "$abc", 67),
    ("@ab|cde", "@ab|cde", 69),
    ("#1", "#1", 64),
    // A pushed element is kept, even without children. An empty part leaves nothing.
    ("()", "( )", 64),
    ("[ ]", "", 0),
    ("[ [ }<|> ]", "", 0),
    ("[ a ]", "( a )block:date", 129),
    ("[ a [ b ] c ]", "( a ( b )block:date c )block:date", 323),
    ("a [ b }<|>>", "a<b>>", 261),
    ("a [ /b }/<|/>", "a /<b>", 260),
    ("[ [ a }<|> [ b }<|> }-|-", "-<a><b>-", 520),
    ("[ a !", "", 65),
];

#[test]
fn the_calls_of_a_script_build_a_tree(rt: HostRuntime) -> Result<(), Fail> {
    let alloc = rt.alloc();
    for (script, wanted, taken) in &CALLS {
        let tree = tree_of(&rt, alloc, *script)?;
        let left = (tree.depth(), tree.room());
        assert_of(&rt, &left, &(1, 1000 - *taken), *script);
        assert_tree(&rt, alloc, &tree.finish()?, *wanted, *script)?;
    }
    Ok(())
}

/// The number of open parts, and whether the innermost part is empty, has text, and ends in white
/// space.
type Flags = (usize, bool, bool, bool);

/// A script, and the flags of the part that is open after it.
static FLAGS: [(&str, Flags); 7] = [
    ("a~", (1, false, true, true)),
    ("a~ [ _ $_", (2, true, false, false)),
    ("a~ [ b", (2, false, true, false)),
    ("a [ b~ }|", (1, false, true, true)),
    ("a~ [ #1 ]", (1, false, true, true)),
    ("[ [ [", (4, true, false, false)),
    ("a~ [ ()", (2, false, false, false)),
];

#[test]
fn readers_of_the_innermost_part(rt: HostRuntime) -> Result<(), Fail> {
    for (script, wanted) in &FLAGS {
        let tree = tree_of(&rt, rt.alloc(), *script)?;
        let ends = tree.ends_in_white_space();
        let flags = (tree.depth(), tree.is_empty(), tree.has_text(), ends);
        assert_of(&rt, &flags, wanted, *script);
    }
    Ok(())
}

#[test]
fn a_thousand_splices_are_one_text(rt: HostRuntime) -> Result<(), Fail> {
    let mut tree = FlatTree::new(rt.alloc());
    for _ in 0..1000 {
        for word in ["[", "a", "}<|>"] {
            call(&rt, rt.alloc(), &mut tree, word)?;
        }
    }
    let tree = tree.finish()?;
    assert_same(&rt, &(tree.str_len(), tree.0.len()), &(3000, 1));
    Ok(())
}

#[test]
fn a_call_beyond_the_limit_leaves_the_content(rt: HostRuntime) -> Result<(), Fail> {
    let (alloc, plain) = (rt.alloc(), Formatting::default());
    let mut tree = FlatTree::new(alloc);
    tree.limit(64);
    assert_same(&rt, &tree.push_text("a", plain).is_ok(), &false);
    assert_tree(&rt, alloc, &tree.finish()?, "", "a text of 65 bytes")?;
    let mut tree = FlatTree::new(alloc);
    tree.limit(67);
    let texts = ["a", "bc", "d"].map(|text| tree.push_text(text, plain).is_ok());
    assert_same(&rt, &texts, &[true, true, false]);
    assert_same(&rt, &(tree.room(), tree.take(1).is_ok()), &(0, false));
    assert_tree(&rt, alloc, &tree.finish()?, "abc", "a limit of 67 bytes")?;
    // A part that cannot be closed keeps its children.
    let mut tree = tree_of(&rt, alloc, "a [ b")?;
    tree.limit(63);
    assert_same(&rt, &tree.close_elem(None, None).is_ok(), &false);
    tree.limit(64);
    tree.close_elem(None, None)?;
    let (tree, of) = (tree.finish()?, "an element of 64 bytes");
    assert_tree(&rt, alloc, &tree, "a ( b )", of)
}
