//! Trees from descriptions.
//!
//! The words of a description have one space between them, and each stands for one child:
//!
//! | Word | Child |
//! |---|---|
//! | `a` | the text `a` |
//! | `/a` | the text `a` in italics |
//! | `$a` | the markup `a` |
//! | `@a\|b` | a link with the text that `a` describes to the address `b` |
//! | `#3` | a place for a text of cite 3 |
//! | `( a )` | an element around the children that `a` describes |
//!
//! In a text, `~` is a space and `_` is nothing. After the end of an element may come its display and
//! its meta: `)block`, `):date`, `)block:entry`. Any other meta is the name of an author.

use crate::shared::{alone, put};
use csl_elements::{Display, FontStyle, NameVariable};
use csl_tree::{Elem, ElemChild, ElemChildren, ElemMeta, Formatted, Formatting};
use lit_model::Person;
use std::alloc::Global;
use std::mem;
use std::process::Abort;
use std::test::Fail;

/// A block around a link, a markup, a place for a text of a cite, and a text of white space.
pub const MIXED: &str = "( @/x|https://x.y/?a=1&b=2 $$m$ #7 ~ )block:entry";

/// The text that a word describes.
fn read_text(alloc: Global, word: &str) -> Result<String, Fail> {
    let mut text = String::new(alloc);
    for c in word.chars() {
        if c != '_' {
            text.push(if c == '~' { ' ' } else { c })?;
        }
    }
    Ok(text)
}

/// The text that a word describes, with its formatting.
pub fn read_formatted(alloc: Global, word: &str) -> Result<Formatted, Fail> {
    let mut formatting = Formatting::default();
    if word.starts_with('/') {
        formatting.font_style = FontStyle::Italic;
    }
    Ok(formatting.add_text(read_text(alloc, word.strip_prefix('/').unwrap_or(word))?))
}

/// A child that is not an element.
pub fn read_leaf(rt: &impl Abort, alloc: Global, word: &str) -> Result<ElemChild, Fail> {
    if let Some(markup) = word.strip_prefix('$') {
        return Ok(ElemChild::Markup(read_text(alloc, markup)?));
    }
    if let Some(link) = word.strip_prefix('@') {
        let (text, url) = link.split_once('|').expect(rt, "a link has an address");
        return Ok(ElemChild::Link {
            text: read_formatted(alloc, text)?,
            url: String::from_str(alloc, url)?,
        });
    }
    if let Some(index) = word.strip_prefix('#') {
        return Ok(ElemChild::Transparent {
            cite_idx: index.parse::<usize>().expect(rt, "a number"),
            format: Formatting::default(),
        });
    }
    Ok(ElemChild::Text(read_formatted(alloc, word)?))
}

/// The meta that a word names.
fn read_meta(rt: &impl Abort, alloc: Global, word: &str) -> Result<ElemMeta, Fail> {
    Ok(match word {
        "date" => ElemMeta::Date,
        "label" => ElemMeta::Label,
        "entry" => ElemMeta::Entry(3),
        name => {
            let persons = alone(rt, alloc, Person::institution(alloc, name)?);
            ElemMeta::Names(alone(rt, alloc, (persons, NameVariable::Author)))
        }
    })
}

/// The element with these children and the display and meta after its end.
fn read_elem(
    rt: &impl Abort,
    alloc: Global,
    children: Vec<ElemChild>,
    end: &str,
) -> Result<ElemChild, Fail> {
    let (display, meta) = end.split_once(':').unwrap_or((end, ""));
    let display = match display {
        "" => None,
        "indent" => Some(Display::Indent),
        _ => Some(Display::Block),
    };
    let meta = if meta.is_empty() {
        None
    } else {
        Some(read_meta(rt, alloc, meta)?)
    };
    Ok(ElemChild::from(Elem {
        children: ElemChildren(children),
        display,
        meta,
    }))
}

/// The tree of a description.
pub fn read(rt: &impl Abort, alloc: Global, description: &str) -> Result<ElemChildren, Fail> {
    let mut around = Vec::new(alloc);
    let mut children = Vec::new(alloc);
    for word in description.split(' ') {
        if word == "(" {
            let before = mem::replace(&mut children, Vec::new(alloc));
            put(rt, &mut around, before);
        } else if let Some(end) = word.strip_prefix(')') {
            let outside = around.pop().expect(rt, "an element ends that began");
            let inside = mem::replace(&mut children, outside);
            put(rt, &mut children, read_elem(rt, alloc, inside, end)?);
        } else if !word.is_empty() {
            put(rt, &mut children, read_leaf(rt, alloc, word)?);
        }
    }
    Ok(ElemChildren(children))
}

/// Asserts that a tree is equal to that of a description. A failure shows its plain text.
pub fn assert_tree(
    rt: &impl Abort,
    alloc: Global,
    tree: &ElemChildren,
    wanted: &str,
    of: &str,
) -> Result<(), Fail> {
    let described = read(rt, alloc, wanted)?;
    assert!(rt; *tree == described, "{wanted} of {of}, and not {tree}");
    Ok(())
}
