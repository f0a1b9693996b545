//! What becomes of a tree or of HTML, in words.

use crate::fault::Fault;
use crate::form::{Form, Forms};
use crate::question::OfTree;
use crate::tree_words::{add_children, add_text};
use crate::trees::meta;
use csl::tree::{Elem, ElemChild, ElemChildren, simplify_children, simplify_fully};
use csl::{BufWriteFormat, HtmlError, leaf_text_of_html};
use std::alloc::Global;

/// Appends the text of a tree in a format. A single child and the element in it are written alike.
pub fn add_written(
    words: &mut String,
    alloc: Global,
    tree: &ElemChildren,
    format: BufWriteFormat,
) -> Result<(), Fault> {
    let text = tree.to_text(alloc, format)?;
    words.push_str(text.as_str())?;
    let mut again = String::new(alloc);
    tree.write_buf(&mut again, format)?;
    let mut are_same = again.as_str() == text.as_str();
    if let [child] = tree.0.as_slice() {
        again.clear();
        child.write_buf(&mut again, format)?;
        are_same = are_same && again.as_str() == text.as_str();
        if let ElemChild::Elem(elem) = child {
            again.clear();
            elem.write_buf(&mut again, format)?;
            are_same = are_same && again.as_str() == text.as_str();
        }
    }
    if !are_same {
        words.push_str(", but written otherwise: ")?;
        words.push_str(again.as_str())?;
    }
    Ok(())
}

/// Appends a tree after a round of simplification. A single element that stays becomes the same by
/// a call of its own.
fn add_simplified(words: &mut String, alloc: Global, tree: &ElemChildren) -> Result<(), Fault> {
    let once = simplify_children(alloc, tree)?;
    add_children(words, &once, true)?;
    if let [ElemChild::Elem(elem)] = tree.0.as_slice() {
        if !elem.may_inline() {
            let mut alone = ElemChildren::new(alloc);
            alone.0.push(ElemChild::from(elem.simplify(alloc)?))?;
            if alone != once {
                words.push_str(", but alone: ")?;
                add_children(words, &alone, true)?;
            }
        }
    }
    Ok(())
}

/// Appends the text of the leaves that HTML has, or that it is none.
pub fn add_leaf(words: &mut String, alloc: Global, html: &str) -> Result<(), Fault> {
    match leaf_text_of_html(alloc, html) {
        Ok(text) => Ok(words.push_str(text.as_str())?),
        Err(HtmlError::NotHtml) => Ok(words.push_str("(not html)")?),
        Err(HtmlError::Memory) => Err(Fault::Memory),
    }
}

/// Appends a text if it is not HTML, or that it is.
pub fn add_not_html(words: &mut String, alloc: Global, text: &str) -> Result<(), Fault> {
    match leaf_text_of_html(alloc, text) {
        Ok(_) => Ok(words.push_str("(html)")?),
        Err(HtmlError::NotHtml) => Ok(words.push_str(text)?),
        Err(HtmlError::Memory) => Err(Fault::Memory),
    }
}

/// The first element of a tree that a word means: `any`, `noted` for one with a meta, `names`, or
/// `none`.
fn first_of<'e>(
    alloc: Global,
    tree: &'e ElemChildren,
    word: &str,
) -> Result<Option<&'e Elem>, Fault> {
    match word {
        "any" => Ok(tree.find_elem_by(&|_: &Elem| true)),
        "noted" => Ok(tree.find_elem_by(&|elem: &Elem| elem.meta.is_some())),
        "none" => Ok(tree.find_elem_by(&|_: &Elem| false)),
        "names" => Ok(tree.find_names()),
        _ => Err(Fault::of_word(alloc, "no such search", word)),
    }
}

/// The element that a search finds: by a word, or by a list with its meta.
fn found_elem<'e>(tree: &'e ElemChildren, search: &Forms<'_>) -> Result<Option<&'e Elem>, Fault> {
    match search.items.as_slice() {
        [Form::Word(word)] => first_of(search.alloc, tree, *word),
        [Form::List(head, inside)] => match meta(*head, inside)? {
            Some(meta) => Ok(tree.find_meta(&meta)),
            None => Err(Fault::Wrong("a search is by a meta")),
        },
        _ => Err(Fault::Wrong("a search is a word or a list")),
    }
}

/// Appends what a search finds, after the search: `any: (elem "a")`.
fn add_found(
    words: &mut String,
    alloc: Global,
    tree: &ElemChildren,
    wanted: &str,
) -> Result<(), Fault> {
    let (search, _) = wanted.split_once(':').unwrap_or((wanted, ""));
    words.push_str(search)?;
    words.push(':')?;
    if search == "last" {
        return match tree.last_text() {
            Some(text) => add_text(words, text),
            None => Ok(()),
        };
    }
    let mut found = ElemChildren::new(alloc);
    if let Some(elem) = found_elem(tree, &Forms::read(alloc, search)?)? {
        found.0.push(ElemChild::from(elem.clone(alloc)?))?;
    }
    add_children(words, &found, true)
}

/// Appends the answer about a tree.
pub fn add_of_tree(
    words: &mut String,
    alloc: Global,
    tree: &ElemChildren,
    question: OfTree,
    wanted: &str,
) -> Result<(), Fault> {
    match question {
        OfTree::Simplified => add_simplified(words, alloc, tree),
        OfTree::Normal => add_children(words, &simplify_fully(alloc, tree)?, true),
        OfTree::Leaf => {
            let html = tree.to_text(alloc, BufWriteFormat::Html)?;
            add_leaf(words, alloc, html.as_str())
        }
        OfTree::Found => add_found(words, alloc, tree, wanted),
    }
}
