//! Trees from descriptions, and descriptions of trees.
//!
//! A description is a list of pieces between bars. Each stands for one child:
//!
//! | Piece | Child |
//! |---|---|
//! | `a` | the text `a` |
//! | `/a` | the text `a` in italics |
//! | `@a` | a link with the text `a` to nowhere |
//! | `@a>b` | a link with the text `a` to the address `b` |
//! | `$a` | the markup `a` |
//! | `#` | a place for a text of a cite |
//! | `[`, `]` | the begin and the end of an element, the third entry |

use crate::shared::{put, string};
use csl_elements::FontStyle;
use csl_tree::{Elem, ElemChild, ElemChildren, ElemMeta, Formatting};
use std::alloc::Global;
use std::mem;
use std::process::Abort;

/// The child of a piece that is no element.
fn leaf(rt: &impl Abort, alloc: Global, piece: &str) -> ElemChild {
    let formatting = Formatting::default();
    if let Some(link) = piece.strip_prefix('@') {
        let (text, url) = link.split_once('>').unwrap_or((link, ""));
        return ElemChild::Link {
            text: formatting.add_text(string(rt, alloc, text)),
            url: string(rt, alloc, url),
        };
    }
    if let Some(markup) = piece.strip_prefix('$') {
        return ElemChild::Markup(string(rt, alloc, markup));
    }
    if piece == "#" {
        return ElemChild::Transparent {
            cite_idx: 7,
            format: formatting,
        };
    }
    if let Some(text) = piece.strip_prefix('/') {
        let formatting = Formatting {
            font_style: FontStyle::Italic,
            ..formatting
        };
        return ElemChild::from(formatting.add_text(string(rt, alloc, text)));
    }
    ElemChild::from(formatting.add_text(string(rt, alloc, piece)))
}

/// The tree of a description.
pub(crate) fn read(rt: &impl Abort, alloc: Global, description: &str) -> ElemChildren {
    let mut around = Vec::new(alloc);
    let mut children = Vec::new(alloc);
    for piece in description.split('|') {
        if piece == "[" {
            let before = mem::replace(&mut children, Vec::new(alloc));
            put(rt, &mut around, before);
        } else if piece == "]" {
            let outside = around.pop().expect(rt, "an element ends that began");
            let inside = mem::replace(&mut children, outside);
            let elem = Elem {
                children: ElemChildren(inside),
                display: None,
                meta: Some(ElemMeta::Entry(3)),
            };
            put(rt, &mut children, ElemChild::from(elem));
        } else {
            put(rt, &mut children, leaf(rt, alloc, piece));
        }
    }
    ElemChildren(children)
}

/// Appends the texts to a description.
fn push(rt: &impl Abort, description: &mut String, texts: &[&str]) {
    for text in texts {
        description.push_str(text).expect(rt, "memory");
    }
}

/// Appends the pieces of the children, each after a bar.
fn push_pieces(rt: &impl Abort, description: &mut String, content: &ElemChildren) {
    for child in &content.0 {
        match child {
            ElemChild::Text(text) => {
                let is_italic = text.formatting.font_style == FontStyle::Italic;
                let mark = if is_italic { "|/" } else { "|" };
                push(rt, description, &[mark, text.text.as_str()]);
            }
            ElemChild::Elem(elem) => {
                let is_entry = elem.meta == Some(ElemMeta::Entry(3));
                push(rt, description, &[if is_entry { "|[" } else { "|(" }]);
                push_pieces(rt, description, &elem.children);
                push(rt, description, &["|]"]);
            }
            ElemChild::Markup(markup) => push(rt, description, &["|$", markup.as_str()]),
            ElemChild::Link { text, .. } => push(rt, description, &["|@", text.text.as_str()]),
            ElemChild::Transparent { .. } => push(rt, description, &["|#"]),
        }
    }
}

/// The description of a tree.
pub(crate) fn describe(rt: &impl Abort, alloc: Global, content: &ElemChildren) -> String {
    let mut pieces = String::new(alloc);
    push_pieces(rt, &mut pieces, content);
    string(rt, alloc, pieces.as_str().strip_prefix('|').unwrap_or(""))
}
