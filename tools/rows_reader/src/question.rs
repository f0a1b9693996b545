//! What a row asks, and the lines that ask it.

use crate::fault::Fault;
use csl::BufWriteFormat;
use csl::style::Variable;
use std::alloc::Global;

/// A question about a row.
#[derive(Clone, Copy)]
pub enum Question {
    /// The content, as plain text or as HTML.
    Text(BufWriteFormat),
    /// The content, as a tree.
    Tree,
    /// The state after the nodes.
    Left,
    /// The usage flags of a dry run.
    Dry,
    /// Whether the nodes would show a variable.
    Shows(Variable),
    /// The tests of the first branch of a choice: 1 for one that holds, 0 for another.
    Tests,
    /// The errors of rendering and of a dry run.
    Errors,
    /// Whether the entry and the one beside it are alike, and the HTML of both.
    Pair,
    /// What the style is refused for.
    Refused,
    /// The first macro that the style calls and does not have.
    MissingMacro,
    /// Whether the year suffix is rendered where no text asks for it.
    Suffix,
    /// Whether the whole style is within these limits, each the least: what one rendering goes through,
    /// its size and its depth.
    AllWithin(u64, u64, usize),
    /// A question about a layout and the macros that it calls.
    OfLayout(OfLayout),
    /// A question about a tree or HTML.
    OfTree(OfTree),
    /// A question about the citations and the bibliography of a document.
    OfList(OfList),
    /// Whether a text is no HTML.
    NotHtml,
    /// What the work answers.
    Answers,
    /// Whether the work and the one beside it answer these variables and kinds alike, or not.
    Alike(bool),
    /// Whether both have the same answer to a variable, of a text in its long form, or not.
    Same(bool),
}

/// A question about a layout and the macros that it calls.
#[derive(Clone, Copy)]
pub enum OfLayout {
    /// The terms that it asks for and that no locale has.
    MissingTerms,
    /// The first of these terms.
    MissingTerm,
    /// The variables and kinds that it names.
    Named,
    /// Those that tests of its branches name.
    Tested,
    /// Those that a cite of this variable alone may tell.
    Told(Variable),
    /// Its size.
    Size,
    /// Its depth.
    Depth,
    /// Whether its size is above a limit.
    Above(u64),
    /// Whether one rendering goes through this many nodes, of this many in all, this deep.
    Rendered(u64, u64, usize),
}

/// A question about a tree or HTML.
#[derive(Clone, Copy)]
pub enum OfTree {
    /// The tree after one round of simplification.
    Simplified,
    /// The normal form.
    Normal,
    /// The text of the leaves.
    Leaf,
    /// An element, or the last text.
    Found,
}

/// A question about a document. Its citations and the works of its bibliography count from 1.
#[derive(Clone, Copy)]
pub enum OfList {
    Citation(usize, As),
    Item(usize, As),
    /// The works of the bibliography, in their order.
    Order,
    /// How the bibliography looks.
    Looks,
    /// Why the document has no list.
    Error,
}

/// How a content is wanted.
#[derive(Clone, Copy)]
pub enum As {
    Plain,
    Html,
    Tree,
}

/// The text between quotes, or the text itself if it is in none.
pub fn unquoted(text: &str) -> &str {
    match text.strip_prefix('"') {
        Some(rest) => rest.strip_suffix('"').unwrap_or(text),
        None => text,
    }
}

/// A limit of a number of nodes.
fn limit(alloc: Global, word: &str) -> Result<u64, Fault> {
    match word.parse::<u64>() {
        Ok(number) => Ok(number),
        Err(_) => Err(Fault::of_word(alloc, "not a number", word)),
    }
}

/// The limits of one rendering: of its size, or of its size, of all branches and of the depth.
fn limits(alloc: Global, rest: &str) -> Result<(u64, u64, usize), Fault> {
    let mut words = rest.split(' ');
    let size = limit(alloc, words.next().unwrap_or(""))?;
    match (words.next(), words.next(), words.next()) {
        (None, _, _) => Ok((size, u64::MAX, usize::MAX)),
        (Some(all), Some(depth), None) => match depth.parse::<usize>() {
            Ok(depth) => Ok((size, limit(alloc, all)?, depth)),
            Err(_) => Err(Fault::of_word(alloc, "not a number", depth)),
        },
        _ => Err(Fault::of_word(alloc, "one limit or three", rest)),
    }
}

/// The question of what a cite of one variable may tell, and the wanted answer.
fn told_question<'l>(alloc: Global, rest: &'l str) -> Result<(OfLayout, &'l str), Fault> {
    let (name, wanted) = rest.split_once(": ").unwrap_or((rest, ""));
    match Variable::from_name(name) {
        Some(variable) => Ok((OfLayout::Told(variable), wanted)),
        None => Err(Fault::of_word(alloc, "no variable", name)),
    }
}

/// The question of a line about a layout, and the wanted answer.
fn of_layout<'l>(
    alloc: Global,
    word: &str,
    rest: &'l str,
) -> Result<Option<(OfLayout, &'l str)>, Fault> {
    let found = match word {
        "missing" => (OfLayout::MissingTerms, rest),
        "missing-term" => (OfLayout::MissingTerm, rest),
        "named" => (OfLayout::Named, rest),
        "tested" => (OfLayout::Tested, rest),
        "told" => told_question(alloc, rest)?,
        "size" => (OfLayout::Size, rest),
        "depth" => (OfLayout::Depth, rest),
        "above" => (OfLayout::Above(limit(alloc, rest)?), "yes"),
        "rendered" => {
            let (size, all, depth) = limits(alloc, rest)?;
            (OfLayout::Rendered(size, all, depth), "yes")
        }
        _ => return Ok(None),
    };
    Ok(Some(found))
}

/// The question of a line about a style, a work or a tree, and the wanted answer.
fn of_one<'l>(
    alloc: Global,
    word: &str,
    rest: &'l str,
) -> Result<Option<(Question, &'l str)>, Fault> {
    let found = match word {
        "refused" => (Question::Refused, rest),
        "missing-macro" => (Question::MissingMacro, rest),
        "year-suffix" => (Question::Suffix, rest),
        "all-within" => {
            let (size, all, depth) = limits(alloc, rest)?;
            (Question::AllWithin(size, all, depth), "yes")
        }
        "answers" => (Question::Answers, rest),
        "alike" | "unlike" => (Question::Alike(word == "alike"), rest),
        "same" | "other" => (Question::Same(word == "same"), rest),
        "simplified" => (Question::OfTree(OfTree::Simplified), rest),
        "normal" => (Question::OfTree(OfTree::Normal), rest),
        "leaf" => (Question::OfTree(OfTree::Leaf), unquoted(rest)),
        "found" => (Question::OfTree(OfTree::Found), rest),
        "not-html" => (Question::NotHtml, rest),
        _ => return Ok(None),
    };
    Ok(Some(found))
}

/// The question of a line about nodes and a cite, and the wanted answer.
fn of_cite<'l>(
    alloc: Global,
    word: &str,
    rest: &'l str,
) -> Result<Option<(Question, &'l str)>, Fault> {
    let found = match word {
        "plain" => (Question::Text(BufWriteFormat::Plain), unquoted(rest)),
        "html" => (Question::Text(BufWriteFormat::Html), unquoted(rest)),
        "tree" => (Question::Tree, rest),
        "left" => (Question::Left, rest),
        "dry" => (Question::Dry, rest),
        "tests" => (Question::Tests, rest),
        "error" => (Question::Errors, rest),
        "pair" => (Question::Pair, unquoted(rest)),
        "shows" | "hides" => {
            let Some(variable) = Variable::from_name(rest) else {
                return Err(Fault::of_word(alloc, "no such variable", rest));
            };
            let wanted = if word == "shows" { "yes" } else { "no" };
            (Question::Shows(variable), wanted)
        }
        _ => return Ok(None),
    };
    Ok(Some(found))
}

/// The place that the answer to a question about a document begins with, and the wanted answer.
fn placed<'l>(alloc: Global, rest: &'l str, form: As) -> Result<(usize, &'l str), Fault> {
    let (place, wanted) = rest.split_once(':').unwrap_or((rest, ""));
    let wanted = wanted.trim_start_matches(' ');
    match (place.parse::<usize>(), form) {
        (Ok(place), As::Tree) => Ok((place, wanted)),
        (Ok(place), As::Plain | As::Html) => Ok((place, unquoted(wanted))),
        (Err(_), _) => Err(Fault::of_word(alloc, "not a number", place)),
    }
}

/// The question of a line about a document, and the wanted answer.
fn of_list<'l>(
    alloc: Global,
    word: &str,
    rest: &'l str,
) -> Result<Option<(OfList, &'l str)>, Fault> {
    let (head, form) = match word.split_once('-') {
        Some((head, "html")) => (head, As::Html),
        Some((head, "tree")) => (head, As::Tree),
        _ => (word, As::Plain),
    };
    let found = match head {
        "cited" => {
            let (place, wanted) = placed(alloc, rest, form)?;
            (OfList::Citation(place, form), wanted)
        }
        "item" => {
            let (place, wanted) = placed(alloc, rest, form)?;
            (OfList::Item(place, form), wanted)
        }
        "items" => (OfList::Order, rest),
        "looks" => (OfList::Looks, rest),
        "list-error" => (OfList::Error, rest),
        _ => return Ok(None),
    };
    Ok(Some(found))
}

/// The question of a line, and the wanted answer, if the line has a question.
pub fn question<'l>(
    alloc: Global,
    word: &str,
    rest: &'l str,
) -> Result<Option<(Question, &'l str)>, Fault> {
    if let Some(found) = of_cite(alloc, word, rest)? {
        return Ok(Some(found));
    }
    if let Some((found, wanted)) = of_layout(alloc, word, rest)? {
        return Ok(Some((Question::OfLayout(found), wanted)));
    }
    if let Some((found, wanted)) = of_list(alloc, word, rest)? {
        return Ok(Some((Question::OfList(found), wanted)));
    }
    of_one(alloc, word, rest)
}
