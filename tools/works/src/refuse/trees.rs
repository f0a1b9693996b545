//! Trees of content, built call by call, and a stack.

use crate::error::WorkError;
use crate::refuse::twice;
use crate::trees::{elem, formatted, text, texts};
use csl::style::Display;
use csl::tree::{
    BufWriteFormat, ElemChildren, FlatTree, Formatting, NonEmptyStack, simplify_fully,
};
use std::alloc::Global;

/// The number of children of some content's normal form, and its plain text.
fn normal_form(alloc: Global, content: &ElemChildren) -> Result<String, WorkError> {
    let normal = simplify_fully(alloc, content)?;
    let text = normal.to_text(alloc, BufWriteFormat::Plain)?;
    let count = normal.0.len();
    Ok(format!(in alloc; "{count} child, {text}")?)
}

/// Simplifies an element around two texts fully. If memory runs out, simplifies it once more.
pub fn simplify(alloc: Global) -> Result<String, WorkError> {
    let content = ElemChildren(vec![in alloc; elem(texts(alloc)?, None, None)]?);
    twice(|| normal_form(alloc, &content))
}

/// A call of a flat tree.
#[derive(Clone, Copy)]
enum Step {
    Open,
    PushText(&'static str),
    Push(&'static str),
    CloseElem,
    CloseSpliced,
}

/// The calls that build `a`, a block of `b(cd)`, and `ee`.
static STEPS: [Step; 10] = [
    Step::PushText("a"),
    Step::Open,
    Step::Push("b"),
    Step::Open,
    Step::PushText("c"),
    Step::PushText("d"),
    Step::CloseSpliced,
    Step::CloseElem,
    Step::PushText("e"),
    Step::Push("e"),
];

const NOT_OPEN: WorkError = WorkError::Unexpected("nothing is open");

/// Closes a part as a block.
fn close_elem(tree: &mut FlatTree) -> Result<(), WorkError> {
    if tree.depth() == 1 {
        return Err(NOT_OPEN);
    }
    Ok(tree.close_elem(Some(Display::Block), None)?)
}

/// Closes a part between parentheses.
fn splice(alloc: Global, tree: &mut FlatTree) -> Result<(), WorkError> {
    if tree.depth() == 1 {
        return Err(NOT_OPEN);
    }
    let (before, after) = (formatted(alloc, "(")?, formatted(alloc, ")")?);
    Ok(tree.close_spliced(Some(before), Some(after))?)
}

fn call(alloc: Global, tree: &mut FlatTree, step: Step) -> Result<(), WorkError> {
    match step {
        Step::Open => Ok(tree.open()?),
        Step::PushText(text) => Ok(tree.push_text(text, Formatting::default())?),
        Step::Push(letter) => Ok(tree.push(text(alloc, letter)?)?),
        Step::CloseElem => close_elem(tree),
        Step::CloseSpliced => splice(alloc, tree),
    }
}

/// The content that the calls build. A call that runs out of memory is made once more.
fn built(alloc: Global) -> Result<ElemChildren, WorkError> {
    let mut tree = FlatTree::new(alloc);
    for step in &STEPS {
        twice(|| call(alloc, &mut tree, *step))?;
    }
    if tree.depth() != 1 {
        return Err(WorkError::Unexpected("a part is open"));
    }
    Ok(tree.finish()?)
}

/// The HTML of the content that the calls build. If memory runs out, makes all calls once more:
/// `finish` drops the tree if it fails.
pub fn flat(alloc: Global) -> Result<String, WorkError> {
    let content = twice(|| built(alloc))?;
    Ok(content.to_text(alloc, BufWriteFormat::Html)?)
}

/// Pushes a letter. If the push fails, pushes the returned letter once more.
fn push_letter(stack: &mut NonEmptyStack<char>, letter: char) -> Result<(), WorkError> {
    match stack.push(letter) {
        Ok(()) => Ok(()),
        Err(back) => stack.push(back).map_err(|_| WorkError::Memory),
    }
}

/// A stack of the letters from `a` to `i`.
fn letters(alloc: Global) -> Result<NonEmptyStack<char>, WorkError> {
    let mut stack = NonEmptyStack::new(alloc, 'a')?;
    for letter in "bcdefghi".chars() {
        push_letter(&mut stack, letter)?;
    }
    Ok(stack)
}

/// The letters from `a` to `i`, in order from a stack.
pub fn stack(alloc: Global) -> Result<String, WorkError> {
    let stack = letters(alloc)?;
    let mut text = String::new(alloc);
    for letter in stack.iter() {
        text.push(*letter)?;
    }
    Ok(text)
}
