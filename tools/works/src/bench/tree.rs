//! Stacks, and trees of content.

use crate::error::WorkError;
use crate::trees::{elem, text};
use csl::style::Display;
use csl::tree::{
    ElemChild, ElemChildren, ElemMeta, NonEmptyStack, simplify_children, simplify_fully,
};
use std::alloc::Global;
use std::num::NonZeroUsize;

/// Pushes a number.
fn push(stack: &mut NonEmptyStack<usize>, number: usize) -> Result<(), WorkError> {
    stack.push(number).map_err(|_| WorkError::Memory)
}

/// A stack of 0 and of the numbers below `size`.
fn numbers(alloc: Global, size: usize) -> Result<NonEmptyStack<usize>, WorkError> {
    let mut stack = NonEmptyStack::new(alloc, 0)?;
    for number in 0..size {
        push(&mut stack, number)?;
    }
    Ok(stack)
}

/// Adds up a stack's items.
fn total(stack: &NonEmptyStack<usize>) -> usize {
    let mut sum = 0;
    for item in stack.iter() {
        sum += *item;
    }
    sum
}

/// Fills a stack, takes its upper half and one item more, and adds up the remaining items and the
/// number of taken ones.
pub fn stack(alloc: Global, size: usize) -> Result<usize, WorkError> {
    let mut stack = numbers(alloc, size)?;
    let mut taken = 0;
    if let Some(half) = NonZeroUsize::new(stack.len().get() / 2) {
        taken = stack.drain(half)?.len();
    }
    if stack.pop().is_some() {
        taken += 1;
    }
    Ok(total(&stack) + taken)
}

/// Takes the items of a stack from this place on, and puts them back.
fn take_and_put_back(
    stack: &mut NonEmptyStack<usize>,
    place: NonZeroUsize,
) -> Result<(), WorkError> {
    for item in stack.drain(place)? {
        push(stack, item)?;
    }
    Ok(())
}

/// Fills a stack, takes its last item and puts it back `size` times, and adds up the items.
pub fn drain(alloc: Global, size: usize) -> Result<usize, WorkError> {
    let mut stack = numbers(alloc, size)?;
    for _ in 0..size {
        if let Some(last) = NonZeroUsize::new(stack.len().get() - 1) {
            take_and_put_back(&mut stack, last)?;
        }
    }
    Ok(total(&stack))
}

/// Two texts of one formatting.
fn texts(alloc: Global) -> Result<Vec<ElemChild>, WorkError> {
    Ok(vec![in alloc; text(alloc, "so ")?, text(alloc, "on")?]?)
}

/// A tree of `size` blocks, with an element without display or meta before each.
fn wide(alloc: Global, size: usize) -> Result<ElemChildren, WorkError> {
    let mut children = Vec::new(alloc);
    for _ in 0..size {
        children.push(elem(texts(alloc)?, None, None))?;
        children.push(elem(texts(alloc)?, Some(Display::Block), None))?;
    }
    Ok(ElemChildren(children))
}

/// A tree of `size` nested elements of this display, with two texts before each and in the innermost.
fn deep(alloc: Global, size: usize, display: Option<Display>) -> Result<ElemChildren, WorkError> {
    let mut children = texts(alloc)?;
    for _ in 0..size {
        let mut around = texts(alloc)?;
        around.push(elem(children, display, None))?;
        children = around;
    }
    Ok(ElemChildren(children))
}

/// Adds up the children and the bytes of text.
fn size_of(children: &ElemChildren) -> usize {
    children.str_len() + children.0.len()
}

/// Simplifies a wide tree by one round.
pub fn simplify(alloc: Global, size: usize) -> Result<usize, WorkError> {
    Ok(size_of(&simplify_children(alloc, &wide(alloc, size)?)?))
}

/// Simplifies nested blocks by one round.
pub fn simplify_deep(alloc: Global, size: usize) -> Result<usize, WorkError> {
    let blocks = deep(alloc, size, Some(Display::Block))?;
    Ok(size_of(&simplify_children(alloc, &blocks)?))
}

/// Makes the normal form of a wide tree.
pub fn normal_form(alloc: Global, size: usize) -> Result<usize, WorkError> {
    Ok(size_of(&simplify_fully(alloc, &wide(alloc, size)?)?))
}

/// Makes the normal form, a single text, of nested elements without display or meta.
pub fn normal_form_deep(alloc: Global, size: usize) -> Result<usize, WorkError> {
    let plain = deep(alloc, size, None)?;
    Ok(size_of(&simplify_fully(alloc, &plain)?))
}

/// Appends an element of two texts, marked as the content of a date. Counts the bytes of text that
/// four searches find: the date, no names, the last text, and the date again, which is removed. Adds
/// the bytes that are left.
fn found_size(alloc: Global, mut children: ElemChildren) -> Result<usize, WorkError> {
    let mut sum = 0;
    children
        .0
        .push(elem(texts(alloc)?, None, Some(ElemMeta::Date)))?;
    if let Some(date) = children.find_meta(&ElemMeta::Date) {
        sum += date.str_len();
    }
    if let Some(names) = children.find_names() {
        sum += names.str_len();
    }
    if let Some(last) = children.last_text() {
        sum += last.text.len();
    }
    if let Some(date) = children.remove_any_meta() {
        sum += date.str_len();
    }
    Ok(sum + children.str_len())
}

/// Searches a wide tree for the date at its end, and counts the bytes found and left.
pub fn search(alloc: Global, size: usize) -> Result<usize, WorkError> {
    found_size(alloc, wide(alloc, size)?)
}

/// Searches a deep tree for the date at its end, and counts the bytes found and left.
pub fn search_deep(alloc: Global, size: usize) -> Result<usize, WorkError> {
    found_size(alloc, deep(alloc, size, Some(Display::Block))?)
}
