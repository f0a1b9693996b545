//! The nonempty stack.

use crate::assertions::assert_same;
use csl_laws::calls::{items_from, replace_last_odd};
use csl_tree::NonEmptyStack;
use std::alloc::Global;
use std::num::NonZeroUsize;
use std::process::Abort;
use std::test::Fail;

/// The stack 1, 2, 3, 4.
fn one_to_four(rt: &impl Abort, alloc: Global) -> Result<NonEmptyStack<u8>, Fail> {
    let mut stack = NonEmptyStack::new(alloc, 1)?;
    for item in 2..5 {
        stack.push(item).expect(rt, "memory");
    }
    Ok(stack)
}

fn assert_items(
    rt: &impl Abort,
    alloc: Global,
    stack: &NonEmptyStack<u8>,
    wanted: &[u8],
) -> Result<(), Fail> {
    let items: Vec<u8> = stack.iter().copied().collect(alloc)?;
    assert_same(rt, &items.as_slice(), &wanted);
    Ok(())
}

#[test]
fn a_stack_keeps_its_last_item(rt: HostRuntime) -> Result<(), Fail> {
    let alloc = rt.alloc();
    let mut stack: NonEmptyStack<u8> = NonEmptyStack::with_default(alloc)?;
    stack.push(7).expect(&rt, "memory");
    assert_same(&rt, &stack.last(), &&7);
    assert_same(&rt, &(stack.pop(), stack.pop()), &(Some(7), None));
    assert_same(&rt, &stack.finish(), &0);
    let mut stack = one_to_four(&rt, alloc)?;
    let two = NonZeroUsize::new(2).expect(&rt, "two");
    let taken = items_from(&mut stack, two)?.expect(&rt, "four items");
    assert_same(&rt, &taken.as_slice(), &[3, 4].as_slice());
    assert_items(&rt, alloc, &stack, &[1, 2])
}

#[test]
fn items_are_overwritten_in_their_places(rt: HostRuntime) -> Result<(), Fail> {
    let alloc = rt.alloc();
    let mut stack = one_to_four(&rt, alloc)?;
    assert_same(&rt, &replace_last_odd(&mut stack, 30), &true);
    assert_items(&rt, alloc, &stack, &[1, 2, 30, 4])?;
    *stack.last_mut() = 40;
    *stack.first_mut() = 10;
    assert_same(&rt, &replace_last_odd(&mut stack, 50), &false);
    assert_items(&rt, alloc, &stack, &[10, 2, 30, 40])
}

#[test]
fn a_copy_of_a_stack_has_its_items(rt: HostRuntime) -> Result<(), Fail> {
    let alloc = rt.alloc();
    let stack = one_to_four(&rt, alloc)?;
    let mut copy = stack.clone(alloc)?;
    assert!(rt; copy == stack, "a copy");
    assert_items(&rt, alloc, &copy, &[1, 2, 3, 4])?;
    assert_same(&rt, &copy.len().get(), &4);
    *copy.first_mut() = 10;
    assert!(rt; copy != stack, "another first item");
    Ok(())
}
