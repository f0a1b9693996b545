//! Entries of many levels drop. Recursion at each level would need more stack than a test has.

use crate::shared::alone;
use lit_model::{Entry, EntryType};
use std::alloc::Global;
use std::test::Fail;

/// The levels of a deep entry.
const LEVELS: usize = 20_000;

fn journal(alloc: Global) -> Result<Entry, Fail> {
    Ok(Entry::new(alloc, "journal", EntryType::Periodical)?)
}

#[test]
fn a_chain_of_parents_drops(rt: HostRuntime) -> Result<(), Fail> {
    let alloc = rt.alloc();
    let mut entries = Vec::new(alloc);
    for _ in 0..LEVELS {
        entries = alone(&rt, alloc, journal(alloc)?.with_parents(entries));
    }
    assert_eq!(rt; entries.len(), 1);
    Ok(())
}

#[test]
fn a_chain_with_parents_beside_each_other_drops(rt: HostRuntime) -> Result<(), Fail> {
    let alloc = rt.alloc();
    let mut entries = Vec::new(alloc);
    for _ in 0..LEVELS {
        let above = journal(alloc)?.with_parents(entries);
        entries = vec![in alloc; journal(alloc)?, above, journal(alloc)?]?;
    }
    assert_eq!(rt; entries.len(), 3);
    Ok(())
}
