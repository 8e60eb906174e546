//! The ledger of a cut: what each slot must hold, told from the starting pages
//! and the cut log alone, with the zeros behind it.

use std::collections::{BTreeMap, BTreeSet};

use crate::entry::{is_sealed, Entry, COMMIT, LOG_HEADER_BYTES};
use crate::page::{page_type, slots_of, DATA, PAGE_BYTES};

/// The tuple of every filled slot of every page of type 1.
pub type Ledger = BTreeMap<(u64, u16), Vec<u8>>;

/// The tuples that stand on pages of type 1.
pub fn tuples_on(pages: &[u8]) -> Ledger {
    let mut tuples = Ledger::new();
    for (index, page) in pages.chunks(PAGE_BYTES).enumerate() {
        if page_type(page) == DATA {
            for (slot, tuple) in slots_of(page) {
                tuples.insert((index as u64, slot), tuple);
            }
        }
    }
    tuples
}

/// The whole entries of the cut log of an honest history, with or without zeros
/// behind the cut, in order.
pub fn whole_entries(log: &[u8]) -> Vec<Entry> {
    let mut entries = Vec::new();
    let mut rest = log.get(LOG_HEADER_BYTES..).unwrap_or_default();
    while rest.len() >= 4 {
        let length = u32::from_le_bytes(rest[..4].try_into().expect("length")) as usize;
        if length < 43 || length > rest.len() || !is_sealed(&rest[..length]) {
            break;
        }
        entries.push(Entry::decode(&rest[..length]));
        rest = &rest[length..];
    }
    entries
}

/// At first the starting pages' tuples. A transaction counts as committed if it
/// is 0 or its Commit is in the cut log; a change by a committed one puts its
/// after-image in its slot, and nothing else alters anything.
pub fn ledger(start_pages: &[u8], log: &[u8]) -> Ledger {
    let entries = whole_entries(log);
    let mut committed = BTreeSet::from([0]);
    for entry in &entries {
        if entry.kind == COMMIT {
            committed.insert(entry.transaction);
        }
    }
    let is_data = |page: u64| {
        let mut pages = start_pages.chunks(PAGE_BYTES);
        let index = usize::try_from(page).unwrap_or(usize::MAX);
        pages.nth(index).is_some_and(|page| page_type(page) == DATA)
    };
    let mut ledger = tuples_on(start_pages);
    for entry in &entries {
        if entry.is_change() && committed.contains(&entry.transaction) && is_data(entry.target().0)
        {
            ledger.insert(entry.target(), entry.after_image());
        }
    }
    ledger
}
