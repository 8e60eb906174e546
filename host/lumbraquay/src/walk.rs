//! Walks over a log by the library's steps, and what its entries change.

use library::{Step, LOG_HEAD_BYTES, STEP_ENTRY};

const BEGIN: u64 = 1;
const COMMIT: u64 = 2;
const ROLLBACK: u64 = 3;
const INSERT: u64 = 4;
const DELETE: u64 = 5;
const UPDATE: u64 = 10;

/// The bytes of an entry before its key.
const BEFORE_KEY_BYTES: u64 = 27;

/// A slot of a page.
pub type Place = (u64, u16);

/// The entries from byte 32 to the first place where none stands.
pub fn entries(log: &[u8]) -> impl Iterator<Item = Step> + '_ {
    let mut place = LOG_HEAD_BYTES as u64;
    std::iter::from_fn(move || {
        let step = library::log_forward(log, place);
        place = step.next;
        (step.kind == STEP_ENTRY).then_some(step)
    })
}

/// The page and slot that a change speaks of.
pub fn target(log: &[u8], step: &Step) -> Option<Place> {
    if !is_change(step) || step.key_len != 10 {
        return None;
    }
    let key = log.get((step.offset + BEFORE_KEY_BYTES) as usize..)?;
    let [page @ .., low, high] = key.first_chunk::<10>()?;
    Some((u64::from_le_bytes(*page), u16::from_le_bytes([*low, *high])))
}

pub fn is_change(step: &Step) -> bool {
    matches!(step.entry_type, INSERT | DELETE | UPDATE)
}

pub fn is_begin(step: &Step) -> bool {
    step.entry_type == BEGIN
}

pub fn is_commit(step: &Step) -> bool {
    step.entry_type == COMMIT
}

pub fn is_rollback(step: &Step) -> bool {
    step.entry_type == ROLLBACK
}

/// The bytes of the tuple in a change's value: the values of an UpdateInPlace start with the key.
fn tuple_len(step: &Step, value: u64) -> u64 {
    match step.entry_type {
        UPDATE => value.saturating_sub(step.key_len),
        _ => value,
    }
}

/// The tuples that a change has: before it, and after it. Of a Delete the old one, of an Insert the new one alone.
pub fn tuples<'a>(log: &'a [u8], step: &Step) -> (&'a [u8], &'a [u8]) {
    let key_end = step.offset + BEFORE_KEY_BYTES + step.key_len;
    let old_end = key_end + 4 + step.old_len;
    let tuple = |end: u64, value: u64| {
        let length = tuple_len(step, value);
        let part = (end - length) as usize..end as usize;
        log.get(part).unwrap_or_default()
    };
    (
        tuple(old_end, step.old_len),
        tuple(old_end + 4 + step.new_len, step.new_len),
    )
}

/// How long the tuple of a slot is by a change: if it lasts, and if it does not.
pub fn lengths(step: &Step) -> (u64, u64) {
    let before = tuple_len(step, step.old_len);
    match step.entry_type {
        DELETE => (before, before),
        _ => (tuple_len(step, step.new_len), before),
    }
}
