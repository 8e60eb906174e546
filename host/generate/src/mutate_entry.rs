//! Mutations of single entries whose bytes are whole: types, shapes, LSNs, the
//! order of transactions, clashes and records.

use crate::draft::Draft;
use crate::entry::{key, Entry, BEGIN, CHECKPOINT, COMMIT, ROLLBACK, UPDATE};
use crate::mutate::Mutation;
use crate::rng::Rng;
use crate::style::{any_tuple, LEAST_TUPLE, MOST_TUPLE};

pub const MUTATIONS: &[Mutation] = &[
    Mutation::new("unknown type", 5, unknown_type),
    Mutation::new("bare entry with a key or value", 6, bare_with_more),
    Mutation::new(
        "checkpoint with a transaction",
        6,
        checkpoint_with_transaction,
    ),
    Mutation::new("key of another length", 6, wrong_key),
    Mutation::new("image too short", 6, image_too_short),
    Mutation::new("image too long", 6, image_too_long),
    Mutation::new("deleted byte of an image", 6, image_deleted_byte),
    Mutation::new("insert with an old value", 6, insert_with_old),
    Mutation::new("delete with a new value", 6, delete_with_new),
    Mutation::new("update value with another key", 6, update_other_key),
    Mutation::new("update value shorter than a key", 6, update_short_value),
    Mutation::new("equal LSNs", 7, equal_lsns),
    Mutation::new("falling LSNs", 7, falling_lsns),
    Mutation::new("LSN 0", 7, lsn_0),
    Mutation::new("begin, commit or rollback of 0", 8, transaction_0),
    Mutation::new("begin twice", 8, begin_twice),
    Mutation::new("begin again after the end", 8, begin_after_end),
    Mutation::new("end without begin", 8, end_without_begin),
    Mutation::new("change without begin", 8, change_without_begin),
    Mutation::new("end twice", 8, end_twice),
    Mutation::new("change after the end", 8, change_after_end),
    Mutation::new("clash with another transaction", 9, clash),
    Mutation::new("clash of transaction 0", 9, clash_of_0),
    Mutation::new("too few records", 10, too_few_records),
    Mutation::new("records that just suffice", 0, just_enough_records),
    Mutation::new("largest and smallest images", 0, extreme_images),
];

/// Puts an entry in somewhere and gives its offset.
fn put_in(rng: &mut Rng, draft: &mut Draft, entry: Entry) -> u64 {
    let index = draft.any_gap(rng);
    draft.insert(index, entry);
    draft.offset(index)
}

fn small_tuple(rng: &mut Rng) -> Vec<u8> {
    let length = rng.size(LEAST_TUPLE, 60);
    any_tuple(rng, length)
}

/// A change of any type with an image of so many bytes in one of its values,
/// and a deleted byte.
fn change_with_image(rng: &mut Rng, length: usize, deleted: u8) -> Entry {
    let mut image = rng.bytes(length);
    if length > 16 {
        image[16] = deleted;
    }
    let other = small_tuple(rng);
    let page = rng.number();
    match rng.below(4) {
        0 => Entry::insert(0, page, 1, &image),
        1 => Entry::delete(0, page, 1, &image),
        2 => Entry::update(0, page, 1, &image, &other),
        _ => Entry::update(0, page, 1, &other, &image),
    }
}

fn any_change(rng: &mut Rng, transaction: u64) -> Entry {
    let (old, new) = (small_tuple(rng), small_tuple(rng));
    let page = rng.number();
    match rng.below(3) {
        0 => Entry::insert(transaction, page, 0, &new),
        1 => Entry::delete(transaction, page, 0, &old),
        _ => Entry::update(transaction, page, 0, &old, &new),
    }
}

fn unknown_type(rng: &mut Rng, draft: &mut Draft) -> u64 {
    let other = 11 + rng.below(245) as u8;
    let kind = *rng.pick(&[0, 6, 8, 9, 11, 12, 255, other]);
    let entry = Entry {
        kind,
        ..any_change(rng, 0)
    };
    put_in(rng, draft, entry)
}

fn bare_with_more(rng: &mut Rng, draft: &mut Draft) -> u64 {
    let kind = *rng.pick(&[BEGIN, COMMIT, ROLLBACK, CHECKPOINT]);
    let number = if kind == CHECKPOINT { 0 } else { rng.number() };
    let mut entry = Entry::bare(number, kind);
    let length = *rng.pick(&[1, 10, 40]);
    let more = rng.bytes(length);
    match rng.below(3) {
        0 => entry.key = more,
        1 => entry.old = more,
        _ => entry.new = more,
    }
    put_in(rng, draft, entry)
}

fn checkpoint_with_transaction(rng: &mut Rng, draft: &mut Draft) -> u64 {
    let number = rng.number().max(1);
    put_in(rng, draft, Entry::bare(number, CHECKPOINT))
}

fn wrong_key(rng: &mut Rng, draft: &mut Draft) -> u64 {
    let mut entry = any_change(rng, 0);
    let length = *rng.pick(&[0, 8, 9, 11, 12]);
    entry.key.resize(length, 0);
    put_in(rng, draft, entry)
}

fn image_too_short(rng: &mut Rng, draft: &mut Draft) -> u64 {
    let length = *rng.pick(&[23, 23, 17, 16, 1, 0]);
    let entry = change_with_image(rng, length, 0);
    put_in(rng, draft, entry)
}

fn image_too_long(rng: &mut Rng, draft: &mut Draft) -> u64 {
    let length = MOST_TUPLE + *rng.pick(&[1, 1, 2, 16_000]);
    let entry = change_with_image(rng, length, 0);
    put_in(rng, draft, entry)
}

fn image_deleted_byte(rng: &mut Rng, draft: &mut Draft) -> u64 {
    let length = rng.size(LEAST_TUPLE, 60);
    let deleted = *rng.pick(&[2, 3, 128, 255]);
    let entry = change_with_image(rng, length, deleted);
    put_in(rng, draft, entry)
}

fn insert_with_old(rng: &mut Rng, draft: &mut Draft) -> u64 {
    let tuple = small_tuple(rng);
    let mut entry = Entry::insert(0, rng.number(), 0, &tuple);
    entry.old = if rng.one_in(2) { vec![0] } else { tuple };
    put_in(rng, draft, entry)
}

fn delete_with_new(rng: &mut Rng, draft: &mut Draft) -> u64 {
    let tuple = small_tuple(rng);
    let mut entry = Entry::delete(0, rng.number(), 0, &tuple);
    entry.new = if rng.one_in(2) { vec![0] } else { tuple };
    put_in(rng, draft, entry)
}

fn update_other_key(rng: &mut Rng, draft: &mut Draft) -> u64 {
    let tuple = small_tuple(rng);
    let mut entry = Entry::update(0, rng.number(), rng.byte().into(), &tuple, &tuple);
    let at = rng.index(10);
    let bit = 1 << rng.below(8);
    match rng.below(3) {
        0 => entry.old[at] ^= bit,
        1 => entry.new[at] ^= bit,
        _ => entry.key[at] ^= bit,
    }
    put_in(rng, draft, entry)
}

fn update_short_value(rng: &mut Rng, draft: &mut Draft) -> u64 {
    let tuple = small_tuple(rng);
    let mut entry = Entry::update(0, rng.number(), 0, &tuple, &tuple);
    let length = rng.size(0, 10);
    if rng.one_in(2) {
        entry.old.truncate(length);
    } else {
        entry.new.truncate(length);
    }
    put_in(rng, draft, entry)
}

/// An entry that has another before it.
fn second_entry(rng: &mut Rng, draft: &mut Draft) -> usize {
    while draft.pieces.len() < 2 {
        draft.append(Entry::bare(0, CHECKPOINT));
    }
    rng.size(1, draft.pieces.len() - 1)
}

fn equal_lsns(rng: &mut Rng, draft: &mut Draft) -> u64 {
    let index = second_entry(rng, draft);
    let lsn = draft.lsn(index - 1);
    draft.set_lsn(index, lsn);
    draft.offset(index)
}

fn falling_lsns(rng: &mut Rng, draft: &mut Draft) -> u64 {
    let index = second_entry(rng, draft);
    let above = draft.lsn(index - 1);
    let lsn = rng.below(above);
    draft.set_lsn(index, lsn);
    draft.offset(index)
}

fn lsn_0(rng: &mut Rng, draft: &mut Draft) -> u64 {
    let index = second_entry(rng, draft);
    let index = if rng.one_in(2) { 0 } else { index };
    draft.set_lsn(index, 0);
    draft.offset(index)
}

fn transaction_0(rng: &mut Rng, draft: &mut Draft) -> u64 {
    let kind = *rng.pick(&[BEGIN, COMMIT, ROLLBACK]);
    put_in(rng, draft, Entry::bare(0, kind))
}

/// A transaction put in at a gap: begun, and ended if it is to be. Gives the
/// gap after it and its number; there are records enough for it.
fn fresh_transaction(rng: &mut Rng, draft: &mut Draft, ended: bool) -> (usize, u64) {
    let number = draft.fresh_number(rng);
    let index = draft.any_gap(rng);
    draft.records += 2;
    draft.insert(index, Entry::bare(number, BEGIN));
    if !ended {
        return (index + 1, number);
    }
    let end = *rng.pick(&[COMMIT, ROLLBACK]);
    draft.insert(index + 1, Entry::bare(number, end));
    (index + 2, number)
}

/// Puts an entry in at a later gap and gives its offset.
fn put_in_later(rng: &mut Rng, draft: &mut Draft, from: usize, entry: Entry) -> u64 {
    let index = rng.size(from, draft.pieces.len());
    draft.insert(index, entry);
    draft.offset(index)
}

fn begin_twice(rng: &mut Rng, draft: &mut Draft) -> u64 {
    let (from, number) = fresh_transaction(rng, draft, false);
    put_in_later(rng, draft, from, Entry::bare(number, BEGIN))
}

fn begin_after_end(rng: &mut Rng, draft: &mut Draft) -> u64 {
    let (from, number) = fresh_transaction(rng, draft, true);
    put_in_later(rng, draft, from, Entry::bare(number, BEGIN))
}

fn end_without_begin(rng: &mut Rng, draft: &mut Draft) -> u64 {
    let number = draft.fresh_number(rng);
    let kind = *rng.pick(&[COMMIT, ROLLBACK]);
    put_in(rng, draft, Entry::bare(number, kind))
}

fn change_without_begin(rng: &mut Rng, draft: &mut Draft) -> u64 {
    let number = draft.fresh_number(rng);
    let entry = any_change(rng, number);
    put_in(rng, draft, entry)
}

fn end_twice(rng: &mut Rng, draft: &mut Draft) -> u64 {
    let (from, number) = fresh_transaction(rng, draft, true);
    let kind = *rng.pick(&[COMMIT, ROLLBACK]);
    put_in_later(rng, draft, from, Entry::bare(number, kind))
}

fn change_after_end(rng: &mut Rng, draft: &mut Draft) -> u64 {
    let (from, number) = fresh_transaction(rng, draft, true);
    let entry = any_change(rng, number);
    put_in_later(rng, draft, from, entry)
}

/// A slot that an unended transaction has changed: one of the log, or one of a
/// transaction put in for it. Gives the gap after, holder, page and slot.
fn held_slot(rng: &mut Rng, draft: &mut Draft) -> (usize, u64, u64, u16) {
    let gap = draft.any_gap(rng);
    let held = draft.standing(gap).held;
    if !held.is_empty() && rng.one_in(2) {
        let (holder, page, slot) = *rng.pick(&held);
        return (gap, holder, page, slot);
    }
    let (from, holder) = fresh_transaction(rng, draft, false);
    let mut page = rng.number();
    let slot = rng.next_u64() as u16;
    while draft.standing(from).holder(page, slot).is_some() {
        page = rng.number();
    }
    let mut entry = any_change(rng, holder);
    retarget(&mut entry, page, slot);
    draft.insert(from, entry);
    (from + 1, holder, page, slot)
}

/// Points a change at another slot.
fn retarget(entry: &mut Entry, page: u64, slot: u16) {
    entry.key = key(page, slot);
    if entry.kind == UPDATE {
        entry.old[..10].copy_from_slice(&entry.key);
        entry.new[..10].copy_from_slice(&entry.key);
    }
}

fn clash(rng: &mut Rng, draft: &mut Draft) -> u64 {
    let (gap, _, page, slot) = held_slot(rng, draft);
    let number = draft.fresh_number(rng);
    draft.records += 1;
    draft.insert(gap, Entry::bare(number, BEGIN));
    let mut entry = any_change(rng, number);
    retarget(&mut entry, page, slot);
    draft.insert(gap + 1, entry);
    draft.offset(gap + 1)
}

fn clash_of_0(rng: &mut Rng, draft: &mut Draft) -> u64 {
    let (gap, _, page, slot) = held_slot(rng, draft);
    let mut entry = any_change(rng, 0);
    retarget(&mut entry, page, slot);
    draft.insert(gap, entry);
    draft.offset(gap)
}

/// Where the Begins of the log stand; if it has none, one is put in.
fn begins(rng: &mut Rng, draft: &mut Draft) -> Vec<usize> {
    loop {
        let found: Vec<usize> = (0..draft.pieces.len())
            .filter(|&at| draft.entry(at).kind == BEGIN)
            .collect();
        if !found.is_empty() {
            return found;
        }
        fresh_transaction(rng, draft, false);
    }
}

fn too_few_records(rng: &mut Rng, draft: &mut Draft) -> u64 {
    let begins = begins(rng, draft);
    draft.records = rng.index(begins.len());
    draft.offset(begins[draft.records])
}

fn just_enough_records(rng: &mut Rng, draft: &mut Draft) -> u64 {
    draft.records = begins(rng, draft).len();
    0
}

/// Updates of slot 0 of a fresh page by transaction 0, between the largest and
/// the smallest image; the entry with two largest has the most bytes.
fn extreme_images(rng: &mut Rng, draft: &mut Draft) -> u64 {
    let page = crate::mutate_page::add_data_page(rng, draft, &[], 0);
    let largest = any_tuple(rng, MOST_TUPLE);
    let smallest = any_tuple(rng, LEAST_TUPLE);
    let images = [&largest, &smallest];
    draft.append(Entry::insert(0, page as u64, 0, &smallest));
    for _ in 0..rng.size(1, 3) {
        let (old, new) = (*rng.pick(&images), *rng.pick(&images));
        draft.append(Entry::update(0, page as u64, 0, old, new));
    }
    0
}
