//! Mutations of the log's header, of lengths and checksums, and of its tail.

use crate::draft::Draft;
use crate::entry::{seal_entry, Entry, BEGIN, CHECKPOINT};
use crate::mutate::Mutation;
use crate::page::{put_u16, put_u32};
use crate::rng::Rng;
use crate::style::{any_tuple, LEAST_TUPLE, MOST_TUPLE};

pub const MUTATIONS: &[Mutation] = &[
    Mutation::new("log header short", 3, header_short),
    Mutation::new("log header magic", 3, header_magic),
    Mutation::new("log header version", 3, header_version),
    Mutation::new("log header bytes that are ignored", 0, header_ignored),
    Mutation::new("log header alone", 0, header_alone),
    Mutation::new("length below 43", 4, length_below),
    Mutation::new("length above 32,705", 4, length_above),
    Mutation::new("entry of 32,706 bytes", 4, entry_too_long),
    Mutation::new("length too small by some", 4, length_smaller),
    Mutation::new("length at the end", 4, length_at_end),
    Mutation::new("bit of an entry", 4, flipped_bit),
    Mutation::new("key length", 4, key_length),
    Mutation::new("old length", 4, old_length),
    Mutation::new("new length", 4, new_length),
    Mutation::new("damage after the last entry", 4, damaged_tail),
    Mutation::new("zeros and a byte that is not", 4, spoiled_zeros),
    Mutation::new("zeros, 1 to 3", 0, few_zeros),
    Mutation::new("zeros, 4 or more", 0, many_zeros),
    Mutation::new("length cut after a low byte 0, zeros", 0, cut_length),
    Mutation::new("tail of 1 to 3 bytes", 0, shortest_tail),
    Mutation::new("tail that lacks a byte or more", 0, torn_entry),
    Mutation::new("longest length past the end", 0, longest_tail),
    Mutation::new("entry of 43 bytes at the end", 0, shortest_entry),
    Mutation::new("log too long", 2, log_too_long).seldom(2),
    Mutation::new("log of the largest size", 0, log_of_largest_size).seldom(60),
];

const MAX_LOG_BYTES: usize = 16_777_216;

fn header_short(rng: &mut Rng, draft: &mut Draft) -> u64 {
    let length = *rng.pick(&[31, 31, 0, 6, 30, 12]);
    draft.header.truncate(length);
    draft.pieces.clear();
    draft.tail.clear();
    0
}

fn header_magic(rng: &mut Rng, draft: &mut Draft) -> u64 {
    draft.header[rng.index(4)] ^= 1 << rng.below(8);
    0
}

fn header_version(rng: &mut Rng, draft: &mut Draft) -> u64 {
    let version = *rng.pick(&[0, 2, 256, 257, 65_535]);
    put_u16(&mut draft.header, 4, version);
    0
}

fn header_ignored(rng: &mut Rng, draft: &mut Draft) -> u64 {
    rng.fill(&mut draft.header[6..]);
    0
}

fn header_alone(_: &mut Rng, draft: &mut Draft) -> u64 {
    draft.pieces.clear();
    draft.tail.clear();
    draft.floor = u64::MAX;
    0
}

/// Some entry of the log; if it has none, a Checkpoint is put in.
fn some_entry(rng: &mut Rng, draft: &mut Draft) -> usize {
    if draft.pieces.is_empty() {
        draft.append(Entry::bare(0, CHECKPOINT));
    }
    rng.index(draft.pieces.len())
}

/// A fresh Insert put in somewhere, so that the entry has a key and a value.
fn fresh_insert(rng: &mut Rng, draft: &mut Draft) -> usize {
    let index = draft.any_gap(rng);
    let length = rng.size(LEAST_TUPLE, 90);
    let tuple = any_tuple(rng, length);
    let page = rng.number();
    draft.insert(index, Entry::insert(0, page, 0, &tuple));
    index
}

fn length_below(rng: &mut Rng, draft: &mut Draft) -> u64 {
    let index = some_entry(rng, draft);
    let length = *rng.pick(&[42, 42, 41, 4, 1, 0]);
    put_u32(&mut draft.pieces[index], 0, length);
    draft.offset(index)
}

fn length_above(rng: &mut Rng, draft: &mut Draft) -> u64 {
    let index = some_entry(rng, draft);
    let length = *rng.pick(&[32_706, 32_706, 32_707, 65_536 + 43, u32::MAX]);
    put_u32(&mut draft.pieces[index], 0, length);
    draft.offset(index)
}

/// An entry with equal lengths, a right checksum and right inner lengths, but
/// one byte longer than any entry may be.
fn entry_too_long(rng: &mut Rng, draft: &mut Draft) -> u64 {
    let old = any_tuple(rng, MOST_TUPLE);
    let new = any_tuple(rng, MOST_TUPLE + 1);
    let index = draft.any_gap(rng);
    draft.insert(index, Entry::update(0, rng.number(), 0, &old, &new));
    draft.offset(index)
}

fn length_smaller(rng: &mut Rng, draft: &mut Draft) -> u64 {
    let index = fresh_insert(rng, draft);
    let length = draft.pieces[index].len();
    let smaller = rng.size(43, length - 1);
    put_u32(&mut draft.pieces[index], 0, smaller as u32);
    draft.offset(index)
}

fn length_at_end(rng: &mut Rng, draft: &mut Draft) -> u64 {
    let index = some_entry(rng, draft);
    let at = draft.pieces[index].len() - 4 + rng.index(4);
    draft.pieces[index][at] ^= 1 << rng.below(8);
    draft.offset(index)
}

fn flipped_bit(rng: &mut Rng, draft: &mut Draft) -> u64 {
    let index = some_entry(rng, draft);
    let at = rng.size(4, draft.pieces[index].len() - 5);
    draft.pieces[index][at] ^= 1 << rng.below(8);
    draft.offset(index)
}

fn key_length(rng: &mut Rng, draft: &mut Draft) -> u64 {
    let index = some_entry(rng, draft);
    let piece = &mut draft.pieces[index];
    let room = piece.len() - 43;
    let length = if rng.one_in(2) {
        room + 1
    } else {
        rng.size(room + 1, 65_535)
    };
    put_u16(piece, 25, length as u16);
    seal_entry(piece);
    draft.offset(index)
}

fn old_length(rng: &mut Rng, draft: &mut Draft) -> u64 {
    let index = fresh_insert(rng, draft);
    let piece = &mut draft.pieces[index];
    let left = (piece.len() - 53) as u32;
    let length = *rng.pick(&[left + 1, left + 4, u32::MAX, 1 << 31]);
    put_u32(piece, 37, length);
    seal_entry(piece);
    draft.offset(index)
}

fn new_length(rng: &mut Rng, draft: &mut Draft) -> u64 {
    let index = fresh_insert(rng, draft);
    let piece = &mut draft.pieces[index];
    let left = (piece.len() - 53) as u32;
    let length = *rng.pick(&[left + 1, left - 1, 0, u32::MAX]);
    put_u32(piece, 41, length);
    seal_entry(piece);
    draft.offset(index)
}

fn damaged_tail(rng: &mut Rng, draft: &mut Draft) -> u64 {
    let length = rng.size(4, 60);
    draft.tail = rng.bytes(length);
    let field = *rng.pick(&[42, 42, 32_706, u32::MAX]);
    put_u32(&mut draft.tail, 0, field);
    draft.offset(draft.pieces.len())
}

/// A zero length with a later byte that is not zero, the last one mostly.
fn spoiled_zeros(rng: &mut Rng, draft: &mut Draft) -> u64 {
    let length = rng.size(5, 60);
    draft.tail = vec![0; length];
    let at = if rng.one_in(3) {
        rng.size(4, length - 1)
    } else {
        length - 1
    };
    draft.tail[at] = 1 << rng.below(8);
    draft.offset(draft.pieces.len())
}

fn few_zeros(rng: &mut Rng, draft: &mut Draft) -> u64 {
    draft.tail = vec![0; rng.size(1, 3)];
    0
}

fn many_zeros(rng: &mut Rng, draft: &mut Draft) -> u64 {
    let length = *rng.pick(&[4, 5, 7, 8, 9, 15, 16, 17, 43, 4_096]);
    draft.tail = vec![0; length];
    0
}

/// The first byte of an entry of 256 bytes, and zeros: with three or more of
/// them the log ends unused, with fewer torn.
fn cut_length(rng: &mut Rng, draft: &mut Draft) -> u64 {
    let tuple = any_tuple(rng, 256 - 53);
    draft.tail = Entry::insert(rng.number(), rng.number(), 0, &tuple)
        .with_lsn(rng.number())
        .encode();
    draft.tail.truncate(1);
    draft.tail.resize(1 + rng.size(0, 6), 0);
    0
}

fn shortest_tail(rng: &mut Rng, draft: &mut Draft) -> u64 {
    let length = rng.size(1, 3);
    draft.tail = rng.bytes(length);
    0
}

/// Any number of bytes of an entry that is not there to its end.
fn torn_entry(rng: &mut Rng, draft: &mut Draft) -> u64 {
    let length = rng.size(LEAST_TUPLE, 70);
    let tuple = any_tuple(rng, length);
    let number = rng.number();
    let entry = if rng.one_in(2) {
        Entry::bare(number, BEGIN)
    } else {
        Entry::insert(number, rng.number(), 0, &tuple)
    };
    draft.tail = entry.with_lsn(rng.number()).encode();
    let kept = rng.size(0, draft.tail.len() - 1);
    draft.tail.truncate(kept);
    0
}

fn longest_tail(rng: &mut Rng, draft: &mut Draft) -> u64 {
    let length = *rng.pick(&[4, 43, 1_000, 32_704]);
    draft.tail = rng.bytes(length);
    put_u32(&mut draft.tail, 0, 32_705);
    0
}

fn shortest_entry(_: &mut Rng, draft: &mut Draft) -> u64 {
    draft.tail.clear();
    draft.append(Entry::bare(0, CHECKPOINT));
    0
}

fn log_too_long(rng: &mut Rng, draft: &mut Draft) -> u64 {
    let before = draft.offset(draft.pieces.len()) as usize;
    let over = *rng.pick(&[1, 1, 43, 1_000]);
    draft.tail.resize(MAX_LOG_BYTES - before + over, 0);
    0
}

/// A log of exactly the most bytes: Checkpoints with rising LSNs after the last
/// entry, the last one torn.
fn log_of_largest_size(_: &mut Rng, draft: &mut Draft) -> u64 {
    let before = draft.offset(draft.pieces.len()) as usize;
    let mut lsn = draft.last_lsn();
    draft.tail.clear();
    while before + draft.tail.len() < MAX_LOG_BYTES {
        lsn += 1;
        let entry = Entry::bare(0, CHECKPOINT).with_lsn(lsn);
        draft.tail.extend(entry.encode());
    }
    draft.tail.truncate(MAX_LOG_BYTES - before);
    0
}
