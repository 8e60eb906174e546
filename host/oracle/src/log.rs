//! The log read one step at a time: its file header, the step forward, the
//! step backward and the end found by walking.

use std::ops::RangeInclusive;

use crate::bytes::{u16_at, u32_at, u64_at};
use crate::crc::crc32c;
use crate::listing::Verdict;
use crate::{Refusal, MAX_LOG_BYTES};

/// The file header has 32 bytes and the first entry stands right after it.
pub(crate) const LOG_HEADER_BYTES: usize = 32;

/// The fixed parts of an entry sum to 43.
const FIXED_BYTES: usize = 43;

/// A length below 43 or above 32,705 is damage.
const ENTRY_LENGTHS: RangeInclusive<usize> = FIXED_BYTES..=32_705;

/// The numbers of one whole entry, and where it stands in the log.
#[derive(Clone, Copy, Debug, PartialEq, Eq, Default)]
pub struct EntryFields {
    pub offset: u64,
    pub length: u64,
    pub lsn: u64,
    pub transaction: u64,
    pub kind: u64,
    pub table: u64,
    pub key_len: u64,
    pub old_len: u64,
    pub new_len: u64,
}

impl EntryFields {
    /// The key stands after the fixed parts length, LSN, transaction, type,
    /// table and key length.
    pub(crate) fn key_at(&self) -> usize {
        self.offset as usize + 27
    }

    /// The old value stands after the key and its own length.
    pub(crate) fn old_at(&self) -> usize {
        self.key_at() + self.key_len as usize + 4
    }

    /// The new value stands after the old value and its own length.
    pub(crate) fn new_at(&self) -> usize {
        self.old_at() + self.old_len as usize + 4
    }
}

/// What a forward step answers.
#[derive(Clone, Copy, Debug, PartialEq, Eq)]
pub enum Step {
    Entry(EntryFields),
    End,
    Torn,
    /// Room set aside: 4 or more bytes are left and all are zero.
    Unused,
    Damage,
}

/// Refusal 2: the log is over 16,777,216 bytes. Refusal 3: its header is
/// short, does not begin with 57 41 4C 4E, or has a version other than 1.
pub(crate) fn check_header(log: &[u8]) -> Result<(), Refusal> {
    if log.len() > MAX_LOG_BYTES {
        return Err(Refusal::new(2, 0));
    }
    if log.len() < LOG_HEADER_BYTES {
        return Err(Refusal::new(3, 0));
    }
    if log[0..4] != [0x57, 0x41, 0x4C, 0x4E] || u16_at(log, 4) != 1 {
        return Err(Refusal::new(3, 0));
    }
    Ok(())
}

/// The whole entry of a given length at an offset, if there is one: equal
/// lengths at both ends, a right CRC, and inner lengths that sum to its length.
/// The caller has made sure that the length is allowed and inside the log.
fn whole_entry(log: &[u8], offset: usize, length: usize) -> Option<EntryFields> {
    let entry = &log[offset..offset + length];
    if u32_at(entry, 0) as usize != length || u32_at(entry, length - 4) as usize != length {
        return None;
    }
    if crc32c(&entry[..length - 8]) != u32_at(entry, length - 8) {
        return None;
    }

    let room = length - FIXED_BYTES;
    let key_len = u16_at(entry, 25) as usize;
    if key_len > room {
        return None;
    }
    let old_len = u32_at(entry, 27 + key_len) as usize;
    if old_len > room - key_len {
        return None;
    }
    let new_len = u32_at(entry, 31 + key_len + old_len) as usize;
    if new_len != room - key_len - old_len {
        return None;
    }

    Some(EntryFields {
        offset: offset as u64,
        length: length as u64,
        lsn: u64_at(entry, 4),
        transaction: u64_at(entry, 12),
        kind: u64::from(entry[20]),
        table: u64::from(u32_at(entry, 21)),
        key_len: key_len as u64,
        old_len: old_len as u64,
        new_len: new_len as u64,
    })
}

/// What stands at a place: nothing left ends the log; 1 to 3 bytes are a torn
/// tail; where 4 or more are left and all are zero, the log ends there, unused;
/// a length out of bounds is damage, a zero length with any later non-zero byte
/// among them; a length above what is left is a torn tail; and an entry that is
/// not whole is damage. A place below 32 or past the log gives the exact end.
pub fn forward(log: &[u8], place: u64) -> Step {
    if place < LOG_HEADER_BYTES as u64 || place > log.len() as u64 {
        return Step::End;
    }
    let offset = place as usize;
    let left = log.len() - offset;
    if left == 0 {
        return Step::End;
    }
    if left <= 3 {
        return Step::Torn;
    }
    if log[offset..].iter().all(|&byte| byte == 0) {
        return Step::Unused;
    }
    let length = u32_at(log, offset) as usize;
    if !ENTRY_LENGTHS.contains(&length) {
        return Step::Damage;
    }
    if length > left {
        return Step::Torn;
    }
    match whole_entry(log, offset, length) {
        Some(entry) => Step::Entry(entry),
        None => Step::Damage,
    }
}

/// The entry that ends at a place and is whole, never reaching before byte 32;
/// none for a place below 32 or past the log.
pub fn backward(log: &[u8], place: u64) -> Option<EntryFields> {
    if place < LOG_HEADER_BYTES as u64 + 4 || place > log.len() as u64 {
        return None;
    }
    let end = place as usize;
    let length = u32_at(log, end - 4) as usize;
    if !ENTRY_LENGTHS.contains(&length) {
        return None;
    }
    if end < LOG_HEADER_BYTES + length {
        return None;
    }
    whole_entry(log, end - length, length)
}

/// The log reader starts at byte 32 or at the end found by walking, where the
/// first damage, tail, unused room or exact end stands. It refuses 2 and 3, and its place is
/// then 0.
pub fn log_open(log: &[u8], at_end: bool) -> Verdict {
    if let Err(refusal) = check_header(log) {
        return Verdict {
            number: refusal.number,
            place: 0,
        };
    }
    let mut place = LOG_HEADER_BYTES as u64;
    if at_end {
        while let Step::Entry(entry) = forward(log, place) {
            place += entry.length;
        }
    }
    Verdict { number: 0, place }
}
