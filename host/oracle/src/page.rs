//! One page: its header fields, its slots, and whether it is good.

use crate::bytes::{u16_at, u32_at, u64_at};
use crate::crc::crc32c;
use crate::{Refusal, MAX_PAGES, PAGE_BYTES};

/// The header has 64 bytes; offsets of tuples are counted from the body's start.
pub(crate) const PAGE_HEADER_BYTES: usize = 64;

/// The body has 16,320 bytes.
pub(crate) const BODY_BYTES: usize = 16_320;

pub(crate) const DATA: u8 = 1;
pub(crate) const FREE: u8 = 4;

/// A row header has 24 bytes: xmin, xmax, deleted byte and 7 pad bytes.
pub(crate) const ROW_HEADER_BYTES: usize = 24;

/// The longest tuple.
pub(crate) const LONGEST_TUPLE_BYTES: usize = 16_316;

/// Refusal 1: page bytes no multiple of 16,384, or over 4,096 pages.
pub(crate) fn check_page_bytes(pages: &[u8]) -> Result<(), Refusal> {
    if pages.len() % PAGE_BYTES != 0 || pages.len() / PAGE_BYTES > MAX_PAGES {
        return Err(Refusal::new(1, 0));
    }
    Ok(())
}

/// The first page from an index on that is not good, by its own refusal.
pub(crate) fn check_pages_from(magic: u64, pages: &[u8], first: u64) -> Result<(), Refusal> {
    for (index, page) in (0u64..).zip(pages.chunks_exact(PAGE_BYTES)) {
        if index >= first {
            check_page(magic, index, page)?;
        }
    }
    Ok(())
}

pub(crate) fn page_at(pages: &[u8], index: usize) -> &[u8] {
    &pages[index * PAGE_BYTES..(index + 1) * PAGE_BYTES]
}

pub(crate) fn page_type(page: &[u8]) -> u8 {
    page[8]
}

pub(crate) fn item_count(page: &[u8]) -> usize {
    u16_at(page, 10) as usize
}

pub(crate) fn page_lsn(page: &[u8]) -> u64 {
    u64_at(page, 24)
}

/// The offset (from the body's start) and length written in a slot.
fn slot_numbers(page: &[u8], slot: usize) -> (usize, usize) {
    let at = PAGE_HEADER_BYTES + 4 * slot;
    (u16_at(page, at) as usize, u16_at(page, at + 2) as usize)
}

/// Where the tuple of a slot of a good Data page stands in the page, with its
/// length. (0, 0) is an empty slot, and so is a slot past the item count.
pub(crate) fn tuple_in_slot(page: &[u8], slot: usize) -> Option<(usize, usize)> {
    if slot >= item_count(page) {
        return None;
    }
    match slot_numbers(page, slot) {
        (0, 0) => None,
        (offset, length) => Some((PAGE_HEADER_BYTES + offset, length)),
    }
}

/// A page is good if magic fits, type is 0 to 6, id equals its index and the
/// CRC of the body is right. A Data page must also keep the slot rules. 11 is a
/// wrong magic or type, 17 a wrong id, 18 a wrong checksum, in this order, each
/// with the page's index; 19 a broken slot rule, with the byte offset in the
/// page area of what breaks it.
pub(crate) fn check_page(magic: u64, index: u64, page: &[u8]) -> Result<(), Refusal> {
    if u64_at(page, 0) != magic || page_type(page) > 6 {
        return Err(Refusal::new(11, index));
    }
    if u64_at(page, 16) != index {
        return Err(Refusal::new(17, index));
    }
    if u32_at(page, 12) != crc32c(&page[PAGE_HEADER_BYTES..]) {
        return Err(Refusal::new(18, index));
    }
    match broken_slot_rule(page) {
        Some(at) => Err(Refusal::new(19, index * PAGE_BYTES as u64 + at as u64)),
        None => Ok(()),
    }
}

/// Where in a Data page the first thing stands that breaks a slot rule: before
/// the slots the item count, if it is over 4,080, then the free start, if it is
/// not 4 times that, then the free end, if it is out of bounds; then the first
/// slot that is at fault by itself or shares a byte with an earlier one.
fn broken_slot_rule(page: &[u8]) -> Option<usize> {
    if page_type(page) != DATA {
        return None;
    }
    let count = item_count(page);
    let free_start = u16_at(page, 32) as usize;
    let free_end = u16_at(page, 34) as usize;
    if count > 4_080 {
        return Some(10);
    }
    if free_start != 4 * count {
        return Some(32);
    }
    if free_end < free_start || free_end > BODY_BYTES {
        return Some(34);
    }
    let mut taken = vec![false; BODY_BYTES];
    for slot in 0..count {
        let (offset, length) = slot_numbers(page, slot);
        if (offset, length) == (0, 0) {
            continue;
        }
        let at_fault_itself = length < ROW_HEADER_BYTES
            || offset < free_end
            || offset + length > BODY_BYTES
            || page[PAGE_HEADER_BYTES + offset + 16] > 1;
        if at_fault_itself || taken[offset..offset + length].contains(&true) {
            return Some(PAGE_HEADER_BYTES + 4 * slot);
        }
        taken[offset..offset + length].fill(true);
    }
    None
}
