//! Repaired pages: ours, laid out otherwise, and ours with one or two things wrong.

use std::collections::BTreeSet;

use crate::ledger::whole_entries;
use crate::page::{
    data_page, fits, get_u16, get_u64, least_count, page_type, put_u16, put_u64, seal_page,
    slots_of, tuple_bytes, DataPage, Slots, BODY_BYTES, DATA, PAGE_BYTES, PAGE_HEADER_BYTES,
};
use crate::rng::Rng;

/// The pages that the log of an accepted input touches.
pub fn touched_pages(log: &[u8]) -> BTreeSet<u64> {
    let entries = whole_entries(log);
    let changes = entries.iter().filter(|entry| entry.is_change());
    changes.map(|entry| entry.target().0).collect()
}

fn page_mut(pages: &mut [u8], index: u64) -> &mut [u8] {
    &mut pages[index as usize * PAGE_BYTES..][..PAGE_BYTES]
}

/// The parts of a Data page, with the rows that it is to have.
fn parts(page: &[u8], slots: Slots) -> DataPage {
    DataPage {
        magic: get_u64(page, 0),
        flags: page[9],
        count: get_u16(page, 10).max(least_count(&slots) as u16),
        id: get_u64(page, 16),
        lsn: get_u64(page, 24),
        reserved: page[36..64].try_into().expect("28 bytes"),
        slots,
    }
}

/// Our pages, each touched one with its rows in another order and with gaps, another LSN, other flags and a higher or
/// lower item count.
pub fn repacked(rng: &mut Rng, ours: &[u8], touched: &BTreeSet<u64>) -> Vec<u8> {
    let mut pages = ours.to_vec();
    for &index in touched {
        let page = page_mut(&mut pages, index);
        let slots = slots_of(page);
        let least = least_count(&slots);
        let most = (BODY_BYTES - tuple_bytes(&slots)) / 4;
        let mut parts = parts(page, slots);
        parts.count = match rng.below(3) {
            0 => least,
            1 => rng.size(least, most),
            _ => rng.size(least, most.min(least + 9)),
        } as u16;
        parts.flags = rng.byte();
        parts.lsn = rng.next_u64();
        page.copy_from_slice(&data_page(rng, &parts));
    }
    pages
}

/// Pages after a repair with one page wrong, and its lowest slot that differs.
#[derive(Clone, Debug)]
pub struct Spoiled {
    pub kind: &'static str,
    pub pages: Vec<u8>,
    pub page: u64,
    pub slot: u64,
}

/// One byte of a row on a touched page is another.
pub fn other_row(rng: &mut Rng, after: &[u8], touched: &BTreeSet<u64>) -> Option<Spoiled> {
    with_rows(rng, after, touched, "byte of a row", |rng, slots| {
        let rows: Vec<u16> = slots.keys().copied().collect();
        if rows.is_empty() {
            return None;
        }
        let slot = *rng.pick(&rows);
        other_byte(rng, slots.get_mut(&slot)?);
        Some(slot)
    })
}

fn other_byte(rng: &mut Rng, row: &mut [u8]) {
    let at = rng.index(row.len());
    match at {
        // A deleted byte is 0 or 1.
        16 => row[at] ^= 1,
        _ => row[at] ^= 1 << rng.below(8),
    }
}

/// One byte of each of two rows on a touched page is another: the lower slot is named.
pub fn two_rows(rng: &mut Rng, after: &[u8], touched: &BTreeSet<u64>) -> Option<Spoiled> {
    with_rows(rng, after, touched, "bytes of two rows", |rng, slots| {
        let mut rows: Vec<u16> = slots.keys().copied().collect();
        rng.shuffle(&mut rows);
        let [one, other, ..] = rows[..] else {
            return None;
        };
        other_byte(rng, slots.get_mut(&one)?);
        other_byte(rng, slots.get_mut(&other)?);
        Some(one.min(other))
    })
}

/// A byte of a row and a reserved byte of its page are others: slot 0 is named, for the header.
pub fn row_and_reserved(rng: &mut Rng, after: &[u8], touched: &BTreeSet<u64>) -> Option<Spoiled> {
    let mut spoiled = other_row(rng, after, touched)?;
    page_mut(&mut spoiled.pages, spoiled.page)[rng.size(36, 63)] ^= 1 << rng.below(8);
    Some(Spoiled {
        kind: "byte of a row and reserved byte",
        slot: 0,
        ..spoiled
    })
}

/// A row stands once more, in a slot that is free: the gearbox twice.
pub fn row_twice(rng: &mut Rng, after: &[u8], touched: &BTreeSet<u64>) -> Option<Spoiled> {
    with_rows(rng, after, touched, "row in a fresh slot", |rng, slots| {
        let rows: Vec<Vec<u8>> = slots.values().cloned().collect();
        if rows.is_empty() {
            return None;
        }
        let free = (0..4_080u16).filter(|slot| !slots.contains_key(slot));
        let free: Vec<u16> = free.take(rng.size(1, 9)).collect();
        let slot = *rng.pick(&free);
        slots.insert(slot, rng.pick(&rows).clone());
        fits(slots).then_some(slot)
    })
}

/// A row is lost.
pub fn row_lost(rng: &mut Rng, after: &[u8], touched: &BTreeSet<u64>) -> Option<Spoiled> {
    with_rows(rng, after, touched, "row lost", |rng, slots| {
        let rows: Vec<u16> = slots.keys().copied().collect();
        if rows.is_empty() {
            return None;
        }
        let slot = *rng.pick(&rows);
        slots.remove(&slot);
        Some(slot)
    })
}

/// A touched page with other rows in any layout.
fn with_rows(
    rng: &mut Rng,
    after: &[u8],
    touched: &BTreeSet<u64>,
    kind: &'static str,
    change: impl FnOnce(&mut Rng, &mut Slots) -> Option<u16>,
) -> Option<Spoiled> {
    let index = any_of(rng, touched)?;
    let mut pages = after.to_vec();
    let page = page_mut(&mut pages, index);
    let mut slots = slots_of(page);
    let slot = change(rng, &mut slots)?;
    let parts = parts(page, slots);
    if 4 * parts.count as usize + tuple_bytes(&parts.slots) > BODY_BYTES {
        return None;
    }
    page.copy_from_slice(&data_page(rng, &parts));
    Some(Spoiled {
        kind,
        pages,
        page: index,
        slot: slot.into(),
    })
}

/// A reserved byte of a touched page is another.
pub fn other_reserved(rng: &mut Rng, after: &[u8], touched: &BTreeSet<u64>) -> Option<Spoiled> {
    let index = any_of(rng, touched)?;
    let mut pages = after.to_vec();
    page_mut(&mut pages, index)[rng.size(36, 63)] ^= 1 << rng.below(8);
    Some(Spoiled {
        kind: "reserved byte",
        pages,
        page: index,
        slot: 0,
    })
}

/// A touched page is no Data page any more.
pub fn other_type(rng: &mut Rng, after: &[u8], touched: &BTreeSet<u64>) -> Option<Spoiled> {
    let index = any_of(rng, touched)?;
    let mut pages = after.to_vec();
    page_mut(&mut pages, index)[8] = *rng.pick(&[0, 2, 3, 4, 5, 6]);
    Some(Spoiled {
        kind: "other type",
        pages,
        page: index,
        slot: 0,
    })
}

/// A page that the log does not touch has another byte: in the gap of a Data page where there is one, else anywhere in the
/// body of another page; or other flags, or another LSN.
pub fn untouched_byte(rng: &mut Rng, after: &[u8], touched: &BTreeSet<u64>) -> Option<Spoiled> {
    let count = (after.len() / PAGE_BYTES) as u64;
    let others: BTreeSet<u64> = (0..count).filter(|page| !touched.contains(page)).collect();
    let index = any_of(rng, &others)?;
    let mut pages = after.to_vec();
    let page = page_mut(&mut pages, index);
    let gap = match page_type(page) {
        DATA => get_u16(page, 32) as usize..get_u16(page, 34) as usize,
        _ => 0..BODY_BYTES,
    };
    let kind = match rng.below(4) {
        0 => {
            page[9] ^= 1 << rng.below(8);
            "flags of an untouched page"
        }
        1 => {
            let lsn = get_u64(page, 24);
            put_u64(page, 24, lsn ^ 1 << rng.below(64));
            "LSN of an untouched page"
        }
        _ if gap.is_empty() => return None,
        _ => {
            page[PAGE_HEADER_BYTES + rng.size(gap.start, gap.end - 1)] ^= 1 << rng.below(8);
            seal_page(page);
            "byte of an untouched page"
        }
    };
    Some(Spoiled {
        kind,
        pages,
        page: index,
        slot: 0,
    })
}

/// A page after a repair that is not good: its magic, its id, its checksum, or a field or slot of a Data page.
pub fn bad_page(rng: &mut Rng, after: &[u8]) -> Option<Vec<u8>> {
    if after.is_empty() {
        return None;
    }
    let index = rng.index(after.len() / PAGE_BYTES) as u64;
    let mut pages = after.to_vec();
    let page = page_mut(&mut pages, index);
    match rng.below(5) {
        0 => page[rng.index(8)] ^= 1 << rng.below(8),
        1 => page[rng.size(16, 23)] ^= 1 << rng.below(8),
        2 => page[rng.size(12, 15)] ^= 1 << rng.below(8),
        3 if page_type(page) == DATA => {
            let start = get_u16(page, 32);
            put_u16(page, 32, start ^ 4);
        }
        4 if page_type(page) == DATA && get_u16(page, 10) > 0 => {
            let slot = rng.index(get_u16(page, 10) as usize);
            let at = PAGE_HEADER_BYTES + 4 * slot;
            put_u16(page, at, 16_319);
            put_u16(page, at + 2, 24);
            seal_page(page);
        }
        _ => return None,
    }
    Some(pages)
}

fn any_of(rng: &mut Rng, pages: &BTreeSet<u64>) -> Option<u64> {
    let pages: Vec<u64> = pages.iter().copied().collect();
    match pages.is_empty() {
        true => None,
        false => Some(*rng.pick(&pages)),
    }
}
