//! The rules of a good page, each broken by itself and met at its very bound.

use crate::common::*;
use oracle::{verify, verify_from, Verdict, MAX_PAGES, PAGE_BYTES};

/// A page that is good.
const GOOD: (u64, u64) = (0, 0);

/// Refusal 19 at an offset of page 2.
fn slot_rule(at: u64) -> (u64, u64) {
    (19, 2 * 16_384 + at)
}

/// Refusal 19 at a slot of page 2.
fn slot(slot: u64) -> (u64, u64) {
    slot_rule(64 + 4 * slot)
}

/// What page 2 of three is refused by after its checksum has been set anew.
fn sealed(page: &[u8]) -> (u64, u64) {
    let mut page = page.to_vec();
    seal(&mut page);
    judged(&page)
}

fn judged(page: &[u8]) -> (u64, u64) {
    let pages = [&blank_page(4, 0, 0), &data_page(1, 0, &[]), page].concat();
    let verdict = verify(MAGIC, &pages);
    (verdict.number, verdict.place)
}

/// A Data page with tuples of 30 and 40 bytes in slots 0 and 2.
fn sample() -> Vec<u8> {
    data_page(2, 0, &[Some(tuple(30, 1)), None, Some(tuple(40, 2))])
}

fn changed(change: impl Fn(&mut [u8])) -> (u64, u64) {
    let mut page = sample();
    change(&mut page);
    sealed(&page)
}

/// A Data page with a free end and slots as given, all body bytes 0.
fn raw_page(free_end: u16, slots: &[(u16, u16)]) -> Vec<u8> {
    let mut page = blank_page(1, 2, 0);
    put16(&mut page, 10, slots.len() as u16);
    put16(&mut page, 32, 4 * slots.len() as u16);
    put16(&mut page, 34, free_end);
    for (slot, &(offset, length)) in slots.iter().enumerate() {
        put16(&mut page, HEADER + 4 * slot, offset);
        put16(&mut page, HEADER + 4 * slot + 2, length);
    }
    page
}

fn raw(free_end: u16, slots: &[(u16, u16)]) -> (u64, u64) {
    sealed(&raw_page(free_end, slots))
}

#[test]
fn header_fields() {
    assert_eq!(changed(|_| ()), GOOD);
    for at in 0..8 {
        assert_eq!(changed(|page| page[at] ^= 1), (11, 2));
    }
    for at in 16..24 {
        assert_eq!(changed(|page| page[at] ^= 1), (17, 2));
    }
    // Flags, LSN and reserved bytes are free.
    for at in (9..10).chain(24..32).chain(36..64) {
        assert_eq!(changed(|page| page[at] ^= 0xFF), GOOD);
    }
}

#[test]
fn types() {
    for kind in 0..=255 {
        let mut page = blank_page(kind, 2, 0);
        let known = if kind <= 6 { GOOD } else { (11, 2) };
        assert_eq!(sealed(&page), known);
        // Only a Data page has rules for counts and slots.
        put16(&mut page, 10, 1);
        assert_eq!(sealed(&page), if kind == 1 { slot_rule(32) } else { known });
    }
}

#[test]
fn checksum() {
    for kind in 0..=6 {
        let page = blank_page(kind, 2, 0);
        for at in [12, 13, 14, 15, 64, 65, 9_000, 16_383] {
            let mut spoiled = page.clone();
            spoiled[at] ^= 0x80;
            assert_eq!(judged(&spoiled), (18, 2));
        }
    }
}

#[test]
fn item_count() {
    // 4,080 slots fill the body; one more is too many before anything else is looked at.
    assert_eq!(changed(|page| put16(page, 10, 4_080)), slot_rule(32));
    for count in [4_081, 16_384, 65_535] {
        assert_eq!(changed(|page| put16(page, 10, count)), slot_rule(10));
    }
    // 4 x item count is no number of 16 bits here: 65,536 is not 0.
    let mut page = raw_page(16_320, &[]);
    put16(&mut page, 10, 16_384);
    assert_eq!(sealed(&page), slot_rule(10));
}

#[test]
fn free_start_and_free_end() {
    for start in [0, 8, 11, 13, 16] {
        assert_eq!(changed(|page| put16(page, 32, start)), slot_rule(32));
    }
    assert_eq!(changed(|page| put16(page, 10, 2)), slot_rule(32));
    assert_eq!(changed(|page| put16(page, 34, 12)), GOOD);
    assert_eq!(changed(|page| put16(page, 34, 11)), slot_rule(34));
    assert_eq!(changed(|page| put16(page, 34, 16_250)), GOOD);
    assert_eq!(changed(|page| put16(page, 34, 16_251)), slot(2));
    assert_eq!(changed(|page| put16(page, 34, 16_291)), slot(0));
    assert_eq!(raw(16_320, &[]), GOOD);
    assert_eq!(raw(16_321, &[]), slot_rule(34));
    assert_eq!(raw(0, &[]), GOOD);
}

#[test]
fn full_pages() {
    assert_eq!(raw(16_320, &[(0, 0); 4_080]), GOOD);
    assert_eq!(raw(4, &[(4, 16_316)]), GOOD);
    // Slots up to the very byte where tuples begin.
    let mut slots = vec![(0, 0); 4_073];
    slots.push((16_296, 24));
    assert_eq!(raw(16_296, &slots), GOOD);
    slots.push((0, 0));
    assert_eq!(raw(16_300, &slots), slot(4_073));
    // The last slot that a page can have.
    let mut slots = vec![(0, 0); 4_079];
    slots.push((16_320, 24));
    assert_eq!(raw(16_320, &slots), slot(4_079));
}

#[test]
fn slot_bounds() {
    assert_eq!(raw(100, &[(100, 24)]), GOOD);
    assert_eq!(raw(100, &[(99, 24)]), slot(0));
    assert_eq!(raw(100, &[(100, 23)]), slot(0));
    assert_eq!(raw(100, &[(100, 0)]), slot(0));
    assert_eq!(raw(100, &[(0, 24)]), slot(0));
    assert_eq!(raw(100, &[(0, 1)]), slot(0));
    assert_eq!(raw(100, &[(16_296, 24)]), GOOD);
    assert_eq!(raw(100, &[(16_297, 24)]), slot(0));
    assert_eq!(raw(100, &[(65_535, 65_535)]), slot(0));
    assert_eq!(raw(100, &[(0, 0), (200, 24), (0, 0), (99, 24)]), slot(3));
}

#[test]
fn deleted_byte() {
    for deleted in 0..=255 {
        let mut page = raw_page(100, &[(200, 24)]);
        page[HEADER + 216] = deleted;
        assert_eq!(sealed(&page), if deleted <= 1 { GOOD } else { slot(0) });
    }
}

#[test]
fn tuples_sharing_a_byte() {
    assert_eq!(raw(100, &[(200, 30), (230, 30), (170, 30)]), GOOD);
    assert_eq!(raw(100, &[(200, 30), (229, 30)]), slot(1));
    assert_eq!(raw(100, &[(229, 30), (0, 0), (200, 30)]), slot(2));
    assert_eq!(raw(100, &[(200, 30), (400, 30), (200, 30)]), slot(2));
    // One inside another.
    assert_eq!(raw(100, &[(200, 100), (240, 24)]), slot(1));
    assert_eq!(raw(100, &[(240, 24), (200, 100)]), slot(1));
    // The first slot at fault, whichever way it is.
    let shared_then_short = [(200, 30), (210, 30), (400, 23)];
    assert_eq!(raw(100, &shared_then_short), slot(1));
    let short_then_shared = [(200, 30), (400, 23), (210, 30)];
    assert_eq!(raw(100, &short_then_shared), slot(1));
}

/// A page that is wrong in every way, mended one by one.
#[test]
fn faults_of_one_page_come_in_their_order() {
    let mut page = raw_page(99, &[(98, 24), (200, 30), (210, 30)]);
    put64(&mut page, 0, !MAGIC);
    page[8] = 7;
    put64(&mut page, 16, 3);
    put16(&mut page, 10, 4_081);
    put16(&mut page, 32, 13);
    put16(&mut page, 34, 11);
    put32(&mut page, 12, 0);
    assert_eq!(judged(&page), (11, 2));
    put64(&mut page, 0, MAGIC);
    assert_eq!(judged(&page), (11, 2));
    page[8] = 1;
    assert_eq!(judged(&page), (17, 2));
    put64(&mut page, 16, 2);
    assert_eq!(judged(&page), (18, 2));
    seal(&mut page);
    assert_eq!(judged(&page), slot_rule(10));
    put16(&mut page, 10, 3);
    assert_eq!(judged(&page), slot_rule(32));
    put16(&mut page, 32, 12);
    assert_eq!(judged(&page), slot_rule(34));
    put16(&mut page, 34, 99);
    assert_eq!(judged(&page), slot(0));
    put16(&mut page, 34, 98);
    assert_eq!(judged(&page), slot(2));
    put16(&mut page, HEADER + 8, 230);
    assert_eq!(sealed(&page), GOOD);
}

#[test]
fn pages_from_an_index_on() {
    let mut pages: Vec<u8> = (0..5).flat_map(|id| data_page(id, 0, &[])).collect();
    pages[PAGE_BYTES + 100] = 1;
    put64(&mut pages, 2 * PAGE_BYTES + 16, 0);
    put16(&mut pages, 4 * PAGE_BYTES + 34, 16_321);
    let from = |first| {
        let verdict = verify_from(MAGIC, &pages, first);
        (verdict.number, verdict.place)
    };
    assert_eq!(from(0), (18, 1));
    assert_eq!(from(1), (18, 1));
    assert_eq!(from(2), (17, 2));
    assert_eq!(from(3), (19, 4 * 16_384 + 34));
    assert_eq!(from(4), (19, 4 * 16_384 + 34));
    for first in [5, 6, u64::MAX] {
        assert_eq!(from(first), GOOD);
        let verdict = verify_from(MAGIC, &pages[1..], first);
        assert_eq!((verdict.number, verdict.place), (1, 0));
    }
}

#[test]
fn page_bytes() {
    let one = Verdict {
        number: 1,
        place: 0,
    };
    assert_eq!(verify(MAGIC, &[]), Verdict::default());
    assert_eq!(verify(MAGIC, &[0]), one);
    assert_eq!(verify(MAGIC, &vec![0; PAGE_BYTES - 1]), one);
    assert_eq!(verify(MAGIC, &vec![0; PAGE_BYTES + 1]), one);
    assert_eq!(verify(MAGIC, &vec![0; (MAX_PAGES + 1) * PAGE_BYTES]), one);
    let magic_wrong = Verdict {
        number: 11,
        place: 0,
    };
    assert_eq!(verify(MAGIC, &vec![0; MAX_PAGES * PAGE_BYTES]), magic_wrong);
}
