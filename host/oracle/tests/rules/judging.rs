//! Repaired pages: what may differ, what may not, which page and slot a no names, and the order of refusals.

use crate::common::*;
use oracle::{judge, judge_from, Finding};

fn old() -> Vec<u8> {
    tuple(30, 1)
}

fn new() -> Vec<u8> {
    tuple(40, 2)
}

/// Three Data pages; 7 deletes the row of page 0 and puts another behind it.
fn before() -> Vec<u8> {
    let page = |id| data_page(id, 0, &[Some(old())]);
    [page(0), page(1), page(2)].concat()
}

fn log() -> Vec<u8> {
    let mut log = Log::new();
    log.begin(7);
    log.delete(7, 0, 0, &old());
    log.insert(7, 0, 2, &new());
    log.commit(7);
    log.bytes
}

fn ours() -> Vec<u8> {
    let mut pages = before();
    assert_eq!(run(&mut pages, &log()).number, 0);
    pages
}

/// Our pages with another page 0.
fn with_page_0(slots: &[Option<Vec<u8>>]) -> Vec<u8> {
    let mut pages = ours();
    pages[..16_384].copy_from_slice(&data_page(0, 99, slots));
    pages
}

fn deleted() -> Vec<u8> {
    let mut row = old();
    put64(&mut row, 8, 7);
    row[16] = 1;
    row
}

fn judged(after: &[u8]) -> Finding {
    judge(MAGIC, 0, &before(), &log(), after)
}

fn no(page: u64, slot: u64) -> Finding {
    Finding {
        differs: 1,
        page,
        slot,
        ..Finding::default()
    }
}

fn refused_by(number: u64, place: u64) -> Finding {
    Finding {
        number,
        place,
        ..Finding::default()
    }
}

#[test]
fn ours_and_other_layouts() {
    assert_eq!(judged(&ours()), Finding::default());
    // Another LSN, and more and fewer empty slots.
    for more in [0, 1, 9] {
        let mut slots = vec![Some(deleted()), None, Some(new())];
        slots.resize(3 + more, None);
        assert_eq!(judged(&with_page_0(&slots)), Finding::default());
    }
    let mut pages = ours();
    pages[9] = 3;
    pages[64 + 100] ^= 1;
    seal(&mut pages[..16_384]);
    assert_eq!(judged(&pages), Finding::default());
}

#[test]
fn the_lowest_slot_that_differs() {
    let rows = |slots: &[Option<Vec<u8>>]| judged(&with_page_0(slots));
    assert_eq!(rows(&[Some(old()), None, Some(new())]), no(0, 0));
    assert_eq!(rows(&[Some(deleted()), Some(new()), Some(new())]), no(0, 1));
    assert_eq!(rows(&[Some(deleted()), None, Some(old())]), no(0, 2));
    assert_eq!(rows(&[Some(deleted())]), no(0, 2));
    assert_eq!(
        rows(&[Some(deleted()), None, Some(new()), None, Some(new())]),
        no(0, 4)
    );
    assert_eq!(judged(&before()), no(0, 0));
}

#[test]
fn headers_and_untouched_pages() {
    for at in [36, 63, 8] {
        let mut pages = ours();
        pages[at] ^= 2;
        assert_eq!(judged(&pages), no(0, 0), "byte {at}");
    }
    for at in [9, 24, 36, 64 + 100] {
        let mut pages = ours();
        pages[16_384 + at] ^= 2;
        seal(&mut pages[16_384..32_768]);
        assert_eq!(judged(&pages), no(1, 0), "byte {at}");
    }
}

#[test]
fn from_a_page_on() {
    let mut pages = ours();
    pages[36] ^= 1;
    pages[2 * 16_384 + 36] ^= 1;
    let from = |first| judge_from(MAGIC, 0, &before(), &log(), &pages, first);
    assert_eq!(from(0), no(0, 0));
    assert_eq!((from(1), from(2)), (no(2, 0), no(2, 0)));
    assert_eq!((from(3), from(u64::MAX)), Default::default());
}

#[test]
fn refusals_in_their_order() {
    let after = ours();
    let torn = |index: usize, pages: &[u8]| {
        let mut pages = pages.to_vec();
        pages[index * 16_384 + 200] ^= 1;
        pages
    };
    let bad = torn(2, &after);
    // The pages before come before the lengths, and these before the pages after.
    let refused = |before: &[u8], log: &[u8], after: &[u8]| judge(MAGIC, 0, before, log, after);
    assert_eq!(
        refused(&torn(1, &before()), &log(), &bad[..16_384]),
        refused_by(18, 1)
    );
    assert_eq!(
        refused(&before(), &log()[..31], &bad[..16_384]),
        refused_by(3, 0)
    );
    assert_eq!(
        refused(&before(), &log(), &bad[..16_384]),
        refused_by(39, 0)
    );
    assert_eq!(refused(&before(), &log(), &bad[1..]), refused_by(39, 0));
    assert_eq!(refused(&before(), &log(), &bad), refused_by(18, 2));
    let mut two = bad;
    put16(&mut two, 16_384 + 32, 9);
    assert_eq!(
        refused(&before(), &log(), &two),
        refused_by(19, 16_384 + 32)
    );
    // A page after may have any LSN.
    let mut late = after;
    put64(&mut late, 24, u64::MAX);
    assert_eq!(refused(&before(), &log(), &late), Finding::default());
    assert_eq!(
        judge_from(MAGIC, 0, &before(), &log(), &two, 3),
        refused_by(19, 16_384 + 32)
    );
}
