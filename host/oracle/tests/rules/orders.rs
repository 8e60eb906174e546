//! Orders by their request marks: payloads at every bound, short ones counted, and pairs.

use crate::common::*;
use oracle::{find_order, repeated_orders, FoundOrder, RepeatedOrders};

const MARK: [u8; 16] = *b"press by Quay 4.";

/// The bytes of a payload under a mark, so many of them: the mark, the part number, ten times it, and zeros.
fn payload(mark: [u8; 16], part: u32, length: usize) -> Vec<u8> {
    let mut bytes = mark.to_vec();
    bytes.extend(part.to_le_bytes());
    bytes.extend((10 * part).to_le_bytes());
    bytes.resize(length, 0);
    bytes
}

/// A tuple with this payload, and with an xmax and a deleted byte.
fn stamped(xmax: u8, deleted: u8, payload: &[u8]) -> Option<Vec<u8>> {
    let mut row = tuple(24, 0);
    (row[8], row[16]) = (xmax, deleted);
    row.extend(payload);
    Some(row)
}

fn row(payload: &[u8]) -> Option<Vec<u8>> {
    stamped(0, 0, payload)
}

fn found(page: u64, slot: u64, part: u64, short: u64) -> FoundOrder {
    FoundOrder {
        found: 1,
        page,
        slot,
        part,
        quantity: 10 * part,
        short,
        ..FoundOrder::default()
    }
}

/// Page, slot and part number of both.
fn places(of: RepeatedOrders) -> [u64; 6] {
    assert_eq!((of.number, of.place, of.found), (0, 0, 1));
    assert_eq!(
        (of.quantity, of.later_quantity),
        (10 * of.part, 10 * of.later_part)
    );
    [
        of.page,
        of.slot,
        of.part,
        of.later_page,
        of.later_slot,
        of.later_part,
    ]
}

#[test]
fn a_payload_has_24_bytes_or_is_counted() {
    for length in [0, 15, 16, 23, 24, 25] {
        let mut bytes = payload(MARK, 7, 40);
        bytes.truncate(length);
        let pages = data_page(0, 0, &[row(&bytes)]);
        let expected = match length {
            24.. => found(0, 0, 7, 0),
            _ => FoundOrder {
                short: 1,
                ..FoundOrder::default()
            },
        };
        assert_eq!(find_order(MAGIC, &pages, &MARK), expected, "{length} bytes");
    }
}

#[test]
fn short_payloads_count_wherever_the_order_stands() {
    let short = row(b"short");
    let order = row(&payload(MARK, 7, 24));
    let pages = |slots: &[Option<Vec<u8>>]| {
        [data_page(0, 0, slots), data_page(1, 0, &[short.clone()])].concat()
    };
    for slots in [
        vec![short.clone(), short.clone(), order.clone()],
        vec![short.clone(), order.clone(), short.clone()],
        vec![order.clone(), short.clone(), short.clone()],
    ] {
        let slot = slots.iter().position(|it| *it == order).unwrap() as u64;
        assert_eq!(
            find_order(MAGIC, &pages(&slots), &MARK),
            found(0, slot, 7, 3)
        );
    }
    let none = pages(&[short.clone()]);
    assert_eq!(find_order(MAGIC, &none, &MARK).short, 2);
}

#[test]
fn a_mark_on_cancelled_and_visible_rows() {
    let cancelled = |xmax, deleted| stamped(xmax, deleted, &payload(MARK, 5, 24));
    let slots = [
        cancelled(0, 1),
        cancelled(9, 0),
        cancelled(9, 1),
        row(&payload(MARK, 7, 24)),
    ];
    let pages = data_page(0, 0, &slots);
    assert_eq!(find_order(MAGIC, &pages, &MARK), found(0, 3, 7, 0));
    assert_eq!(repeated_orders(MAGIC, &pages), RepeatedOrders::default());
}

#[test]
fn marks_that_differ_in_one_byte() {
    for at in 0..16 {
        let mut other = MARK;
        other[at] ^= 0x80;
        let slots = [row(&payload(other, 5, 24)), row(&payload(MARK, 7, 24))];
        let pages = data_page(0, 0, &slots);
        assert_eq!(find_order(MAGIC, &pages, &MARK), found(0, 1, 7, 0));
        assert_eq!(repeated_orders(MAGIC, &pages), RepeatedOrders::default());
    }
}

/// By the earlier row, then the later; rows that only begin with the mark do not count.
#[test]
fn the_least_pair() {
    let of = |mark: u8, part| row(&payload([mark; 16], part, 24));
    let pages = |first: &[Option<Vec<u8>>], second: &[Option<Vec<u8>>]| {
        [data_page(0, 0, first), data_page(1, 0, second)].concat()
    };
    let least = |pages: Vec<u8>| places(repeated_orders(MAGIC, &pages));
    assert_eq!(
        least(pages(&[of(1, 1), of(2, 2), of(2, 3)], &[of(1, 4)])),
        [0, 0, 1, 1, 0, 4]
    );
    assert_eq!(
        least(pages(&[of(3, 1), of(2, 2)], &[None, of(2, 3), of(2, 4)])),
        [0, 1, 2, 1, 1, 3]
    );
    let alone = row(&[3; 23]);
    assert_eq!(
        least(pages(&[of(3, 1), alone], &[of(2, 2), of(2, 3)])),
        [1, 0, 2, 1, 1, 3]
    );
}

#[test]
fn both_refuse_as_the_listing_does() {
    let order = row(&payload(MARK, 7, 24));
    let mut pages = [
        data_page(0, 0, &[order.clone(), order]),
        blank_page(4, 1, 0),
    ]
    .concat();
    let refused = |pages: &[u8]| {
        let one = find_order(MAGIC, pages, &MARK);
        let two = repeated_orders(MAGIC, pages);
        assert_eq!((one.found, one.short, two.found), (0, 0, 0));
        assert_eq!((one.number, one.place), (two.number, two.place));
        (one.number, one.place)
    };
    assert_eq!(refused(&pages[1..]), (1, 0));
    pages[16_384 + 70] ^= 1;
    assert_eq!(refused(&pages), (18, 1));
    pages[16_384 + 16] = 2;
    assert_eq!(refused(&pages), (17, 1));
    pages[16_384 + 8] = 7;
    assert_eq!(refused(&pages), (11, 1));
}
