//! More orders than one block of the search for repeated marks holds: 114,688, so that the last ones come in a second block.

use generate::{live_tuple, DataPage, Slots};

const MAGIC: u64 = 7;
const PAGES: u64 = 368;

/// The orders of 24 bytes that a page has room for.
const ORDERS: u64 = 313;
const ALL: u64 = PAGES * ORDERS;

/// Full pages of orders: the mark of each has a number of its own in its last half.
fn pages(number: impl Fn(u64) -> u64) -> Vec<u8> {
    let order = |n: u64| {
        let mut payload = [0x5A; 24];
        payload[8..16].copy_from_slice(&number(n).to_le_bytes());
        payload[16..].copy_from_slice(&n.to_le_bytes());
        live_tuple(1, &payload)
    };
    let page = |id: u64| {
        let slots: Slots = (0..ORDERS)
            .map(|slot| (slot as u16, order(id * ORDERS + slot)))
            .collect();
        DataPage::plain(MAGIC, id, 0, slots).packed()
    };
    (0..PAGES).flat_map(page).collect()
}

/// The orders that are a pair where their marks have these numbers, by page, slot and part number.
fn pair(number: impl Fn(u64) -> u64) -> Option<[(u64, u64, u64); 2]> {
    let pair = library::repeated_orders(MAGIC, &pages(number));
    assert_eq!(pair.number, 0);
    (pair.found == 1).then_some([
        (pair.page, pair.slot, pair.part),
        (pair.later_page, pair.later_slot, pair.later_part),
    ])
}

#[test]
fn a_second_block_of_orders() {
    const BLOCK: u64 = 114_688;
    const { assert!(ALL > BLOCK + 2) }
    let at = |n: u64| (n / ORDERS, n % ORDERS, n);
    let last = ALL - 1;
    assert_eq!(at(last), (367, 312, last));
    let same = |earlier: u64, later: u64| {
        pair(move |n| match n == later {
            true => earlier,
            false => n,
        })
    };
    assert_eq!(pair(|n| n), None);
    for (earlier, later) in [
        (0, last),
        (last - 1, last),
        (BLOCK - 1, BLOCK),
        (BLOCK, last),
    ] {
        assert_eq!(same(earlier, later), Some([at(earlier), at(later)]));
    }
    // Every mark of the second block stands in the first as well: the pair is that of the least.
    let again = pair(|n| if n < BLOCK { n } else { ALL - n });
    assert_eq!(again, Some([at(1), at(last)]));
}
