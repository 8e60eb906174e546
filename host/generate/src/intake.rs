//! Orders with request marks: payloads at each bound, marks that repeat or nearly do, and pages that hold them.

use crate::page::{data_page, live_tuple, other_page, DataPage, Slots};
use crate::rng::Rng;

/// A request mark.
pub type Mark = [u8; 16];

/// So few marks that many stand more than once; some differ in one byte alone, the first or the last of either half or one
/// between.
pub fn mark(rng: &mut Rng) -> Mark {
    let mut mark = [0x5A; 16];
    match rng.below(8) {
        0 => mark.fill(rng.byte() % 2),
        1 => mark.fill(0xFF),
        2 => mark[rng.index(16)] = 0xA5,
        3 => mark[rng.index(16)] = rng.byte() % 4,
        _ => mark[*rng.pick(&[0, 7, 8, 15])] = rng.byte() % 2,
    }
    mark
}

/// A mark that no other is likely to be.
fn own_mark(rng: &mut Rng) -> Mark {
    let mut mark = [0; 16];
    mark.copy_from_slice(&rng.bytes(16));
    mark
}

/// The mark of one of some rows, pressed again, or any.
pub fn mark_again(rng: &mut Rng, rows: &[OrderRow]) -> Mark {
    match rows.is_empty() || rng.one_in(2) {
        true => mark(rng),
        false => match rng.pick(rows).payload.first_chunk() {
            Some(&again) => again,
            None => mark(rng),
        },
    }
}

/// A payload under a mark: an order, of just 24 bytes or with more behind them, or one that is too short for one, cut at
/// a bound or anywhere.
pub fn order_payload(rng: &mut Rng, mark: Mark) -> Vec<u8> {
    let mut bytes = mark.to_vec();
    bytes.extend(rng.bytes(8));
    match rng.below(10) {
        0 => bytes.truncate(*rng.pick(&[0, 15, 16, 23])),
        1 => bytes.truncate(rng.size(0, 23)),
        2..=5 => (),
        _ => {
            let more = rng.size(1, 30);
            bytes.extend(rng.bytes(more));
        }
    }
    bytes
}

/// A row of the orders' pages, visible or not.
#[derive(Clone, Debug)]
pub struct OrderRow {
    pub page: u64,
    pub slot: u16,
    pub payload: Vec<u8>,
    pub is_visible: bool,
}

/// Good pages with orders, in the order of the listing.
#[derive(Clone, Debug)]
pub struct Orders {
    pub magic: u64,
    pub pages: Vec<u8>,
    pub rows: Vec<OrderRow>,
}

/// A few pages; of their rows some are cancelled, and some are no orders. In some of them no mark is likely to stand
/// twice.
pub fn orders(rng: &mut Rng) -> Orders {
    let magic = rng.number();
    let distinct = rng.one_in(3);
    let mut pages = Vec::new();
    let mut rows = Vec::new();
    for id in 0..rng.between(1, 3) {
        let reserved = [0; 28];
        if rng.one_in(5) {
            let kind = *rng.pick(&[0, 2, 3, 4, 5, 6]);
            pages.extend(other_page(rng, magic, kind, id, 0, &reserved));
            continue;
        }
        let mut slots = Slots::new();
        for slot in 0..rng.between(0, 9) as u16 {
            if rng.one_in(6) {
                continue;
            }
            let mark = match distinct {
                true => own_mark(rng),
                false => mark_again(rng, &rows),
            };
            let payload = order_payload(rng, mark);
            let mut tuple = live_tuple(rng.number(), &payload);
            let (is_deleted, is_stamped) = (rng.one_in(5), rng.one_in(6));
            if is_deleted {
                tuple[16] = 1;
            }
            if is_stamped {
                tuple[8..16].copy_from_slice(&rng.between(1, u64::MAX).to_le_bytes());
            }
            slots.insert(slot, tuple);
            rows.push(OrderRow {
                page: id,
                slot,
                payload,
                is_visible: !is_deleted && !is_stamped,
            });
        }
        pages.extend(data_page(rng, &DataPage::plain(magic, id, 0, slots)));
    }
    Orders { magic, pages, rows }
}
