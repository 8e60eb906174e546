//! Orders and their request marks: the first visible order with a mark, and the least pair of visible orders with the
//! same one.

use crate::bytes::u32_at;
use crate::listing::{check, visible_rows, Visible};
use crate::Refusal;

/// The bytes of a request mark, and of the shortest payload that is an order.
const MARK_BYTES: usize = 16;
const ORDER_BYTES: usize = 24;

/// The first visible order with a mark, or none; and how many visible payloads are shorter than an order.
#[derive(Clone, Copy, Debug, PartialEq, Eq, Default)]
pub struct FoundOrder {
    pub number: u64,
    pub place: u64,
    pub found: u64,
    pub page: u64,
    pub slot: u64,
    pub part: u64,
    pub quantity: u64,
    pub short: u64,
}

/// The least pair of visible orders with the same mark, or none.
#[derive(Clone, Copy, Debug, PartialEq, Eq, Default)]
pub struct RepeatedOrders {
    pub number: u64,
    pub place: u64,
    pub found: u64,
    pub page: u64,
    pub slot: u64,
    pub part: u64,
    pub quantity: u64,
    pub later_page: u64,
    pub later_slot: u64,
    pub later_part: u64,
    pub later_quantity: u64,
}

fn payload<'a>(pages: &'a [u8], row: &Visible) -> &'a [u8] {
    &pages[row.offset as usize..][24..row.length as usize]
}

/// Part number u32 and quantity u32, behind the mark.
fn part_and_quantity(payload: &[u8]) -> (u64, u64) {
    let number = |at| u32_at(payload, at).into();
    (number(MARK_BYTES), number(MARK_BYTES + 4))
}

/// The first visible order with that mark (page, slot, part number, quantity), or none exactly when none exists. A
/// visible payload under 24 bytes is skipped and counted, over all pages wherever the answer stands. Refuses as the
/// listing does.
pub fn find_order(magic: u64, pages: &[u8], mark: &[u8; 16]) -> FoundOrder {
    let mut answer = FoundOrder::default();
    if let Err(Refusal { number, place }) = check(magic, pages, 0) {
        return FoundOrder {
            number,
            place,
            ..answer
        };
    }
    for row in visible_rows(pages) {
        let payload = payload(pages, &row);
        if payload.len() < ORDER_BYTES {
            answer.short += 1;
        } else if answer.found == 0 && payload.starts_with(mark) {
            answer.found = 1;
            (answer.page, answer.slot) = (row.page, row.slot);
            (answer.part, answer.quantity) = part_and_quantity(payload);
        }
    }
    answer
}

/// Whether any mark stands twice, and the least such pair of rows in listing order, by the earlier row, then the later.
/// Refuses as the listing does.
pub fn repeated_orders(magic: u64, pages: &[u8]) -> RepeatedOrders {
    let mut answer = RepeatedOrders::default();
    if let Err(Refusal { number, place }) = check(magic, pages, 0) {
        return RepeatedOrders {
            number,
            place,
            ..answer
        };
    }
    let orders: Vec<(Visible, &[u8])> = visible_rows(pages)
        .map(|row| (row, payload(pages, &row)))
        .filter(|(_, payload)| payload.len() >= ORDER_BYTES)
        .collect();
    let mark = |at: usize| &orders[at].1[..MARK_BYTES];
    for earlier in 0..orders.len() {
        let later = (earlier + 1..orders.len()).find(|later| mark(*later) == mark(earlier));
        let Some(later) = later else {
            continue;
        };
        let ((row, payload), (later, later_payload)) = (orders[earlier], orders[later]);
        answer.found = 1;
        (answer.page, answer.slot) = (row.page, row.slot);
        (answer.part, answer.quantity) = part_and_quantity(payload);
        (answer.later_page, answer.later_slot) = (later.page, later.slot);
        (answer.later_part, answer.later_quantity) = part_and_quantity(later_payload);
        break;
    }
    answer
}
