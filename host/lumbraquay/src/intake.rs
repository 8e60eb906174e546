//! Orders of a page file: visible rows whose payload begins with a request mark, a part number and a quantity.

use std::collections::BTreeMap;

use library::{MARK_BYTES, ORDER_BYTES};

use crate::input::Pages;
use crate::json::Json;
use crate::listing::{rows, Row};
use crate::show;

/// A request mark.
pub type Mark = [u8; MARK_BYTES];

/// The groups of hexadecimal digits of a UUID.
const UUID_GROUPS: [usize; 5] = [8, 4, 4, 4, 12];

/// A mark in words: 32 hexadecimal digits, or a UUID.
pub fn mark_of(text: &str) -> Option<Mark> {
    let groups: Vec<&str> = text.split('-').collect();
    let lengths: Vec<usize> = groups.iter().map(|group| group.len()).collect();
    let digits = groups.concat();
    if !digits.bytes().all(|digit| digit.is_ascii_hexdigit())
        || (lengths != [2 * MARK_BYTES] && lengths != UUID_GROUPS)
    {
        return None;
    }
    let mut mark = [0; MARK_BYTES];
    for (at, byte) in mark.iter_mut().enumerate() {
        *byte = u8::from_str_radix(&digits[2 * at..][..2], 16).ok()?;
    }
    Some(mark)
}

/// An order with its whole row.
pub struct Order<'a> {
    row: Row<'a>,
    part: u64,
    quantity: u64,
}

impl<'a> Order<'a> {
    /// The order in a row, if its payload is long enough.
    fn of(row: Row<'a>) -> Option<Order<'a>> {
        let (_, behind) = row.tuple.payload().split_first_chunk::<MARK_BYTES>()?;
        let (part, behind) = behind.split_first_chunk()?;
        let quantity = behind.first_chunk()?;
        let number = |bytes: &[u8; 4]| u32::from_le_bytes(*bytes).into();
        Some(Order {
            row,
            part: number(part),
            quantity: number(quantity),
        })
    }

    pub fn mark(&self) -> &'a [u8] {
        &self.row.tuple.payload()[..MARK_BYTES]
    }

    /// What the payload holds behind the order.
    fn rest(&self) -> &'a [u8] {
        &self.row.tuple.payload()[ORDER_BYTES..]
    }

    /// Where it stands, what it asks for, and the rest of its row.
    pub fn words(&self) -> String {
        let at = &self.row.at;
        let asked = asked(at.page, at.slot, self.part, self.quantity);
        format!("{asked}{}", self.row_words())
    }

    /// The rest of its row.
    pub fn row_words(&self) -> String {
        let Row { at, tuple } = &self.row;
        let rest = match self.rest() {
            [] => String::new(),
            rest => format!(", then {}", show::payload(rest, usize::MAX)),
        };
        format!(
            "; xmin {}, payload of {} bytes at offset {} of the pages{rest}",
            tuple.xmin(),
            tuple.payload().len(),
            at.offset + at.length - tuple.payload().len() as u64
        )
    }

    pub fn fields(&self) -> Json {
        let Row { at, tuple } = &self.row;
        Json::Object(vec![
            ("page", at.page.into()),
            ("slot", at.slot.into()),
            ("length", at.length.into()),
            ("offset", at.offset.into()),
            ("xmin", tuple.xmin().into()),
            ("mark", Json::Text(show::hex(self.mark()))),
            ("part", self.part.into()),
            ("quantity", self.quantity.into()),
            ("payload", Json::Text(show::hex(tuple.payload()))),
        ])
    }
}

/// Where an order stands, and what it asks for.
pub fn asked(page: u64, slot: u64, part: u64, quantity: u64) -> String {
    format!("page {page} slot {slot}: part {part}, quantity {quantity}")
}

/// The visible orders of pages that are all good, in order.
fn orders(pages: &Pages) -> impl Iterator<Item = Order<'_>> {
    rows(pages, library::list_visible, None).filter_map(Order::of)
}

/// An order that the library found, by its page, slot, part number and quantity, with its row.
pub fn found_order(pages: &Pages, [page, slot, part, quantity]: [u64; 4]) -> Option<Order<'_>> {
    let mut of_page = rows(pages, library::list_visible, Some(page));
    let row = of_page.find(|row| row.at.slot == slot)?;
    let order = Order::of(row)?;
    Some(Order {
        part,
        quantity,
        ..order
    })
}

/// The orders of each mark that stands more than once, by their first.
pub fn repeating(pages: &Pages) -> Vec<Vec<Order<'_>>> {
    let mut by_mark: BTreeMap<&[u8], Vec<Order>> = BTreeMap::new();
    for order in orders(pages) {
        by_mark.entry(order.mark()).or_default().push(order);
    }
    let mut repeating: Vec<Vec<Order>> = by_mark
        .into_values()
        .filter(|orders| orders.len() > 1)
        .collect();
    repeating.sort_by_key(|orders| (orders[0].row.at.page, orders[0].row.at.slot));
    repeating
}

#[cfg(test)]
mod tests {
    use super::mark_of;

    #[test]
    fn marks_in_words() {
        let mark = [
            0x00, 0x11, 0x22, 0x33, 0x44, 0x55, 0x66, 0x77, 0x88, 0x99, 0xaa, 0xbb, 0xcc, 0xdd,
            0xee, 0xff,
        ];
        for text in [
            "00112233445566778899aabbccddeeff",
            "00112233445566778899AABBCCDDEEFF",
            "00112233-4455-6677-8899-aabbccddeeff",
        ] {
            assert_eq!(mark_of(text), Some(mark), "{text}");
        }
        for text in [
            "",
            "00112233445566778899aabbccddeef",
            "00112233445566778899aabbccddeefff",
            "0x112233445566778899aabbccddeeff",
            "+0112233445566778899aabbccddeeff",
            "00112233-44556677-8899-aabbccddeeff",
            "001122334455-6677-8899-aabb-ccddeeff",
            "{00112233-4455-6677-8899-aabbccddeeff}",
            "é0112233445566778899aabbccddeeff",
        ] {
            assert_eq!(mark_of(text), None, "{text}");
        }
    }
}
