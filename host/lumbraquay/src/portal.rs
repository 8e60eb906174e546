//! A small outage: the pages and the log of a portal for crane parts as a power failure left them, what became of each
//! order, and presses of the order button that were made again. The same bytes at every call.

use generate::{live_tuple, log_header, plain_page, DataPage, Entry, Slots};
use generate::{BEGIN, CHECKPOINT, COMMIT, FREE, ROLLBACK};

use crate::intake::Mark;

const MAGIC: u64 = u64::from_le_bytes(*b"CRANES01");

/// The table number of orders.
const ORDERS: u32 = 14;

/// The LSN up to which pages were flushed before the log's first entry.
const FLUSHED: u64 = 100;

/// What the power failure left of the last entry of the log, an Insert, and of a Commit.
const TORN_BYTES: usize = 61;
const TORN_COMMIT_BYTES: usize = 19;

const META: u8 = 0;

/// A slot of a page.
type Place = (u64, u16);

/// One order: where its row stands, what happened to it, and what recovery must make of it.
pub struct Order {
    pub number: u64,
    pub place: Place,
    pub story: &'static str,
    pub expected: Found,
}

/// What a slot holds.
#[derive(Clone, Debug, PartialEq, Eq)]
pub enum Found {
    Nothing,
    Live(String),
    Deleted(String),
}

pub struct Outage {
    pub magic: u64,
    pub pages: Vec<u8>,
    pub log: Vec<u8>,
    pub orders: Vec<Order>,
}

fn row(transaction: u64, text: &str) -> Vec<u8> {
    live_tuple(transaction, text.as_bytes())
}

fn data_page(id: u64, lsn: u64, rows: &[&[u8]]) -> Vec<u8> {
    let slots: Slots = (0..).zip(rows.iter().map(|row| row.to_vec())).collect();
    DataPage::plain(MAGIC, id, lsn, slots).packed()
}

const HOOKS: &str = "order 1001: 6 ramshorn hooks for Quay 1";
const ROPES: &str = "order 1002: 4 hoist ropes for Quay 2";
const MANY_ROPES: &str = "order 1002: 40 hoist ropes for Quay 2";
const BUFFERS: &str = "order 1003: 8 rail buffers for Quay 2";
const WHEELS: &str = "order 1004: 2 travel wheels for Quay 5";
const BRAKES: &str = "order 1005: 1 storm brake for Quay 7";
const GEARBOX: &str = "order 1006: 1 slewing gearbox for Quay 4";
const MOTORS: &str = "order 1007: 3 trolley motors for Quay 3";
const LAMPS: &str = "order 1008: 12 jib lamps for Quay 1";
const CABLE: &str = "order 1009: 1 cable reel for Quay 6";

/// Pages 1 and 2 hold orders. Page 1 was last flushed after the change with LSN 103 and page 2 after the one with 107, so
/// the disk lacks what came later, and has what should not last.
pub fn outage() -> Outage {
    let (hooks, ropes, buffers) = (row(3, HOOKS), row(3, ROPES), row(4, BUFFERS));
    let (wheels, brakes) = (row(4, WHEELS), row(5, BRAKES));
    let many_ropes = row(8, MANY_ROPES);
    let motors = row(9, MOTORS);
    let pages = [
        plain_page(MAGIC, META, 0, FLUSHED),
        data_page(1, 103, &[&hooks, &many_ropes, &buffers]),
        data_page(2, 107, &[&wheels, &brakes, &motors]),
        plain_page(MAGIC, FREE, 3, 12),
    ]
    .concat();

    let entries = [
        Entry::bare(7, BEGIN),
        Entry::bare(8, BEGIN),
        Entry::update(8, 1, 1, &ropes, &many_ropes),
        Entry::insert(7, 1, 3, &row(7, GEARBOX)),
        Entry::bare(7, COMMIT),
        Entry::bare(9, BEGIN),
        Entry::insert(9, 2, 2, &motors),
        Entry::bare(8, ROLLBACK),
        Entry::bare(10, BEGIN),
        Entry::delete(10, 1, 2, &buffers),
        Entry::bare(10, COMMIT),
        Entry::insert(0, 2, 3, &row(0, LAMPS)),
        Entry::bare(0, CHECKPOINT),
        Entry::bare(11, BEGIN),
        Entry::insert(11, 2, 4, &row(11, CABLE)),
    ];
    Outage {
        magic: MAGIC,
        pages,
        log: log_torn_after(&entries, TORN_BYTES),
        orders: orders(),
    }
}

/// A press of the order button whose answer the power failure cut off, so that the customer pressed again.
pub struct Press {
    pub mark: Mark,
    pub story: &'static str,
    /// Part number and quantity of the order that the second press must find.
    pub expected: Option<(u64, u64)>,
}

/// Pages and log of the orders that presses placed.
pub struct Presses {
    pub magic: u64,
    pub pages: Vec<u8>,
    pub log: Vec<u8>,
    pub presses: [Press; 2],
}

/// An order as the portal writes it: request mark, part number, quantity.
fn order_row(transaction: u64, mark: Mark, part: u32, quantity: u32) -> Vec<u8> {
    let numbers = [part.to_le_bytes(), quantity.to_le_bytes()].concat();
    live_tuple(transaction, &[&mark[..], &numbers].concat())
}

/// One page, last flushed before both presses.
pub fn presses() -> Presses {
    let [earlier, lasting, lost] = [
        *b"press by Quay 1.",
        *b"press by Quay 4.",
        *b"press by Quay 6.",
    ];
    let entries = [
        Entry::bare(21, BEGIN),
        Entry::insert(21, 0, 1, &order_row(21, lasting, 3310, 6)),
        Entry::bare(21, COMMIT),
        Entry::bare(22, BEGIN),
        Entry::insert(22, 0, 2, &order_row(22, lost, 3310, 1)),
        Entry::bare(22, COMMIT),
    ];
    Presses {
        magic: MAGIC,
        pages: data_page(0, FLUSHED, &[&order_row(20, earlier, 7012, 2)]),
        log: log_torn_after(&entries, TORN_COMMIT_BYTES),
        presses: [
            Press {
                mark: lasting,
                story: "transaction 21 placed its order and committed, the page was not flushed",
                expected: Some((3310, 6)),
            },
            Press {
                mark: lost,
                story:
                    "transaction 22 placed its order, the power failed while its Commit was written",
                expected: None,
            },
        ],
    }
}

/// The log with so many bytes left of its last entry.
fn log_torn_after(entries: &[Entry], left: usize) -> Vec<u8> {
    let mut log = log_header(&[0; 26]);
    let mut last = log.len();
    for (lsn, entry) in (FLUSHED + 1..).zip(entries) {
        last = log.len();
        let table = if entry.is_change() { ORDERS } else { 0 };
        let entry = Entry {
            lsn,
            table,
            ..entry.clone()
        };
        log.extend(entry.encode());
    }
    log.truncate(last + left);
    log
}

fn orders() -> Vec<Order> {
    let live = |text: &str| Found::Live(text.to_string());
    let all = [
        ((1, 0), "nothing happened to it", live(HOOKS)),
        (
            (1, 1),
            "transaction 8 made it 40, the page was flushed, then 8 rolled back",
            live(ROPES),
        ),
        (
            (1, 2),
            "transaction 10 deleted it and committed, the page was not flushed",
            Found::Deleted(BUFFERS.to_string()),
        ),
        ((2, 0), "nothing happened to it", live(WHEELS)),
        ((2, 1), "nothing happened to it", live(BRAKES)),
        (
            (1, 3),
            "transaction 7 placed it and committed, the page was not flushed",
            live(GEARBOX),
        ),
        (
            (2, 2),
            "transaction 9 placed it, the page was flushed, 9 never ended",
            Found::Nothing,
        ),
        (
            (2, 3),
            "placed without a transaction, the page was not flushed",
            live(LAMPS),
        ),
        (
            (2, 4),
            "transaction 11 placed it, the power failed while its log entry was written",
            Found::Nothing,
        ),
    ];
    let numbered = (1001..).zip(all);
    numbered
        .map(|(number, (place, story, expected))| Order {
            number,
            place,
            story,
            expected,
        })
        .collect()
}
