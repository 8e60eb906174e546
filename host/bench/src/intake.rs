//! Orders on 4,096 full pages: the search for a mark beside one verification, on distinct ones, on cancelled orders that all
//! have it, on short payloads and on all three at random; and the search for repeated marks on distinct ones, on equal ones, on ones that share their
//! first 15 bytes, and on ones that are hard to tell apart.
use bench::best;
use generate::{live_tuple, DataPage, Slots};
use std::hint::black_box;

const MAGIC: u64 = 0x4C75_6D62_7261_7175;
const PAGES: u64 = 4_096;

/// The orders of a full page, of 48 bytes and a slot of 4 each, and the rows without a payload.
const ORDERS: u64 = 16_320 / 52;
const EMPTY: u64 = 16_320 / 28;

/// What the search for a mark should stay under, in terms of a verification, and the search for repeated marks, in seconds: on
/// distinct marks, and on any.
const FIND_BOUND: f64 = 1.5;
const DISTINCT_BOUND: f64 = 5.0;
const ANY_BOUND: f64 = 60.0;

type Mark = [u8; 16];

/// Pages with so many rows each, and the tuple of each by its number.
fn filled(rows: u64, tuple: impl Fn(u64) -> Vec<u8>) -> Vec<u8> {
    let mut pages = Vec::new();
    for id in 0..PAGES {
        let slots: Slots = (0..rows)
            .map(|slot| (slot as u16, tuple(id * rows + slot)))
            .collect();
        pages.extend(DataPage::plain(MAGIC, id, 0, slots).packed());
    }
    pages
}

fn order(mark: Mark) -> Vec<u8> {
    let mut payload = mark.to_vec();
    payload.extend([7; 8]);
    live_tuple(1, &payload)
}

/// Full pages of orders, with the mark of each by its number.
fn area(mark: impl Fn(u64) -> Mark) -> Vec<u8> {
    filled(ORDERS, |n| order(mark(n)))
}

/// Two halves of a mark.
fn halves(low: u64, high: u64) -> Mark {
    let mut mark = [0; 16];
    mark[..8].copy_from_slice(&low.to_le_bytes());
    mark[8..].copy_from_slice(&high.to_le_bytes());
    mark
}

/// A number that looks random and is its own for each.
fn mixed(n: u64) -> u64 {
    let n = (n ^ n >> 31).wrapping_mul(0x7FB5_D329_728E_A185);
    (n ^ n >> 27).wrapping_mul(0x81DA_DEF4_BC2D_D44D) ^ n >> 33
}

fn distinct(n: u64) -> Mark {
    halves(mixed(n), mixed(!n))
}

fn verdict(time: f64, bound: f64) -> &'static str {
    match time <= bound {
        true => "as it should be",
        false => "TOO SLOW",
    }
}

fn absent(name: &str, rows: u64, pages: &[u8], mark: &Mark) {
    assert_eq!(library::find_order(MAGIC, pages, mark).found, 0, "{name}");
    let v = best(5, || library::verify(MAGIC, black_box(pages)).number);
    let f = best(5, || {
        library::find_order(MAGIC, black_box(pages), mark).found
    });
    println!(
        "search for a mark among {rows} {name}: {:.2} ms, one verification {:.2} ms: {:.2} times, at most {FIND_BOUND}: {}",
        f * 1e3,
        v * 1e3,
        f / v,
        verdict(f / v, FIND_BOUND)
    );
}

fn finding() {
    let all = PAGES * ORDERS;
    let pages = area(distinct);
    let last = library::find_order(MAGIC, &pages, &distinct(all - 1));
    assert_eq!(
        (last.found, last.page, last.slot),
        (1, PAGES - 1, ORDERS - 1)
    );
    let mark = [0xFF; 16];
    absent("orders", all, &pages, &mark);
    let cancelled = filled(ORDERS, |_| {
        let mut tuple = order(mark);
        tuple[16] = 1;
        tuple
    });
    absent("cancelled orders that have it", all, &cancelled, &mark);
    let empty = filled(EMPTY, |_| live_tuple(1, &[]));
    absent("rows without a payload", PAGES * EMPTY, &empty, &mark);
    // A third of them is short, a third is cancelled, and the others are orders.
    let any = filled(ORDERS, |n| match mixed(n) >> 32 {
        kind if kind % 3 == 0 => live_tuple(1, &[7; 16]),
        kind => {
            let mut tuple = order(distinct(n));
            tuple[16] = (kind % 3 - 1) as u8;
            tuple
        }
    });
    let name = "short, long and cancelled rows at random";
    absent(name, all, &any, &mark);
}

/// By the numbers of the pair that is to be found.
fn repeated(name: &str, bound: f64, expected: Option<[u64; 2]>, mark: impl Fn(u64) -> Mark) {
    let pages = area(mark);
    let pair = library::repeated_orders(MAGIC, &pages);
    let found = (pair.found == 1).then_some([
        pair.page * ORDERS + pair.slot,
        pair.later_page * ORDERS + pair.later_slot,
    ]);
    assert_eq!((pair.number, found), (0, expected), "{name}");
    let t = best(2, || {
        library::repeated_orders(MAGIC, black_box(&pages)).found
    });
    println!(
        "repeated marks among {} orders, {name}: {t:.3} s, at most {bound} s: {}",
        PAGES * ORDERS,
        verdict(t, bound)
    );
}

fn main() {
    finding();
    let all = PAGES * ORDERS;
    repeated("distinct marks", DISTINCT_BOUND, None, distinct);
    repeated("equal marks everywhere", ANY_BOUND, Some([0, 1]), |_| {
        [7; 16]
    });
    repeated(
        "marks that share their first 15 bytes",
        ANY_BOUND,
        Some([0, 256]),
        |n| halves(7, n << 56 | 7),
    );
    repeated(
        "rising numbers behind 8 equal bytes",
        ANY_BOUND,
        None,
        |n| halves(7, n.swap_bytes()),
    );
    repeated("low numbers, the least bytes first", ANY_BOUND, None, |n| {
        halves(n, 0)
    });
    let last_two = Some([all - 2, all - 1]);
    repeated("the last two orders alone", ANY_BOUND, last_two, |n| {
        distinct(n.min(all - 2))
    });
}
