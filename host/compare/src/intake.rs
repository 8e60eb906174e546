//! Orders by their request marks: the search for one, and the least pair with the same.

use std::collections::{BTreeMap, BTreeSet};

use generate::{mark, orders, Mark, OrderRow, Orders, Rng};
use library::{FoundOrder, RepeatedOrders, MARK_BYTES, ORDER_BYTES, PAGE_BYTES};

use crate::check::Subject;
use crate::seen::Seen;
use crate::twin;

/// Mixed into the seed, so that these choices leave those of the other calls as they are.
const OWN: u64 = 0x04DE_4500_0000_0000;

pub(crate) fn compare(subject: &mut Subject, seen: &mut Seen) {
    let rng = &mut Rng::new(subject.case.seed ^ OWN);
    let own = orders(rng);
    search(rng, &own, seen);
    repeats(&own, seen);
    if rng.one_in(4) {
        let mut spoiled = own.pages.clone();
        let at = rng.index(spoiled.len());
        spoiled[at] ^= 1 << rng.below(8);
        both(own.magic, &spoiled, &mark(rng), seen);
        let length = spoiled.len() - rng.size(1, PAGE_BYTES - 1);
        both(own.magic, &spoiled[..length], &mark(rng), seen);
    }
    if subject.light {
        let case = subject.case;
        both(case.magic, &case.pages, &mark(rng), seen);
    }
}

fn both(magic: u64, pages: &[u8], mark: &Mark, seen: &mut Seen) {
    find(magic, pages, mark, seen);
    repeated(magic, pages, seen);
}

fn find(magic: u64, pages: &[u8], mark: &Mark, seen: &mut Seen) -> FoundOrder {
    let library = library::find_order(magic, pages, mark);
    let oracle = twin::found_order(oracle::find_order(magic, pages, mark));
    let call = format_args!("mark {mark:02x?}");
    seen.answers("find_order", library.number, call, &library, &oracle);
    library
}

fn repeated(magic: u64, pages: &[u8], seen: &mut Seen) -> RepeatedOrders {
    let library = library::repeated_orders(magic, pages);
    let oracle = twin::repeated_orders(oracle::repeated_orders(magic, pages));
    let call = format_args!("in {} bytes", pages.len());
    seen.answers("repeated_orders", library.number, call, &library, &oracle);
    library
}

fn is_order(row: &OrderRow) -> bool {
    row.payload.len() >= ORDER_BYTES
}

/// What a search passes over before its answer, and what stands behind it.
fn search(rng: &mut Rng, own: &Orders, seen: &mut Seen) {
    // A mark that one of the rows has, where it has 16 bytes, or any.
    let mark = match own.rows.is_empty() || rng.one_in(3) {
        true => mark(rng),
        false => {
            let payload = &own.rows[rng.index(own.rows.len())].payload;
            payload.first_chunk().copied().unwrap_or([0x5A; MARK_BYTES])
        }
    };
    let found = find(own.magic, &own.pages, &mark, seen);
    seen.event(match found.found {
        1 => "order found",
        _ => "order not found",
    });
    let is_before = |row: &OrderRow| {
        found.found == 0 || (row.page, u64::from(row.slot)) < (found.page, found.slot)
    };
    for row in &own.rows {
        let is_marked = row.payload.starts_with(&mark);
        let event = match (row.is_visible, is_order(row), is_before(row)) {
            (true, false, true) => match row.payload.len() {
                0 => "payload of 0 bytes counted",
                15 => "payload of 15 bytes counted",
                16 if is_marked => "payload of 16 bytes, the mark alone, counted",
                23 if is_marked => "payload of 23 bytes under the mark counted",
                _ => "short payload counted",
            },
            (true, false, false) => "short payload behind the order counted",
            (false, false, _) => "cancelled short payload not counted",
            (false, true, true) if is_marked => "cancelled row under the mark passed over",
            (true, true, true) => "order of another mark passed over",
            (true, true, false) if is_marked && !is_found(row, &found) => {
                "later order under the mark"
            }
            _ => continue,
        };
        seen.event(event);
    }
    let short = |row: &&OrderRow| row.is_visible && !is_order(row);
    let counted = own.rows.iter().filter(short).count() as u64;
    seen.must(counted == found.short, || {
        format!("{counted} visible payloads are short, but {found:?}")
    });
    if found.found == 1 {
        let is_just = own
            .rows
            .iter()
            .any(|row| is_found(row, &found) && row.payload.len() == ORDER_BYTES);
        seen.event(match is_just {
            true => "order of 24 bytes found",
            false => "longer order found",
        });
    }
}

fn is_found(row: &OrderRow, found: &FoundOrder) -> bool {
    (row.page, u64::from(row.slot)) == (found.page, found.slot)
}

/// What stands between the two of a pair and around them.
fn repeats(own: &Orders, seen: &mut Seen) {
    let pair = repeated(own.magic, &own.pages, seen);
    let mut times: BTreeMap<&[u8], u64> = BTreeMap::new();
    let visible = own.rows.iter().filter(|row| row.is_visible);
    for row in visible.filter(|row| is_order(row)) {
        *times.entry(&row.payload[..MARK_BYTES]).or_default() += 1;
    }
    let repeating = times.values().filter(|&&times| times > 1).count();
    seen.must((repeating > 0) == (pair.found == 1), || {
        format!("{repeating} marks stand more than once, but {pair:?}")
    });
    seen.event(match (pair.found, repeating) {
        (0, _) => "no mark repeated",
        (_, 1) => "one mark repeated",
        _ => "several marks repeated",
    });
    if times.values().any(|&times| times > 2) {
        seen.event("mark on three orders");
    }
    let cancelled_twin = own.rows.iter().any(|row| {
        !row.is_visible && is_order(row) && times.get(&row.payload[..MARK_BYTES]) == Some(&1)
    });
    if cancelled_twin {
        seen.event("mark on a cancelled and a visible row");
    }
    if pair.found == 1 && pair.page != pair.later_page {
        seen.event("pair on two pages");
    }
    if pair.found == 1 && is_ended_before(own, &pair) {
        seen.event("another pair ends before the least one");
    }
}

/// Whether two orders of another mark stand between the two of a pair, as in a b b a.
fn is_ended_before(own: &Orders, pair: &RepeatedOrders) -> bool {
    let mut between = BTreeSet::new();
    let mut orders = own.rows.iter().filter(|row| {
        let at = (row.page, u64::from(row.slot));
        let is_between = (pair.page, pair.slot) < at && at < (pair.later_page, pair.later_slot);
        is_between && row.is_visible && is_order(row)
    });
    orders.any(|row| !between.insert(&row.payload[..MARK_BYTES]))
}
