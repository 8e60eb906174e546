//! Twenty thousand seeds: honest histories with their ledgers and broken runs, logs that fit no pages, inputs spoiled in
//! one or two known ways, bytes changed at random.

use std::ops::Range;
use std::sync::OnceLock;
use std::time::Instant;

use compare::{sweep, Seen};
use generate::{file_kinds, mutations};
use library::refusal::REFUSALS;

use crate::{assert_no_differences, tell};

const SEEDS: Range<u64> = 0..20_000;

/// The calls that refuse pages which are not good.
const OVER_PAGES: [&str; 13] = [
    "recover",
    "read_row",
    "judge",
    "verify",
    "verify_from",
    "next_visible",
    "list_visible",
    "list_cancelled",
    "free_map",
    "table_find",
    "summary_write",
    "find_order",
    "repeated_orders",
];

/// The other calls that refuse by the papers' numbers.
const OTHERS: [&str; 9] = [
    "log_open",
    "doublewrite_read",
    "repair",
    "doublewrite_write",
    "table_read",
    "table_read_older",
    "table_write",
    "summary_read",
    "summary_row",
];

/// One sweep over all seeds, which the tests below look at.
fn seen() -> &'static Seen {
    static SEEN: OnceLock<Seen> = OnceLock::new();
    SEEN.get_or_init(|| {
        let start = Instant::now();
        let seen = sweep(SEEDS);
        tell(&format!(
            "seeds {SEEDS:?}: {} cases, {} calls of each program, {:.1} s\n{}",
            seen.cases,
            seen.calls(),
            start.elapsed().as_secs_f64(),
            counts(&seen),
        ));
        seen
    })
}

/// How often each call gave each number, and what else was counted.
fn counts(seen: &Seen) -> String {
    let mut text = format!("{:>23}", "number");
    let refusing = || OVER_PAGES.into_iter().chain(OTHERS);
    for entry in refusing() {
        text += &format!("{entry:>18}");
    }
    let done = (0, "done");
    for (number, name) in [done]
        .into_iter()
        .chain(REFUSALS.iter().map(|it| (it.number, it.name)))
    {
        text += &format!("\n{number:>2} {name:>20}");
        for entry in refusing() {
            text += &format!("{:>18}", seen.times(entry, number));
        }
    }
    for (event, times) in &seen.events {
        text += &format!("\n{times:>10} x {event}");
    }
    text
}

/// Fails unless a call gave each of these numbers more than fifty times.
fn assert_gives(seen: &Seen, entry: &'static str, numbers: &[u64]) {
    for &number in numbers {
        let times = seen.times(entry, number);
        assert!(times > 50, "{entry} gave {number} {times} times");
    }
}

/// Fails if something came up fewer times than it should.
fn assert_often(seen: &Seen, least: &[(&'static str, u64)]) {
    for &(event, least) in least {
        let times = seen.events(event);
        assert!(times >= least, "{event}: {times} times, not {least}");
    }
}

#[test]
fn both_programs_agree_on_every_seed() {
    let seen = seen();
    assert_no_differences(seen);
    assert_eq!(seen.cases, SEEDS.end - SEEDS.start);
    for kind in 0..=4 {
        assert!(
            seen.times("log_forward", kind) > 10_000,
            "step of kind {kind}"
        );
    }
    assert!(seen.times("log_backward", 0) > 10_000);
    assert_often(
        seen,
        &[
            ("visible row", 10_000),
            ("listing that goes on", 2_000),
            ("row from the log", 5_000),
            ("row from the pages", 5_000),
            ("empty slot", 3_000),
        ],
    );
}

/// Rows with and without an xmax and a deleted byte; of the four kinds one alone is visible.
#[test]
fn each_kind_of_row_is_listed() {
    let seen = seen();
    assert_no_differences(seen);
    assert_often(
        seen,
        &[
            ("row with neither xmax nor deleted byte", 5_000),
            ("row with xmax and deleted byte 0", 5_000),
            ("row with xmax 0 and deleted byte", 1_000),
            ("row with xmax and deleted byte", 1_000),
        ],
    );
}

#[test]
fn honest_histories_end_as_their_ledgers_say() {
    let seen = seen();
    assert_no_differences(seen);
    assert!(seen.kinds["honest"] > 4_000 && seen.kinds["honest, any cut"] > 1_000);
    assert_often(
        seen,
        &[
            ("ledger", 3_000),
            ("ledger, zeros behind the cut", 1_000),
            ("ledger, an entry completed by zeros", 100),
            ("ledger, a felt change completed by zeros", 100),
            ("ledger, cut in the header", 100),
            ("log that ends exactly", 2_000),
            ("log that ends torn", 1_000),
            ("log that ends unused", 1_000),
            ("repeated recovery", 4_000),
            ("mixture of old and mended pages", 500),
            ("earlier run refused", 100),
            ("earlier run with zeros behind its cut", 500),
            ("earlier run, an entry completed by zeros", 100),
            ("earlier run, cut in the header", 100),
        ],
    );
}

/// Records of every kind tell when their transaction was final.
#[test]
fn records_tell_when_they_were_final() {
    let seen = seen();
    assert_no_differences(seen);
    assert_often(
        seen,
        &[
            ("record, ended, several changes", 1_500),
            ("record, ended, no change", 3_000),
            ("record, unended, changed", 2_500),
            ("record, rolled back, changed", 700),
        ],
    );
}

/// Chains of up to ten runs, with stopped and refused ones and zeros among them, end as their last run alone.
#[test]
fn nights_end_as_their_last_run_alone() {
    let seen = seen();
    assert_no_differences(seen);
    assert_often(
        seen,
        &[
            ("night", 1_000),
            ("night of ten runs", 100),
            ("night, run refused", 1_000),
            ("night, run stopped half-way", 200),
            ("night, run with zeros behind its cut", 1_000),
            ("night, an entry completed by zeros", 200),
            ("night, cut in the header", 100),
            ("night, committed record kept", 1_000),
        ],
    );
}

/// The pages that a run touches, stored in any order, some of them again, end as the run leaves them.
#[test]
fn pages_are_mended_in_any_order() {
    let seen = seen();
    assert_no_differences(seen);
    assert_often(
        seen,
        &[
            ("pages stored one by one", 500),
            ("pages stored out of their order", 300),
            ("page stored again", 300),
        ],
    );
}

/// Every call that is lent pages tells their faults apart, each at its place; a broken slot rule by its field or slot.
#[test]
fn page_faults_are_told_apart() {
    let seen = seen();
    assert_no_differences(seen);
    for entry in OVER_PAGES {
        assert_gives(seen, entry, &[11, 17, 18, 19]);
    }
    assert_often(
        seen,
        &[
            ("19 at an item count", 10),
            ("19 at a free start", 30),
            ("19 at a free end", 30),
            ("19 at a slot by itself", 100),
            ("19 at a slot that shares a byte", 50),
            ("bad page behind a bad page", 50),
        ],
    );
}

/// Payloads and areas at every bound, and a search that passes over each kind of row.
#[test]
fn catalog_rows_reach_every_bound() {
    let seen = seen();
    assert_no_differences(seen);
    for (entry, numbers) in [
        ("table_read", &[0, 34, 35, 36][..]),
        ("table_read_older", &[0, 34, 35, 36, 38]),
        ("table_write", &[0, 36, 37]),
        ("table_find", &[0, 1, 18]),
    ] {
        for &number in numbers {
            let times = seen.times(entry, number);
            assert!(times > 500, "{entry} gave {number} {times} times");
        }
    }
    assert_often(
        seen,
        &[
            ("first form read", 1_000),
            ("second form read, heap", 1_000),
            ("second form read, clustered", 1_000),
            ("newest form read, heap", 1_000),
            ("newest form read, clustered", 1_000),
            ("name of 255 bytes read", 1_000),
            ("row written and read back", 5_000),
            ("37 for a name of 256 bytes", 1_000),
            ("37 for an area one byte too short", 1_000),
            ("37 for a shorter area", 500),
            ("table found", 2_000),
            ("table not found", 2_000),
            ("cancelled row of the table passed over", 500),
            ("row of another table passed over", 5_000),
            ("unreadable row of the table passed over", 500),
        ],
    );
}

/// Payloads at every bound, marks on cancelled and on several rows, and short payloads wherever the order stands.
#[test]
fn orders_reach_every_bound() {
    let seen = seen();
    assert_no_differences(seen);
    for entry in ["find_order", "repeated_orders"] {
        for number in [0, 1, 18] {
            let times = seen.times(entry, number);
            assert!(times > 500, "{entry} gave {number} {times} times");
        }
    }
    assert_often(
        seen,
        &[
            ("order found", 2_000),
            ("order not found", 2_000),
            ("order of 24 bytes found", 1_000),
            ("longer order found", 1_000),
            ("payload of 0 bytes counted", 500),
            ("payload of 15 bytes counted", 500),
            ("payload of 16 bytes, the mark alone, counted", 100),
            ("payload of 23 bytes under the mark counted", 100),
            ("short payload counted", 2_000),
            ("short payload behind the order counted", 1_000),
            ("cancelled short payload not counted", 5_000),
            ("cancelled row under the mark passed over", 500),
            ("order of another mark passed over", 5_000),
            ("later order under the mark", 500),
            ("no mark repeated", 2_000),
            ("one mark repeated", 3_000),
            ("several marks repeated", 1_000),
            ("mark on three orders", 500),
            ("mark on a cancelled and a visible row", 1_000),
            ("pair on two pages", 500),
            ("another pair ends before the least one", 300),
        ],
    );
}

/// Our own pages in any layout are judged yes, and each thing that is wrong a no at its page and slot; 39 and the refusals
/// of the pages after are reached.
#[test]
fn repaired_pages_are_judged() {
    let seen = seen();
    assert_no_differences(seen);
    assert!(seen.times("judge", 39) > 200);
    assert!(seen.times("judge_from", 0) > 5_000);
    assert_often(
        seen,
        &[
            ("pages in another layout judged", 2_000),
            ("untouched pages judged", 100),
            ("byte of a row", 1_000),
            ("bytes of two rows", 500),
            ("byte of a row and reserved byte", 1_000),
            ("row in a fresh slot", 1_000),
            ("row lost", 1_000),
            ("reserved byte", 1_000),
            ("other type", 1_000),
            ("byte of an untouched page", 500),
            ("flags of an untouched page", 200),
            ("LSN of an untouched page", 200),
            ("several pages that differ, listed", 500),
            ("judged from a page far behind the last", 5_000),
            ("11 of the pages after", 200),
            ("17 of the pages after", 200),
            ("18 of the pages after", 200),
            ("19 of the pages after", 200),
            ("page that differs below a refused one", 500),
        ],
    );
}

#[test]
fn spoiled_inputs_reach_every_refusal() {
    let seen = seen();
    assert_no_differences(seen);
    for refusal in REFUSALS {
        assert!(
            seen.reached(refusal.number) > 0,
            "refusal {} was not reached",
            refusal.number
        );
    }
    for mutation in mutations().iter().filter(|mutation| mutation.seldom == 1) {
        assert!(seen.kinds.contains_key(mutation.name), "{}", mutation.name);
    }
    assert_often(seen, &[("aim", 5_000)]);
}

/// Every way to spoil a double-write file is refused as it must be; copies are taken exactly where they are to be; a repair
/// stopped anywhere and repeated, and the recovery after it, end in the same bytes.
#[test]
fn torn_pages_are_repaired() {
    let seen = seen();
    assert_no_differences(seen);
    for kind in file_kinds() {
        assert_often(seen, &[(kind, 200)]);
    }
    assert_gives(seen, "doublewrite_read", &[0, 1, 22, 23, 24, 25]);
    assert_gives(seen, "repair", &[0, 1, 22, 23, 24, 25]);
    assert_gives(seen, "doublewrite_write", &[0, 1, 25, 26]);
    assert_often(
        seen,
        &[
            ("repaired", 5_000),
            ("copy taken", 5_000),
            ("copy that is not good", 1_500),
            ("copy refused by 11", 500),
            ("copy refused by 17", 200),
            ("copy refused by 18", 500),
            ("copy refused by 19", 200),
            ("torn page without a copy", 1_500),
            ("page at fault with a right checksum", 1_000),
            ("repair stopped between pages", 4_000),
            ("recovered after a repair", 1_000),
            ("ledger after a repair", 500),
            ("stopped in repair and recovery", 300),
            ("file written", 3_000),
            ("area one byte short of a file", 1_000),
            ("area as long as a file", 1_000),
            ("list with the page past the last", 1_000),
        ],
    );
}

/// Summaries of every kind are written and read, and each of their refusals is given often.
#[test]
fn summaries_reach_every_refusal() {
    let seen = seen();
    assert_no_differences(seen);
    assert!(seen.times("summary_write", 27) > 5_000);
    for entry in ["summary_read", "summary_row"] {
        for number in 28..=33 {
            let times = seen.times(entry, number);
            assert!(times > 1_000, "{entry} gave {number} {times} times");
        }
    }
    for kind in generate::summary_kinds() {
        assert!(seen.events(kind) > 500, "{kind}: {}", seen.events(kind));
    }
    assert_often(
        seen,
        &[
            ("summary written and read", 5_000),
            ("summary gone through by steps", 5_000),
            ("aim of a summary", 20_000),
        ],
    );
}
