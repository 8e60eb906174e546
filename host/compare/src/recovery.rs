//! Recovery: the answer, every page byte and every number of the table; the ledger of an honest history; runs that are
//! broken off and repeated; pages that are stored in any order.

use std::collections::BTreeSet;

use generate::{ledger, tuples_on, whole_entries, Case, Earlier};
use library::{Answer, RECORD_NUMBERS};
use oracle::{Record, PAGE_BYTES};

use crate::check::Subject;
use crate::lent::{mixture, Lent};
use crate::seen::Seen;
use crate::twin;

const PAGE_EDGE: u8 = 0x5A;
const TABLE_EDGE: u64 = 0x5A5A_5A5A_5A5A_5A5A;

/// What recovery answers.
const ANSWERED: &[u64] = &[0, 1, 2, 3, 4, 5, 6, 7, 8, 9, 10, 11, 12, 13, 14, 17, 18, 19];

/// What a run of recovery is given besides the magic.
#[derive(Clone, Copy)]
struct Given<'a> {
    floor: u64,
    pages: &'a [u8],
    log: &'a [u8],
    table_len: usize,
}

/// What a run leaves.
#[derive(PartialEq)]
struct Left {
    answer: Answer,
    pages: Vec<u8>,
    table: Vec<u64>,
}

/// The run that the case asks for, and all that must hold of it.
pub(crate) fn compare_once(subject: &mut Subject, seen: &mut Seen) {
    let given = asked(subject.case);
    once(subject, seen, given);
}

pub(crate) fn compare(subject: &mut Subject, seen: &mut Seen) {
    let case = subject.case;
    let given = asked(case);
    let once = once(subject, seen, given);
    if subject.light && case.records > 0 && subject.rng.one_in(4) {
        let records = subject.rng.index(case.records);
        let table_len = records * RECORD_NUMBERS + spare(case);
        both(subject, seen, "fewer records", Given { table_len, ..given });
    }
    if once.answer.number == 0 {
        repeated(subject, seen, given, &once);
        night(subject, seen, given, &once);
        any_order(subject, seen, given, &once);
    }
}

/// Numbers of a table that are too few for one more record.
fn spare(case: &Case) -> usize {
    (case.seed % RECORD_NUMBERS as u64) as usize
}

fn asked(case: &Case) -> Given<'_> {
    Given {
        floor: case.floor,
        pages: &case.pages,
        log: &case.log,
        table_len: case.records * RECORD_NUMBERS + spare(case),
    }
}

fn once(subject: &mut Subject, seen: &mut Seen, given: Given) -> Left {
    let case = subject.case;
    let once = both(subject, seen, "", given);
    seen.meets_aim(case, ANSWERED, once.answer.verdict());
    if once.answer.number == 0 {
        seen.event("recovered");
        seen.event(match once.answer.ending {
            library::ENDED_EXACTLY => "log that ends exactly",
            library::ENDED_TORN => "log that ends torn",
            _ => "log that ends unused",
        });
        in_time(seen, &once);
        follows_ledger(case, seen, &once);
    }
    once
}

/// The records that a run wrote: one for each Begin.
fn written(run: &Left) -> impl Iterator<Item = library::Record> + '_ {
    let Answer {
        committed,
        rolled_back,
        unended,
        ..
    } = run.answer;
    library::records(&run.table).take((committed + rolled_back + unended) as usize)
}

/// The LSNs of each record rise: of its Begin, its last change and its ending, wherever they are not 0.
fn in_time(seen: &mut Seen, once: &Left) {
    for record in written(once) {
        let lsns = [record.first_lsn, record.last_change_lsn, record.ending_lsn];
        let lsns: Vec<u64> = lsns.into_iter().filter(|&lsn| lsn != 0).collect();
        seen.must(lsns.is_sorted_by(|a, b| a < b), || {
            format!("the LSNs of {record:?} do not rise")
        });
        let changed = record.changes > 0;
        let ended = record.outcome != library::UNENDED;
        seen.must((record.last_change_lsn != 0) == changed, || {
            format!("{record:?}: last change and count")
        });
        seen.must((record.ending_lsn != 0) == ended, || {
            format!("{record:?}: ending and outcome")
        });
        if ended && record.changes > 1 {
            seen.event("record, ended, several changes");
        }
        if ended && !changed {
            seen.event("record, ended, no change");
        }
        if !ended && changed {
            seen.event("record, unended, changed");
        }
        if record.outcome == library::ROLLED_BACK && changed {
            seen.event("record, rolled back, changed");
        }
    }
}

/// Runs both programs, compares all that they leave, and gives the library's.
fn both(subject: &mut Subject, seen: &mut Seen, what: &str, given: Given) -> Left {
    let magic = subject.case.magic;
    let shift = subject.rng.size(0, 15);
    let (library, kept) = by_library(magic, given, shift);
    let oracle = by_oracle(magic, given);
    let number = library.answer.number;
    seen.answers("recover", number, what, &library.answer, &oracle.answer);
    seen.items(
        format_args!("pages of recover {what}"),
        &library.pages,
        &oracle.pages,
    );
    seen.items(
        format_args!("table of recover {what}"),
        &library.table,
        &oracle.table,
    );
    seen.must(kept, || format!("recover {what} wrote outside its buffers"));
    library
}

/// The numbers of a table before a run, all different.
fn marked_table(len: usize) -> Vec<u64> {
    (0..len as u64).map(|at| 0xA500_0000_0000 + at).collect()
}

/// The library's run, and whether it kept the log and all around the lent pages and the table.
fn by_library(magic: u64, given: Given, shift: usize) -> (Left, bool) {
    let mut pages = Lent::new(given.pages, shift, PAGE_EDGE);
    let mut table = Lent::new(&marked_table(given.table_len), 0, TABLE_EDGE);
    let log = given.log.to_vec();
    let answer = library::recover(magic, given.floor, pages.items(), &log, table.items());
    let (pages, pages_kept) = pages.taken_back();
    let (table, table_kept) = table.taken_back();
    let kept = pages_kept && table_kept && log == given.log;
    let left = Left {
        answer,
        pages,
        table,
    };
    (left, kept)
}

fn by_oracle(magic: u64, given: Given) -> Left {
    let mut pages = given.pages.to_vec();
    let mut table = marked_table(given.table_len);
    let mut records: Vec<Record> = library::records(&table)
        .map(|record| Record {
            number: record.number,
            first_lsn: record.first_lsn,
            outcome: record.outcome,
            changes: record.changes,
            ending_lsn: record.ending_lsn,
            last_change_lsn: record.last_change_lsn,
        })
        .collect();
    let answer = oracle::recover(magic, given.floor, &mut pages, given.log, &mut records);
    for (numbers, record) in table.chunks_exact_mut(RECORD_NUMBERS).zip(records) {
        numbers.copy_from_slice(&[
            record.number,
            record.first_lsn,
            record.outcome,
            record.changes,
            record.ending_lsn,
            record.last_change_lsn,
        ]);
    }
    Left {
        answer: twin::answer(answer),
        pages,
        table,
    }
}

/// The recovered pages hold what the ledger of the cut says.
fn follows_ledger(case: &Case, seen: &mut Seen, once: &Left) {
    let Some(honest) = &case.honest else { return };
    if !honest.has_felt_changes() {
        return;
    }
    seen.event("ledger");
    if honest.zeros > 0 {
        seen.event("ledger, zeros behind the cut");
    }
    if honest.is_completed() {
        seen.event("ledger, an entry completed by zeros");
    }
    if honest.completes_felt_change() {
        seen.event("ledger, a felt change completed by zeros");
    }
    if honest.cut < library::LOG_HEAD_BYTES {
        seen.event("ledger, cut in the header");
    }
    let ledger = ledger(&honest.start_pages, &case.log);
    seen.must(tuples_on(&once.pages) == ledger, || {
        "the recovered rows are not the ledger's".to_string()
    });
}

/// What zeros did for an earlier run that was accepted, by the words for it.
fn by_zeros(seen: &mut Seen, earlier: &Earlier, run: &Left, events: [&'static str; 3]) {
    let [behind, completed, in_header] = events;
    if earlier.zeros > 0 {
        seen.event(behind);
    }
    if earlier.is_completed(run.answer.tail_offset) {
        seen.event(completed);
    }
    if earlier.cuts_header() {
        seen.event(in_header);
    }
}

/// A run from the same or a shorter cut, with zeros behind it, that was broken off, whole pages old or mended; a run after
/// it that was broken off too; and the full run after each: all end as the full run alone.
fn repeated(subject: &mut Subject, seen: &mut Seen, given: Given, once: &Left) {
    let Some(earlier) = &subject.case.earlier else {
        return;
    };
    let earlier_log = earlier.log(given.log);
    let first_given = Given {
        floor: earlier.floor,
        log: &earlier_log,
        ..given
    };
    let first = both(subject, seen, "of the earlier cut", first_given);
    if first.answer.number != 0 {
        seen.event("earlier run refused");
    } else {
        let events = [
            "earlier run with zeros behind its cut",
            "earlier run, an entry completed by zeros",
            "earlier run, cut in the header",
        ];
        by_zeros(seen, earlier, &first, events);
    }
    let left = mixture(given.pages, &first.pages, |index| earlier.mended[index]);
    if left != given.pages && left != first.pages {
        seen.event("mixture of old and mended pages");
    }
    let over_left = Given {
        pages: &left,
        ..given
    };
    let second = both(subject, seen, "after a broken run", over_left);
    seen.must(second == *once, || {
        "a run after a broken one ends otherwise".to_string()
    });
    seen.event("repeated recovery");
    if !subject.light {
        return;
    }

    let drawn = subject.rng.next_u64();
    let left = mixture(&left, &second.pages, |index| drawn >> (index % 64) & 1 == 1);
    let over_left = Given {
        pages: &left,
        ..given
    };
    let third = both(subject, seen, "after two broken runs", over_left);
    seen.must(third == *once, || {
        "a run after two broken ones ends otherwise".to_string()
    });

    let over_mended = Given {
        pages: &once.pages,
        ..given
    };
    let again = both(subject, seen, "repeated", over_mended);
    seen.must(again == *once, || {
        "a repeated run ends otherwise".to_string()
    });
}

/// Up to ten runs, each on what the one before it left, stopped anywhere or refused: the last, the case's own, ends as it
/// does alone.
fn night(subject: &mut Subject, seen: &mut Seen, given: Given, once: &Left) {
    let case = subject.case;
    if case.night.is_empty() || !subject.light {
        return;
    }
    let mut pages = given.pages.to_vec();
    for earlier in &case.night {
        let log = earlier.log(given.log);
        let on_left = Given {
            floor: earlier.floor,
            pages: &pages,
            log: &log,
            ..given
        };
        let full = both(subject, seen, "in a night", on_left);
        let left = mixture(&pages, &full.pages, |index| earlier.mended[index]);
        if full.answer.number != 0 {
            seen.event("night, run refused");
        } else {
            committed_stays(seen, &full, once);
            if left != pages && left != full.pages {
                seen.event("night, run stopped half-way");
            }
            let events = [
                "night, run with zeros behind its cut",
                "night, an entry completed by zeros",
                "night, cut in the header",
            ];
            by_zeros(seen, earlier, &full, events);
        }
        pages = left;
    }
    let over_left = Given {
        pages: &pages,
        ..given
    };
    let last = both(subject, seen, "at the end of a night", over_left);
    seen.must(last == *once, || {
        "the last run of a night ends otherwise than alone".to_string()
    });
    seen.event("night");
    if case.night.len() == 9 {
        seen.event("night of ten runs");
    }
}

/// The pages that the run touches, stored one by one in any order, some of them and some others again, each as a run on
/// what then stands stores it: whatever was stored, that run ends as the first, and in the end its bytes stand there.
fn any_order(subject: &mut Subject, seen: &mut Seen, given: Given, once: &Left) {
    let changes = whole_entries(given.log).into_iter();
    let touched: BTreeSet<usize> = changes
        .filter(|entry| entry.is_change())
        .map(|entry| entry.target().0 as usize)
        .collect();
    if touched.len() < 2 || touched.len() > 8 || !subject.light || !subject.rng.one_in(2) {
        return;
    }
    let count = given.pages.len() / PAGE_BYTES;
    let mut order: Vec<usize> = touched.into_iter().collect();
    for _ in 0..subject.rng.size(0, 3) {
        order.push(subject.rng.index(count));
    }
    subject.rng.shuffle(&mut order);
    let mut pages = given.pages.to_vec();
    for &index in &order {
        let on_stored = Given {
            pages: &pages,
            ..given
        };
        let run = by_library(subject.case.magic, on_stored, 0).0;
        seen.must(run == *once, || {
            format!("a run after some stores of {order:?} ends otherwise")
        });
        pages = mixture(&pages, &run.pages, |at| at == index);
    }
    seen.must(pages == once.pages, || {
        format!("pages stored in the order {order:?} are others")
    });
    seen.event("pages stored one by one");
    if !order.is_sorted() {
        seen.event("pages stored out of their order");
    }
    if order.iter().collect::<BTreeSet<_>>().len() < order.len() {
        seen.event("page stored again");
    }
}

/// A record that says committed stands in the table of the later run as it is.
fn committed_stays(seen: &mut Seen, earlier: &Left, later: &Left) {
    for (record, after) in written(earlier).zip(library::records(&later.table)) {
        if record.outcome == library::COMMITTED {
            seen.event("night, committed record kept");
            seen.must(record == after, || {
                format!("{record:?} is reported as {after:?} later")
            });
        }
    }
}
