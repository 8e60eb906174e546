//! Double-write files: reading them, the repair of torn pages, stopped anywhere and repeated, the recovery after it, and
//! writing them.

use generate::{doublewrite_file, ledger, page_list, torn, tuples_on, DoublewriteFile};
use library::refusal::PAGE_AREA;
use library::{Answer, Repair, DOUBLEWRITE_SLOT_BYTES, PAGE_LIMIT, RECORD_NUMBERS};
use oracle::PAGE_BYTES;

use crate::check::Subject;
use crate::lent::{mixture, Lent};
use crate::seen::Seen;
use crate::twin;

/// What stands on the sides of lent pages and of a lent area, and what the area holds before a call.
const PAGE_EDGE: u8 = 0x69;
const AREA_EDGE: u8 = 0x96;
const AREA_MARK: u8 = 0xA5;

/// More pages than this are repaired in one way only.
const FEW_PAGES: usize = 12;

pub(crate) fn compare(subject: &mut Subject, seen: &mut Seen) {
    let case = subject.case;
    let most = case.pages.len() == PAGE_LIMIT * PAGE_BYTES && case.log.len() < PAGE_BYTES;
    if !subject.light && !most {
        return;
    }
    // Every torn page has its copy, as of a moment of its history; or any pages, copies and files.
    let mendable = most || case.honest.is_some() && subject.rng.one_in(2);
    let earlier = case.honest.as_ref().map(|it| it.start_pages.as_slice());
    let torn = torn(&mut subject.rng, &case.pages, earlier, mendable);
    let lent = (case.pages.len() / PAGE_BYTES) as u64;
    let file = doublewrite_file(&mut subject.rng, lent, &torn.copies);
    read(subject, seen, &file, lent);
    let (repair, after) = repaired(subject, seen, "", &torn.pages, &file.bytes);
    meets_aim(seen, &file, &repair, case.pages.len());
    if repair.number == 0 {
        seen.event("repaired");
        if subject.light {
            what_became(subject, seen, &torn.pages, &after, &file.bytes);
        }
        repeated(subject, seen, &torn.pages, &after, &file.bytes);
        if subject.light {
            recovered(subject, seen, &torn.pages, &after, &file.bytes, mendable);
        }
    }
    write(subject, seen);
}

/// The file is answered as it was made to be, after 1 of the pages.
fn meets_aim(seen: &mut Seen, file: &DoublewriteFile, repair: &Repair, bytes: usize) {
    let sized = bytes % PAGE_BYTES == 0 && bytes / PAGE_BYTES <= PAGE_LIMIT;
    let number = if sized { file.number } else { PAGE_AREA };
    seen.event(file.kind);
    seen.must((repair.number, repair.place) == (number, 0), || {
        format!("{} is answered by {repair:?}", file.kind)
    });
}

/// Reads a file for its own count of pages, for one page fewer, and at and past the most pages; and the page of each slot.
fn read(subject: &mut Subject, seen: &mut Seen, file: &DoublewriteFile, lent: u64) {
    let any = subject.rng.number();
    let most = PAGE_LIMIT as u64;
    for pages in [lent, lent.saturating_sub(1), most, most + 1, any] {
        let library = library::doublewrite_read(&file.bytes, pages);
        let oracle = twin::contents(oracle::doublewrite_read(&file.bytes, pages));
        seen.answers(
            "doublewrite_read",
            library.number,
            format_args!("{} for {pages} pages", file.kind),
            &library,
            &oracle,
        );
    }
    let slots = library::doublewrite_read(&file.bytes, lent).slots;
    for slot in (0..=slots).chain([subject.rng.number(), u64::MAX]) {
        let library = library::doublewrite_id(&file.bytes, slot);
        let oracle = oracle::doublewrite_id(&file.bytes, slot);
        seen.must(library == oracle, || {
            format!("slot {slot} names {library}, and by the oracle {oracle}")
        });
    }
}

/// Runs both programs, compares all that they leave, and gives the library's.
fn repaired(
    subject: &mut Subject,
    seen: &mut Seen,
    what: &str,
    pages: &[u8],
    file: &[u8],
) -> (Repair, Vec<u8>) {
    let magic = subject.case.magic;
    let mut lent = Lent::new(pages, subject.rng.size(0, 15), PAGE_EDGE);
    let lent_file = file.to_vec();
    let library = library::repair(magic, lent.items(), &lent_file);
    let (left, kept) = lent.taken_back();
    let mut expected = pages.to_vec();
    let oracle = twin::repair(oracle::repair(magic, &mut expected, file));
    seen.answers("repair", library.number, what, &library, &oracle);
    seen.items(format_args!("pages of repair {what}"), &left, &expected);
    seen.must(kept && lent_file == file, || {
        format!("repair {what} wrote outside the pages")
    });
    (library, left)
}

/// Counts what became of each page.
fn what_became(subject: &Subject, seen: &mut Seen, before: &[u8], after: &[u8], file: &[u8]) {
    let slots = library::doublewrite_read(file, PAGE_LIMIT as u64).slots;
    let named: Vec<u64> = (0..slots)
        .map(|slot| library::doublewrite_id(file, slot))
        .collect();
    let pages = before.chunks(PAGE_BYTES).zip(after.chunks(PAGE_BYTES));
    for (index, (old, new)) in (0..).zip(pages) {
        let sum = u32::from_le_bytes([old[12], old[13], old[14], old[15]]);
        let torn = sum != oracle::crc32c(&old[64..]);
        let bad = || {
            let verdict = oracle::verify_from(subject.case.magic, before, index);
            let at = match verdict.number {
                19 => verdict.place / PAGE_BYTES as u64,
                _ => verdict.place,
            };
            verdict.number != 0 && at == index
        };
        match (torn, named.contains(&index), old == new) {
            (true, true, false) => seen.event("copy taken"),
            (true, true, true) => {
                seen.event("copy that is not good");
                match refused_by(subject, before, file, &named, index) {
                    11 => seen.event("copy refused by 11"),
                    17 => seen.event("copy refused by 17"),
                    18 => seen.event("copy refused by 18"),
                    19 => seen.event("copy refused by 19"),
                    _ => seen.differs(format_args!("the copy of page {index} is good")),
                }
            }
            (true, false, true) => seen.event("torn page without a copy"),
            (false, true, true) if bad() => seen.event("page at fault with a right checksum"),
            (_, _, true) => (),
            (_, _, false) => seen.differs(format_args!("page {index} has changed")),
        }
    }
}

/// What the copy of a page that the file names is refused by in its place; 0 if it is good.
fn refused_by(subject: &Subject, pages: &[u8], file: &[u8], named: &[u64], page: u64) -> u64 {
    let slot = named.iter().take_while(|id| **id != page).count();
    let copy = &file[16 + slot * DOUBLEWRITE_SLOT_BYTES + 8..][..PAGE_BYTES];
    let before = &pages[..page as usize * PAGE_BYTES];
    oracle::verify_from(subject.case.magic, &[before, copy].concat(), page).number
}

/// Repaired again, and repaired after a repair that was stopped anywhere: the same bytes.
fn repeated(subject: &mut Subject, seen: &mut Seen, before: &[u8], after: &[u8], file: &[u8]) {
    let (again, left) = repaired(subject, seen, "again", after, file);
    seen.must(again.restored == 0 && left == after, || {
        "a repair repeated restores more".to_string()
    });
    let drawn = subject.rng.next_u64();
    let stops = match before.len() / PAGE_BYTES {
        count if count <= FEW_PAGES => 0..count,
        _ => 0..0,
    };
    let stopped = stops
        .map(|stop| mixture(before, after, |index| index < stop))
        .chain([mixture(before, after, |index| {
            drawn >> (index % 64) & 1 == 1
        })]);
    for mixed in stopped {
        if mixed != before && mixed != after {
            seen.event("repair stopped between pages");
        }
        let (_, left) = repaired(subject, seen, "after a stop", &mixed, file);
        seen.must(left == after, || {
            "a repair after a stop ends otherwise".to_string()
        });
    }
}

/// Recovers pages that were repaired.
fn recover(subject: &Subject, pages: &[u8]) -> (Answer, Vec<u8>, Vec<u64>) {
    let case = subject.case;
    let mut pages = pages.to_vec();
    let mut table = vec![0; case.records * RECORD_NUMBERS];
    let answer = library::recover(case.magic, case.floor, &mut pages, &case.log, &mut table);
    (answer, pages, table)
}

/// The recovery after a repair: with the pages of the history back, it ends as its ledger says. Stopped anywhere in the
/// repair or in the recovery, repair and recovery repeated end in the same bytes.
fn recovered(
    subject: &mut Subject,
    seen: &mut Seen,
    before: &[u8],
    after: &[u8],
    file: &[u8],
    mendable: bool,
) {
    let case = subject.case;
    let once = recover(subject, after);
    if once.0.number != 0 {
        return;
    }
    seen.event("recovered after a repair");
    if let Some(honest) = case.honest.as_ref().filter(|_| mendable) {
        if honest.has_felt_changes() {
            seen.event("ledger after a repair");
            let ledger = ledger(&honest.start_pages, &case.log);
            seen.must(tuples_on(&once.1) == ledger, || {
                "the rows after a repair are not the ledger's".to_string()
            });
        }
    }
    let drawn = subject.rng.next_u64();
    let stopped = mixture(before, after, |index| drawn >> (index % 32) & 1 == 1);
    let stopped = mixture(&stopped, &once.1, |index| {
        drawn >> (32 + index % 32) & 1 == 1
    });
    if [before, after, &once.1].iter().all(|it| **it != stopped) {
        seen.event("stopped in repair and recovery");
    }
    let (_, left) = repaired(
        subject,
        seen,
        "after a recovery was stopped",
        &stopped,
        file,
    );
    seen.must(recover(subject, &left) == once, || {
        "repair and recovery after a stop end otherwise".to_string()
    });
}

/// Writes files of lists of pages into areas that are long enough, or by one byte or more too short; and reads them back.
fn write(subject: &mut Subject, seen: &mut Seen) {
    let pages = &subject.case.pages;
    let lent = (pages.len() / PAGE_BYTES) as u64;
    let list = page_list(&mut subject.rng, lent);
    let need = library::doublewrite_bytes(list.len());
    let length = match subject.rng.below(5) {
        0 => need - 1,
        1 => subject.rng.size(0, need),
        2 => need,
        _ => need + subject.rng.size(0, 99),
    };
    let mut area = Lent::new(&vec![AREA_MARK; length], subject.rng.size(0, 7), AREA_EDGE);
    let library = library::doublewrite_write(pages, &list, area.items());
    let (left, kept) = area.taken_back();
    let mut expected = vec![AREA_MARK; length];
    let oracle = twin::written(oracle::doublewrite_write(pages, &list, &mut expected));
    seen.answers(
        "doublewrite_write",
        library.number,
        format_args!("{} pages into {length} bytes", list.len()),
        &library,
        &oracle,
    );
    seen.items("area of doublewrite_write", &left, &expected);
    seen.must(kept, || {
        "doublewrite_write wrote outside the area".to_string()
    });
    match library.number {
        26 if length + 1 == need => seen.event("area one byte short of a file"),
        0 if length == need => seen.event("area as long as a file"),
        25 if list.last() == Some(&lent) => seen.event("list with the page past the last"),
        _ => (),
    }
    if library.number == 0 {
        seen.event("file written");
        let file = &left[..library.length as usize];
        let read = library::doublewrite_read(file, lent);
        seen.must((read.number, read.slots) == (0, list.len() as u64), || {
            format!("a file of {} pages reads as {read:?}", list.len())
        });
    }
}
