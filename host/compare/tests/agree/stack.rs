//! The library works in under 1 MiB of stack.

use std::thread;

use generate::{live_tuple, log_header, DataPage, Entry, Slots, BEGIN, COMMIT};

/// What the thread itself and the frames above the call may take beside the library's 1 MiB.
const OWN_BYTES: usize = 32 << 10;

const MAGIC: u64 = 7;

fn call_everything() {
    let mut pages: Vec<u8> = (0..300)
        .flat_map(|id| {
            let slots: Slots = (0..80).map(|slot| (slot, live_tuple(1, b"row"))).collect();
            DataPage::plain(MAGIC, id, 0, slots).packed()
        })
        .collect();
    let mut log = log_header(&[0; 26]);
    let begin = Entry::bare(9, BEGIN);
    let changes = (0..300).map(|page| Entry::insert(9, page, 900, &live_tuple(9, b"late")));
    let entries = [begin]
        .into_iter()
        .chain(changes)
        .chain([Entry::bare(9, COMMIT)]);
    for (lsn, entry) in (1..).zip(entries) {
        log.extend(entry.with_lsn(lsn).encode());
    }
    let mut table = [0; library::RECORD_NUMBERS];
    // Begins whose numbers fall are judged by other functions than those that rise.
    let mut falling = log_header(&[0; 26]);
    for (lsn, number) in [(1, 9), (2, 8)] {
        falling.extend(Entry::bare(number, BEGIN).with_lsn(lsn).encode());
    }

    assert_eq!(library::log_open(&log, true).place, log.len() as u64);
    assert_eq!(library::log_forward(&log, 32).lsn, 1);
    assert_eq!(library::log_backward(&log, log.len() as u64).entry_type, 2);
    assert_eq!(library::verify(MAGIC, &pages).number, 0);
    assert_eq!(library::verify_from(MAGIC, &pages, 299).number, 0);
    assert_eq!(library::next_visible(MAGIC, &pages, 299, 80).found, 0);
    assert_eq!(
        library::list_visible(MAGIC, &pages, 299, 80, &mut [0; 4]).count,
        0
    );
    assert_eq!(
        library::list_cancelled(MAGIC, &pages, 299, 80, &mut [0; 4]).count,
        0
    );
    assert_eq!(library::free_map(MAGIC, &pages, &mut [0; 38]).free, 0);
    let list: Vec<u64> = (0..300).collect();
    let mut file = vec![0; library::doublewrite_bytes(300)];
    let written = library::doublewrite_write(&pages, &list, &mut file);
    assert_eq!(written.length, file.len() as u64);
    assert_eq!(library::doublewrite_read(&file, 300).slots, 300);
    assert_eq!(library::doublewrite_id(&file, 299), 299);
    pages[299 * library::PAGE_BYTES + 100] ^= 1;
    assert_eq!(library::repair(MAGIC, &mut pages, &file).restored, 1);
    assert_eq!(library::table_find(MAGIC, &pages, 14).found, 0);
    // Equal marks are halved most often.
    let orders: Vec<u8> = (0..300)
        .flat_map(|id| {
            let slots: Slots = (0..80)
                .map(|slot| (slot, live_tuple(1, &[7; 24])))
                .collect();
            DataPage::plain(MAGIC, id, 0, slots).packed()
        })
        .collect();
    assert_eq!(library::find_order(MAGIC, &orders, &[7; 16]).found, 1);
    assert_eq!(library::repeated_orders(MAGIC, &orders).later_slot, 1);
    let mut area = [0; library::TABLE_LIMIT_BYTES];
    let names = [7; 255];
    let written = library::table_write(14, 1, &names, &names, 0, 1, &mut area);
    assert_eq!(written.length, area.len() as u64);
    assert_eq!(library::table_read(&area).name(&area), names);
    assert_eq!(library::table_read_older(&area).number, 38);
    let mut summary = vec![0; library::summary_room(300)];
    let written = library::summary_write(MAGIC, &pages, 7, &mut summary);
    summary.truncate(written.length as usize);
    let read = library::summary_read(&summary);
    assert_eq!(read.count, 300 * 80);
    assert_eq!(library::summary_step(&summary, read.first).length, 27);
    assert_eq!(library::summary_row(&summary, 300 * 80 - 1).page, 299);
    let row = library::read_row(MAGIC, 0, &pages, &log, 299, 900);
    assert_eq!(row.payload(&pages, &log), b"late");
    let before = pages.clone();
    let answer = library::recover(MAGIC, 0, &mut pages, &log, &mut table);
    assert_eq!((answer.number, answer.pages_rewritten), (0, 300));
    let own = library::judge(MAGIC, 0, &before, &log, &pages);
    assert_eq!((own.number, own.differs), (0, 0));
    let unmended = library::judge_from(MAGIC, 0, &before, &log, &before, 299);
    assert_eq!((unmended.page, unmended.slot), (299, 900));
    let answer = library::recover(
        MAGIC,
        1_000,
        &mut pages,
        &falling,
        &mut [0; 2 * library::RECORD_NUMBERS],
    );
    assert_eq!((answer.number, answer.unended), (0, 2));
}

/// A library that needs more ends this test program by a signal.
#[test]
fn every_call_fits_a_small_stack() {
    let thread = thread::Builder::new()
        .stack_size((1 << 20) + OWN_BYTES)
        .spawn(call_everything)
        .expect("a thread");
    thread.join().expect("every call ends");
}
