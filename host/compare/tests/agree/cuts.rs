//! A log cut at a byte that matters, with zero bytes behind it: inside its header, and inside the second length of a change
//! that a page has felt. Both programs, and what must come out.

use compare::{check, Seen};
use generate::{live_tuple, log_header, slots_of, Case, DataPage, Entry, Slots, BEGIN};

use crate::assert_no_differences;

const MAGIC: u64 = 7;

/// The first bytes of a log, and zeros behind them.
fn file(log: &[u8], cut: usize, zeros: usize) -> Vec<u8> {
    let mut file = log[..cut].to_vec();
    file.resize(cut + zeros, 0);
    file
}

/// A header with no byte 0 among those that are ignored, and a transaction that inserts a row and does not end.
fn log_of(row: &[u8]) -> Vec<u8> {
    let mut log = log_header(&[0xA5; 26]);
    log.extend(Entry::bare(7, BEGIN).with_lsn(1).encode());
    log.extend(Entry::insert(7, 0, 0, row).with_lsn(2).encode());
    log
}

/// Compares both programs on every call, and gives number, place, tail offset and ending of recovery, and its pages.
fn recovered(pages: &[u8], log: Vec<u8>) -> ([u64; 4], Vec<u8>) {
    let case = Case {
        seed: 0,
        kind: "a cut with zeros behind it",
        magic: MAGIC,
        floor: 2,
        pages: pages.to_vec(),
        records: 1,
        page: 0,
        slot: 0,
        map_len: 1,
        place: 32,
        aim: None,
        honest: None,
        earlier: None,
        night: Vec::new(),
        log,
    };
    let mut seen = Seen::default();
    check(&case, &mut seen);
    assert_no_differences(&seen);
    let mut left = case.pages;
    let mut table = [0; library::RECORD_NUMBERS];
    let answer = library::recover(MAGIC, case.floor, &mut left, &case.log, &mut table);
    let numbers = [
        answer.number,
        answer.place,
        answer.tail_offset,
        answer.ending,
    ];
    (numbers, left)
}

/// Mark and version are five bytes and a zero byte; with zeros for the rest of its 32 bytes the header is right, and the log
/// ends behind it.
#[test]
fn cuts_in_the_header() {
    let row = live_tuple(7, b"row");
    let log = log_of(&row);
    let pages = DataPage::plain(MAGIC, 0, 1, Slots::from([(0, row)])).packed();
    for cut in 0..=32 {
        for zeros in 0..=40 {
            let length = cut + zeros;
            let expected = match length {
                _ if cut < 5 || length < 32 => [3, 0, 0, 0],
                32 => [0, 0, 32, library::ENDED_EXACTLY],
                33..=35 => [0, 0, 32, library::ENDED_TORN],
                _ => [0, 0, 32, library::ENDED_UNUSED],
            };
            let (numbers, left) = recovered(&pages, file(&log, cut, zeros));
            assert_eq!(numbers, expected, "{cut} bytes and {zeros} zeros");
            assert!(left == pages, "{cut} bytes and {zeros} zeros");
        }
    }
}

/// The page has felt the insert, of which the cut lacks zero bytes at the end of its second length. With as many zeros behind
/// the cut the insert is found, and taken back, since its transaction has not ended; with fewer it is torn, and the row stays.
#[test]
fn a_felt_change_completed_by_zeros() {
    for (payload, last_zeros) in [(3, 3), (300, 2)] {
        let row = live_tuple(7, &vec![1; payload]);
        let log = log_of(&row);
        let pages = DataPage::plain(MAGIC, 0, 2, Slots::from([(0, row)])).packed();
        let (whole, change) = (log.len() as u64, 75);
        for missing in 1..=last_zeros {
            for zeros in 0..=missing + 6 {
                let (numbers, left) = recovered(&pages, file(&log, log.len() - missing, zeros));
                let expected = match zeros.checked_sub(missing) {
                    None => [0, 0, change, library::ENDED_TORN],
                    Some(0) => [0, 0, whole, library::ENDED_EXACTLY],
                    Some(1..=3) => [0, 0, whole, library::ENDED_TORN],
                    Some(_) => [0, 0, whole, library::ENDED_UNUSED],
                };
                assert_eq!(numbers, expected, "{missing} missing, {zeros} zeros");
                assert_eq!(
                    slots_of(&left).is_empty(),
                    zeros >= missing,
                    "{missing} missing, {zeros} zeros"
                );
            }
        }
        // One byte more is not zero: with zeros for it the entry is damaged.
        let missing = last_zeros + 1;
        let (numbers, left) = recovered(&pages, file(&log, log.len() - missing, missing));
        assert_eq!(numbers, [4, change, 0, 0]);
        assert!(left == pages);
    }
}
