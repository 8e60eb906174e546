//! Summaries of a million bytes and more, judged as the second program judges them.

use generate::{long_summary, Rng};

const MILLION: usize = 1_000_000;

/// Number and place, on which both programs agree, as on all that they answer.
fn judged(file: &[u8]) -> (u64, u64) {
    let library = library::summary_read(file);
    let oracle = oracle::summary_read(file);
    assert_eq!(
        [
            library.number,
            library.place,
            library.lsn,
            library.count,
            library.first
        ],
        [
            oracle.number,
            oracle.place,
            oracle.lsn,
            oracle.count,
            oracle.first
        ]
    );
    (library.number, library.place)
}

#[test]
fn long_lists_are_judged_to_their_end() {
    let file = long_summary(MILLION);
    let length = file.len();
    assert!(length >= MILLION);
    assert_eq!(judged(&file), (0, 0));
    assert_eq!(judged(&file[..length - 1]), (28, length as u64 - 1));
    let short = [&file[..length - 1], &[23]].concat();
    assert_eq!(judged(&short), (31, length as u64 - 1));
    let more = [&file[..], &[0]].concat();
    assert_eq!(judged(&more), (33, length as u64));
    let rows = library::summary_read(&file);
    let last = library::summary_rows(&file, rows).last().unwrap();
    let row = library::summary_row(&file, rows.count - 1);
    assert_eq!(
        (last.page, last.slot, last.length),
        (row.page, row.slot, 24)
    );
    assert_eq!((row.length, last.next), (24, length as u64));
}

#[test]
fn a_million_bytes_of_any_kind_are_judged() {
    let mut file = vec![0x80; MILLION];
    assert_eq!(judged(&file), (28, 0));
    file[MILLION - 1] = 0;
    assert_eq!(judged(&file), (29, 0));
    file[0] = 1;
    assert_eq!(judged(&file), (29, 1));
    let mut rng = Rng::new(6);
    for _ in 0..20 {
        let mut file = rng.bytes(MILLION);
        assert_ne!(judged(&file).0, 0);
        // Edition 1, some last LSN and a count that promises more rows than bytes.
        file.splice(..0, [1, 5, 0xFF, 0xFF, 0xFF, 0x7F]);
        assert_ne!(judged(&file).0, 0);
    }
}
