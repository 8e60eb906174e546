//! The log reader: its refusals, its steps in both directions and its places.

use crate::common::*;
use oracle::{backward, forward, log_open, EntryFields, Step, MAX_LOG_BYTES};

/// A log with entries of several types and its entry offsets, the end among them.
fn sample() -> (Vec<u8>, Vec<u64>) {
    let mut log = Log::new();
    let mut places = vec![
        log.begin(7),
        log.insert(7, 3, 2, &tuple(30, 1)),
        log.update(7, 3, 2, &tuple(30, 1), &tuple(35, 2)),
        log.delete(7, 3, 2, &tuple(35, 2)),
        log.checkpoint(),
        log.commit(7),
    ];
    places.push(log.bytes.len() as u64);
    (log.bytes, places)
}

#[test]
fn opens_at_byte_32_or_at_the_walked_end() {
    let (log, places) = sample();
    assert_eq!(log_open(&log, false).place, 32);
    assert_eq!(log_open(&log, true).place, places[6]);
    for cut in 32..log.len() {
        let whole = places.iter().rev().find(|&&p| p <= cut as u64).unwrap();
        let opened = log_open(&log[..cut], true);
        assert_eq!((opened.number, opened.place), (0, *whole));
    }
    let mut damaged = log.clone();
    damaged[places[2] as usize + 30] ^= 1;
    assert_eq!(log_open(&damaged, true).place, places[2]);
}

#[test]
fn refuses_a_long_log_and_a_wrong_header() {
    let (log, _) = sample();
    let verdict = |log: &[u8]| {
        let (start, end) = (log_open(log, false), log_open(log, true));
        assert_eq!(start.place, if start.number == 0 { 32 } else { 0 });
        assert_eq!(start.number, end.number);
        start.number
    };
    assert_eq!(verdict(&log), 0);
    assert_eq!(verdict(&log[..31]), 3);
    assert_eq!(verdict(&log[..32]), 0);
    assert_eq!(verdict(&[]), 3);
    for at in 0..32 {
        let mut changed = log.clone();
        changed[at] ^= 0x10;
        // Four bytes of magic and two of version; the rest is ignored.
        assert_eq!(verdict(&changed), if at < 6 { 3 } else { 0 });
    }
    let mut long = log.clone();
    long.resize(MAX_LOG_BYTES, 0);
    assert_eq!(verdict(&long), 0);
    long.push(0);
    assert_eq!(verdict(&long), 2);
    long[0] = 0;
    assert_eq!(verdict(&long), 2);
}

#[test]
fn forward_gives_the_fields_of_an_entry() {
    let (log, places) = sample();
    let expected = EntryFields {
        offset: places[2],
        length: 43 + 10 + 40 + 45,
        lsn: 3,
        transaction: 7,
        kind: 10,
        table: 3,
        key_len: 10,
        old_len: 40,
        new_len: 45,
    };
    assert_eq!(forward(&log, places[2]), Step::Entry(expected));
    assert_eq!(backward(&log, places[3]), Some(expected));
}

#[test]
fn places_outside_the_log() {
    let (log, places) = sample();
    let end = places[6];
    for place in [0, 1, 31, end, end + 1, u64::MAX] {
        assert_eq!(forward(&log, place), Step::End);
    }
    for place in [0, 31, 32, 35, 36, end + 1, u64::MAX] {
        assert_eq!(backward(&log, place), None);
    }
    assert_eq!(forward(&log[..20], 20), Step::End);
    assert_eq!(backward(&[], 0), None);
}

#[test]
fn every_cut_of_an_entry_is_a_torn_tail() {
    let (log, places) = sample();
    for pair in places.windows(2) {
        assert_eq!(forward(&log[..pair[0] as usize], pair[0]), Step::End);
        for cut in pair[0] + 1..pair[1] {
            assert_eq!(forward(&log[..cut as usize], pair[0]), Step::Torn);
        }
    }
}

#[test]
fn every_flipped_bit_spoils_an_entry() {
    let (log, places) = sample();
    let (start, end) = (places[1] as usize, places[2] as usize);
    for at in start..end {
        for bit in 0..8 {
            let mut changed = log[..end].to_vec();
            changed[at] ^= 1 << bit;
            // In the length in front, a larger number may reach past the end.
            let length = u32::from_le_bytes(changed[start..start + 4].try_into().unwrap());
            let torn = (84..=32_705).contains(&length);
            let expected = if torn { Step::Torn } else { Step::Damage };
            assert_eq!(forward(&changed, start as u64), expected);
            if at >= start + 4 {
                assert_eq!(backward(&changed, end as u64), None);
            }
        }
    }
}

#[test]
fn lengths_at_the_bounds() {
    let with_length = |length: u32, left: usize| {
        let mut log = Log::new().bytes;
        log.resize(32 + left, 0);
        let field = length.to_le_bytes();
        log[32..36].copy_from_slice(&field);
        forward(&log, 32)
    };
    assert_eq!(with_length(0, 4), Step::Unused);
    assert_eq!(with_length(1, 4), Step::Damage);
    assert_eq!(with_length(42, 4), Step::Damage);
    assert_eq!(with_length(43, 4), Step::Torn);
    assert_eq!(with_length(43, 42), Step::Torn);
    assert_eq!(with_length(43, 43), Step::Damage);
    assert_eq!(with_length(32_705, 4), Step::Torn);
    assert_eq!(with_length(32_706, 4), Step::Damage);
    assert_eq!(with_length(u32::MAX, 4), Step::Damage);
    let longest = tuple(16_316, 1);
    let mut log = Log::new();
    log.update(0, 0, 0, &longest, &longest);
    assert_eq!(log.bytes.len(), 32 + 32_705);
    assert!(matches!(forward(&log.bytes, 32), Step::Entry(_)));
    assert!(backward(&log.bytes, 32 + 32_705).is_some());
}

#[test]
fn room_set_aside() {
    let (log, places) = sample();
    let end = places[6];
    let with = |cut: usize, zeros: usize| {
        let mut file = log[..cut].to_vec();
        file.resize(cut + zeros, 0);
        file
    };
    for zeros in 1..=3 {
        assert_eq!(forward(&with(log.len(), zeros), end), Step::Torn);
    }
    for zeros in [4, 5, 8, 43, 1_000] {
        let file = with(log.len(), zeros);
        assert_eq!(forward(&file, end), Step::Unused);
        assert_eq!(log_open(&file, true).place, end);
        // Backward from there the last entry is found.
        assert_eq!(backward(&file, end).unwrap().offset, places[5]);
        for at in log.len() + 4..file.len() {
            let mut spoiled = file.clone();
            spoiled[at] = 1;
            assert_eq!(forward(&spoiled, end), Step::Damage);
        }
    }
    // Inside the room too, up to its last four bytes.
    let file = with(log.len(), 9);
    assert_eq!(forward(&file, end + 5), Step::Unused);
    assert_eq!(forward(&file, end + 6), Step::Torn);

    // The last entry has 43 bytes, of which the last three are zero.
    let last = with(log.len() - 3, 7);
    assert_eq!(log_open(&last, true).place, end);
    assert_eq!(forward(&last, end), Step::Unused);
    assert_eq!(forward(&with(log.len() - 3, 2), places[5]), Step::Torn);
    assert_eq!(forward(&with(log.len() - 4, 4), places[5]), Step::Damage);

    // A length cut after its first byte.
    let cut = places[5] as usize + 1;
    assert_eq!(forward(&with(cut, 2), places[5]), Step::Torn);
    assert_eq!(forward(&with(cut, 3), places[5]), Step::Torn);
    assert_eq!(forward(&with(cut, 42), places[5]), Step::Damage);
}

/// A length whose low byte is 0, cut after that byte.
#[test]
fn a_length_of_256_cut_after_its_first_byte() {
    let mut log = Log::new();
    let place = log.insert(0, 0, 0, &tuple(256 - 53, 1));
    assert_eq!(log.bytes.len() as u64 - place, 256);
    for (zeros, expected) in [
        (0, Step::Torn),
        (2, Step::Torn),
        (3, Step::Unused),
        (300, Step::Unused),
    ] {
        let mut file = log.bytes[..place as usize + 1].to_vec();
        file.resize(file.len() + zeros, 0);
        assert_eq!(forward(&file, place), expected);
    }
}

#[test]
fn inner_lengths_must_sum() {
    let fresh = entry(1, 0, 4, &key(0, 0), &[], &tuple(24, 1));
    for (at, value) in [
        (25, 9),
        (25, 11),
        (25, 34),
        (25, 35),
        (37, 1),
        (37, 25),
        (41, 23),
        (41, 25),
    ] {
        let mut log = Log::new().bytes;
        let mut spoiled = fresh.clone();
        put16(&mut spoiled, at, value);
        let crc_at = spoiled.len() - 8;
        let crc = oracle::crc32c(&spoiled[..crc_at]);
        put32(&mut spoiled, crc_at, crc);
        log.extend(&spoiled);
        assert_eq!(forward(&log, 32), Step::Damage, "{value} at {at}");
        assert_eq!(backward(&log, log.len() as u64), None);
    }
}

#[test]
fn a_row_image_may_contain_a_whole_entry() {
    let inner = entry(9, 9, 1, &[], &[], &[]);
    let mut image = tuple(24, 0);
    image.extend(&inner);
    image.extend([7; 5]);
    let mut log = Log::new();
    log.begin(7);
    let start = log.insert(7, 0, 0, &image);
    let end = log.bytes.len() as u64;

    // From the entry's end the step gives the entry; from the end of the inner
    // one it gives the inner one, which no walk forward meets.
    assert_eq!(backward(&log.bytes, end).unwrap().offset, start);
    let inner_start = start + 27 + 10 + 4 + 4 + 24;
    let found = backward(&log.bytes, inner_start + 43).unwrap();
    assert_eq!((found.offset, found.lsn), (inner_start, 9));
}

#[test]
fn backward_never_reaches_before_byte_32() {
    let inside = entry(1, 7, 1, &[], &[], &[]);
    let mut log = vec![0; 31];
    log.extend(&inside);
    assert_eq!(backward(&log, 74), None);
    log.insert(0, 0);
    assert_eq!(backward(&log, 75).unwrap().offset, 32);
}
