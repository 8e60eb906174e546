//! The checksum and the log reader: where it opens, and steps both ways from many places.

use oracle::Step;

use crate::check::Subject;
use crate::seen::Seen;
use crate::twin;

/// Logs of at most so many bytes are stepped over from every byte.
const EVERY_BYTE: usize = 700;

/// How many places are taken of each kind.
const SOME_PLACES: usize = 60;

pub(crate) fn compare(subject: &mut Subject, seen: &mut Seen) {
    let log = &subject.case.log;
    checksums(subject, seen);
    for at_end in [false, true] {
        let library = library::log_open(log, at_end);
        let oracle = twin::verdict(oracle::log_open(log, at_end));
        seen.answers(
            "log_open",
            library.number,
            format_args!("at_end {at_end}"),
            &library,
            &oracle,
        );
    }
    for place in places(subject) {
        let library = library::log_forward(log, place);
        let oracle = twin::forward(place, oracle::forward(log, place));
        seen.answers(
            "log_forward",
            library.kind,
            format_args!("from {place}"),
            &library,
            &oracle,
        );

        let library = library::log_backward(log, place);
        let oracle = twin::backward(place, oracle::backward(log, place));
        seen.answers(
            "log_backward",
            library.kind,
            format_args!("from {place}"),
            &library,
            &oracle,
        );
    }
}

/// The whole log, the whole pages, and some part of each.
fn checksums(subject: &mut Subject, seen: &mut Seen) {
    let case = subject.case;
    for (name, bytes) in [("log", &case.log), ("pages", &case.pages)] {
        let start = subject.rng.size(0, bytes.len());
        let end = subject.rng.size(start, bytes.len());
        for part in [0..bytes.len(), start..end] {
            let library = library::crc32c(&bytes[part.clone()]);
            let oracle = oracle::crc32c(&bytes[part.clone()]);
            seen.answers(
                "crc32c",
                0,
                format_args!("of {name} {part:?}"),
                &library,
                &oracle,
            );
        }
    }
}

/// The places to step from: every byte of a short log; of any log, places around its ends, where entries start, some
/// others, and places that are far outside.
fn places(subject: &mut Subject) -> Vec<u64> {
    let log = &subject.case.log;
    let rng = &mut subject.rng;
    let end = log.len() as u64;
    if log.len() <= EVERY_BYTE {
        let outside = [subject.case.place, u64::MAX, u64::MAX - 3, 1 << 32];
        return (0..=end + 4).chain(outside).collect();
    }
    let mut places = vec![subject.case.place, 0, 31, 32, 33, 36, 75, 1 << 32, u64::MAX];
    places.extend(end - 4..=end + 4);
    places.extend((0..SOME_PLACES).map(|_| rng.between(0, end)));

    let mut starts = Vec::new();
    let mut place = 32;
    while let Step::Entry(entry) = oracle::forward(log, place) {
        starts.push(place);
        place += entry.length;
    }
    places.push(place);
    if starts.len() <= SOME_PLACES {
        places.extend(starts);
    } else {
        places.extend((0..SOME_PLACES).map(|_| *rng.pick(&starts)));
    }
    places
}
