//! The row list kept beside the data: written and read, every number in groups
//! of seven bits, lowest group first, the high bit set on all groups but the
//! last, in the fewest groups.

use std::ops::RangeInclusive;

use crate::listing::{check, visible_rows};
use crate::page::{LONGEST_TUPLE_BYTES, ROW_HEADER_BYTES};
use crate::{Refusal, Written};

/// The only edition.
const EDITION: u64 = 1;

/// Pages, slots and lengths that a row may have.
const PAGES: u64 = 4096;
const SLOTS: u64 = 4080;
const LENGTHS: RangeInclusive<u64> = ROW_HEADER_BYTES as u64..=LONGEST_TUPLE_BYTES as u64;

/// What a file says of itself, and where its first row stands; refused, all but
/// number and place are 0.
#[derive(Clone, Copy, Debug, PartialEq, Eq, Default)]
pub struct Summary {
    pub number: u64,
    pub place: u64,
    pub lsn: u64,
    pub count: u64,
    pub first: u64,
}

/// A row's three numbers; 0 past the count and where the file is refused.
#[derive(Clone, Copy, Debug, PartialEq, Eq, Default)]
pub struct SummaryRow {
    pub number: u64,
    pub place: u64,
    pub page: u64,
    pub slot: u64,
    pub length: u64,
}

/// The three numbers at a place, and the place after them.
#[derive(Clone, Copy, Debug, PartialEq, Eq, Default)]
pub struct SummaryStep {
    pub page: u64,
    pub slot: u64,
    pub length: u64,
    pub next: u64,
}

/// A number's groups.
fn groups(number: u64) -> Vec<u8> {
    let lowest = (number % 128) as u8;
    match number / 128 {
        0 => vec![lowest],
        rest => [vec![lowest + 128], groups(rest)].concat(),
    }
}

/// The file of a last LSN and a row list.
pub fn summary_file(lsn: u64, rows: &[[u64; 3]]) -> Vec<u8> {
    let head = [EDITION, lsn, rows.len() as u64];
    let numbers = head.into_iter().chain(rows.iter().flatten().copied());
    numbers.flat_map(groups).collect()
}

/// Writes the visible rows with a last LSN. Refuses as the listing does, then 27
/// exactly when the area is too short; later bytes stay.
pub fn summary_write(magic: u64, pages: &[u8], lsn: u64, area: &mut [u8]) -> Written {
    let refused = |number, place| Written {
        number,
        place,
        length: 0,
    };
    if let Err(Refusal { number, place }) = check(magic, pages, 0) {
        return refused(number, place);
    }
    let rows = visible_rows(pages).map(|row| [row.page, row.slot, row.length]);
    let bytes = summary_file(lsn, &rows.collect::<Vec<_>>());
    if area.len() < bytes.len() {
        return refused(27, 0);
    }
    area[..bytes.len()].copy_from_slice(&bytes);
    Written {
        number: 0,
        place: 0,
        length: bytes.len() as u64,
    }
}

/// Reads number after number, and stays where one is at fault.
struct Numbers<'a> {
    file: &'a [u8],
    at: usize,
}

impl Numbers<'_> {
    /// The number that comes next: 28 where the file ends before it does, 29
    /// where it is not in the fewest groups or is over 64 bits.
    fn next(&mut self) -> Result<u64, Refusal> {
        let left = self.file.get(self.at..).unwrap_or_default();
        let Some(last) = left.iter().position(|group| *group < 128) else {
            return Err(self.fault(28));
        };
        let own = &left[..=last];
        if own.len() > 1 && own[last] == 0 || own.len() > 10 {
            return Err(self.fault(29));
        }
        let value = own
            .iter()
            .rev()
            .fold(0u128, |value, group| value * 128 + u128::from(group & 0x7F));
        let value = u64::try_from(value).map_err(|_| self.fault(29))?;
        self.at += own.len();
        Ok(value)
    }

    /// The number that comes next, if no other refusal fits it.
    fn ruled(&mut self, rule: impl Fn(u64) -> Option<u64>) -> Result<u64, Refusal> {
        let from = self.at;
        let value = self.next()?;
        match rule(value) {
            None => Ok(value),
            Some(number) => {
                self.at = from;
                Err(self.fault(number))
            }
        }
    }

    fn fault(&self, number: u64) -> Refusal {
        Refusal::new(number, self.at as u64)
    }
}

/// A file that is not refused.
struct Whole {
    lsn: u64,
    rows: Vec<[u64; 3]>,
    first: u64,
}

/// Judges the whole file.
fn judge(file: &[u8]) -> Result<Whole, Refusal> {
    let mut numbers = Numbers { file, at: 0 };
    numbers.ruled(|edition| (edition != EDITION).then_some(30))?;
    let lsn = numbers.next()?;
    let count = numbers.next()?;
    let first = numbers.at as u64;
    let mut rows: Vec<[u64; 3]> = Vec::new();
    for _ in 0..count {
        let before = rows.last().copied();
        let page = numbers.ruled(|page| match before {
            _ if page >= PAGES => Some(31),
            Some([last, ..]) if page < last => Some(32),
            _ => None,
        })?;
        let slot = numbers.ruled(|slot| match before {
            _ if slot >= SLOTS => Some(31),
            Some([last, behind, _]) if page == last && slot <= behind => Some(32),
            _ => None,
        })?;
        let length = numbers.ruled(|length| (!LENGTHS.contains(&length)).then_some(31))?;
        rows.push([page, slot, length]);
    }
    match numbers.at < file.len() {
        true => Err(numbers.fault(33)),
        false => Ok(Whole { lsn, rows, first }),
    }
}

/// Judges the whole file, then gives last LSN and count.
pub fn summary_read(file: &[u8]) -> Summary {
    match judge(file) {
        Err(Refusal { number, place }) => Summary {
            number,
            place,
            ..Summary::default()
        },
        Ok(whole) => Summary {
            number: 0,
            place: 0,
            lsn: whole.lsn,
            count: whole.rows.len() as u64,
            first: whole.first,
        },
    }
}

/// All rows of a file that is not refused: page, slot and tuple length.
pub fn summary_rows(file: &[u8]) -> Option<Vec<[u64; 3]>> {
    judge(file).ok().map(|whole| whole.rows)
}

/// Judges the whole file, then gives a row by its number from 0.
pub fn summary_row(file: &[u8], index: u64) -> SummaryRow {
    match judge(file) {
        Err(Refusal { number, place }) => SummaryRow {
            number,
            place,
            ..SummaryRow::default()
        },
        Ok(whole) => {
            let index = usize::try_from(index).unwrap_or(usize::MAX);
            let [page, slot, length] = whole.rows.get(index).copied().unwrap_or_default();
            SummaryRow {
                number: 0,
                place: 0,
                page,
                slot,
                length,
            }
        }
    }
}

/// The three numbers at a place and the place after them; zeros and the same
/// place where one of them does not read.
pub fn summary_step(file: &[u8], place: u64) -> SummaryStep {
    let at = usize::try_from(place).unwrap_or(usize::MAX);
    let mut numbers = Numbers { file, at };
    let mut three = || Ok([numbers.next()?, numbers.next()?, numbers.next()?]);
    match three() {
        Err(Refusal { .. }) => SummaryStep {
            next: place,
            ..SummaryStep::default()
        },
        Ok([page, slot, length]) => SummaryStep {
            page,
            slot,
            length,
            next: numbers.at as u64,
        },
    }
}
