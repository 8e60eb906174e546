//! What stands in a summary at the place where it is refused.

use library::refusal;

use crate::input::Summary;
use crate::show;

/// The numbers before the first row, and those of a row.
const HEAD: [&str; 3] = ["the edition", "the last LSN", "the row count"];
const ROW: [&str; 3] = ["the page", "the slot", "the length"];

/// How many groups are shown of a number that has many.
const SHOWN: usize = 12;

/// The groups of the number at a place, as far as the file has them.
fn groups(bytes: &[u8], place: usize) -> &[u8] {
    let left = &bytes[place.min(bytes.len())..];
    let last = left.iter().position(|group| *group < 128);
    &left[..last.map_or(left.len(), |last| last + 1)]
}

/// The number that groups are, which may be over 64 bits.
fn value(groups: &[u8]) -> Option<u64> {
    groups.iter().rev().try_fold(0u64, |value, group| {
        let value = value.checked_mul(128)?;
        Some(value + u64::from(group & 0x7F))
    })
}

/// What stands before a number.
#[derive(Default)]
struct Before {
    numbers: usize,
    /// The row count, if it is among them.
    count: u64,
    /// The last three numbers that are whole rows, or the head.
    row: [u64; 3],
}

impl Before {
    fn of(bytes: &[u8], place: usize) -> Before {
        let mut before = Before::default();
        let (mut at, mut three) = (0, [0; 3]);
        while at < place {
            let own = groups(bytes, at);
            let part = before.numbers % 3;
            three[part] = value(own).unwrap_or(u64::MAX);
            if part == 2 {
                before.row = three;
            }
            if before.numbers == 2 {
                before.count = three[2];
            }
            before.numbers += 1;
            at += own.len().max(1);
        }
        before
    }

    /// The name of the number behind them.
    fn name(&self) -> String {
        match HEAD.get(self.numbers) {
            Some(name) => name.to_string(),
            None => {
                let behind = self.numbers - HEAD.len();
                format!("{} of row {}", ROW[behind % 3], behind / 3)
            }
        }
    }
}

pub fn found(summary: &Summary, refused: u64, place: u64) -> String {
    let bytes = &summary.bytes;
    let place = usize::try_from(place).unwrap_or(usize::MAX);
    let own = groups(bytes, place);
    let before = Before::of(bytes, place);
    let name = before.name();
    let length = show::count(summary.length, "byte", "bytes");
    let shown = show::hex(&own[..own.len().min(SHOWN)]);
    let more = if own.len() > SHOWN { "..." } else { "" };
    let is = value(own).map_or("a number over 64 bits".to_string(), |value| {
        value.to_string()
    });
    match refused {
        refusal::SUMMARY_ENDS_EARLY if own.is_empty() => {
            format!("{length}, where {name} should follow")
        }
        refusal::SUMMARY_ENDS_EARLY => {
            format!("{length}, in which {name}, 0x{shown}{more}, has no last group")
        }
        refusal::SUMMARY_SPELLING if summary.groups_behind > 0 => format!(
            "{name} is 0x{shown}{more}, in {} groups",
            own.len() as u64 + summary.groups_behind
        ),
        refusal::SUMMARY_SPELLING => {
            format!("{name} is 0x{shown}{more}, {is} in {} groups", own.len())
        }
        refusal::SUMMARY_ORDER => {
            let [page, slot, _] = before.row;
            format!("{name} is {is}, behind page {page} slot {slot}")
        }
        refusal::SUMMARY_LEFT_OVER => format!(
            "{} left over; the row count promises {}",
            show::count(summary.length.saturating_sub(place as u64), "byte", "bytes"),
            show::count(before.count, "row", "rows")
        ),
        _ => format!("{name} is {is}"),
    }
}
