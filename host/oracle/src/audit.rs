//! Judging repaired pages: whether the pages after hold what recovery of the
//! pages before would leave, and else the lowest page and slot that differs.

use crate::examine::{examine, Touched};
use crate::page::{check_pages_from, item_count, page_at, tuple_in_slot};
use crate::recovery::tuples;
use crate::{Refusal, PAGE_BYTES};

/// A refusal, or whether a page differs, with its number and slot. All that is
/// not said is 0.
#[derive(Clone, Copy, Debug, PartialEq, Eq, Default)]
pub struct Finding {
    pub number: u64,
    pub place: u64,
    pub differs: u64,
    pub page: u64,
    pub slot: u64,
}

/// Judges all pages.
pub fn judge(magic: u64, floor: u64, before: &[u8], log: &[u8], after: &[u8]) -> Finding {
    judge_from(magic, floor, before, log, after, 0)
}

/// Judges the pages from an index on. All that is lent is looked at for
/// refusals.
pub fn judge_from(
    magic: u64,
    floor: u64,
    before: &[u8],
    log: &[u8],
    after: &[u8],
    first: u64,
) -> Finding {
    match lowest(magic, floor, before, log, after, first) {
        Ok(None) => Finding::default(),
        Ok(Some((page, slot))) => Finding {
            differs: 1,
            page,
            slot,
            ..Finding::default()
        },
        Err(Refusal { number, place }) => Finding {
            number,
            place,
            ..Finding::default()
        },
    }
}

/// The lowest page and slot that differs. The refusals are recovery's without a
/// table, then 39 where the two page areas differ in length, then those of the
/// later pages.
fn lowest(
    magic: u64,
    floor: u64,
    before: &[u8],
    log: &[u8],
    after: &[u8],
    first: u64,
) -> Result<Option<(u64, u64)>, Refusal> {
    let examined = examine(magic, floor, before, log, None)?;
    if before.len() != after.len() {
        return Err(Refusal::new(39, 0));
    }
    check_pages_from(magic, after, 0)?;
    for index in first..(before.len() / PAGE_BYTES) as u64 {
        let own = page_at(before, index as usize);
        let other = page_at(after, index as usize);
        let slot = match examined.touched.get(&index) {
            Some(touched) => touched_slot(own, touched, log, other),
            None => (own != other).then_some(0),
        };
        if let Some(slot) = slot {
            return Ok(Some((index, slot)));
        }
    }
    Ok(None)
}

/// The lowest slot of a touched page that differs. Packing, flags, LSN and item
/// count may differ, with a slot past the count empty; magic, type, id and
/// reserved bytes may not: slot 0.
fn touched_slot(own: &[u8], touched: &Touched, log: &[u8], other: &[u8]) -> Option<u64> {
    let kept = [0..8, 8..9, 16..24, 36..64];
    if kept.into_iter().any(|at| own[at.clone()] != other[at]) {
        return Some(0);
    }
    let ours = tuples(own, touched, log);
    let count = ours.len().max(item_count(other));
    (0..count)
        .find(|&slot| {
            let tuple = ours.get(slot).and_then(|tuple| tuple.as_deref());
            let stands = tuple_in_slot(other, slot).map(|(at, length)| &other[at..at + length]);
            tuple != stands
        })
        .map(|slot| slot as u64)
}
