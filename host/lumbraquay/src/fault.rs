//! What is wrong with a page that is refused: which field or slot it is, what stands there and what the rule asks.

use library::refusal::{refusal, PAGE_CHECKSUM, PAGE_ID, PAGE_MAGIC_OR_TYPE, PAGE_SLOTS};
use library::{Verdict, PAGE_BYTES};

use crate::input::Pages;
use crate::json::Json;
use crate::show;
use crate::tuple::short;

/// The bytes of a page before its slots, and behind its header.
const HEAD_BYTES: usize = 64;
const BODY_BYTES: usize = 16_320;

/// The most slots that a body has room for, and the shortest tuple.
const SLOT_LIMIT: usize = 4_080;
const ROW_HEAD_BYTES: usize = 24;

/// The page whose fault a refusal is, if it is one of a page.
pub fn bad_page(verdict: Verdict) -> Option<u64> {
    match verdict.number {
        PAGE_MAGIC_OR_TYPE | PAGE_ID | PAGE_CHECKSUM => Some(verdict.place),
        PAGE_SLOTS => Some(verdict.place / PAGE_BYTES as u64),
        _ => None,
    }
}

/// What a broken rule of slots is about.
#[derive(Clone, Copy)]
enum Part {
    ItemCount,
    FreeStart,
    FreeEnd,
    Slot(usize),
}

impl Part {
    /// By the place of the refusal.
    fn at(place: u64) -> Part {
        match place as usize % PAGE_BYTES {
            10 => Part::ItemCount,
            32 => Part::FreeStart,
            34 => Part::FreeEnd,
            at => Part::Slot(at.saturating_sub(HEAD_BYTES) / 4),
        }
    }

    fn name(self) -> &'static str {
        match self {
            Part::ItemCount => "item count",
            Part::FreeStart => "free start",
            Part::FreeEnd => "free end",
            Part::Slot(_) => "slot",
        }
    }
}

/// The page and its field or slot, for a refusal whose place is an offset in the pages.
pub fn part(place: u64) -> String {
    let page = place / PAGE_BYTES as u64;
    match Part::at(place) {
        Part::Slot(slot) => format!("page {page} slot {slot}"),
        part => format!("page {page} {}", part.name()),
    }
}

/// The same as fields; none for a refusal that is not of a page.
pub fn fields(verdict: Verdict) -> Vec<(&'static str, Json)> {
    let Some(page) = bad_page(verdict) else {
        return Vec::new();
    };
    let mut fields = vec![("page", page.into())];
    if verdict.number == PAGE_SLOTS {
        let part = Part::at(verdict.place);
        fields.push(("field", part.name().into()));
        fields.push(match part {
            Part::Slot(slot) => ("slot", slot.into()),
            _ => ("slot", Json::Null),
        });
    }
    fields
}

/// What stands on a bad page, and what the rule that it breaks asks.
pub fn words(pages: &Pages, verdict: Verdict) -> Option<String> {
    let index = bad_page(verdict)?;
    let page = pages.page(index)?;
    let (id, lsn) = (number(page, 16), number(page, 24));
    let kind = format!("type {} {}", page[8], show::page_type(page[8]));
    let magic = number(page, 0);
    Some(match verdict.number {
        PAGE_MAGIC_OR_TYPE if magic != pages.magic => format!(
            "magic {magic:#x}, which should be {:#x} ({}); {kind}, id {id}, LSN {lsn}",
            pages.magic,
            pages.magic_from(),
        ),
        PAGE_MAGIC_OR_TYPE => format!("{kind}, which should be 0 to 6; id {id}, LSN {lsn}"),
        PAGE_ID => {
            let right = if is_torn(page) { "wrong" } else { "right" };
            format!("id {id}, which should be {index}; {kind}, LSN {lsn}, its checksum is {right}")
        }
        PAGE_CHECKSUM => format!(
            "checksum {:08x}, which should be {:08x} by the body; {kind}, id {id}, LSN {lsn}",
            checksum(page),
            sum(page),
        ),
        _ => slot_rule(page, Part::at(verdict.place)),
    })
}

/// Whether the checksum of a page is not that of its body.
pub fn is_torn(page: &[u8]) -> bool {
    checksum(page) != sum(page)
}

/// What each bad page is refused by: each is looked for behind the one before.
pub fn bad_pages(pages: &Pages) -> impl Iterator<Item = (u64, Verdict)> + '_ {
    let mut first = 0;
    std::iter::from_fn(move || {
        let verdict = library::verify_from(pages.magic, &pages.bytes, first);
        let page = bad_page(verdict)?;
        first = page + 1;
        Some((page, verdict))
    })
}

pub fn name(verdict: Verdict) -> &'static str {
    refusal(verdict.number).map_or("unknown", |refusal| refusal.name)
}

/// A bad page as an object.
pub fn bad_fields(pages: &Pages, verdict: Verdict) -> Json {
    let mut all = vec![
        ("number", verdict.number.into()),
        ("name", name(verdict).into()),
        ("place", verdict.place.into()),
    ];
    all.extend(fields(verdict));
    let found = words(pages, verdict);
    all.push(("found", found.map_or(Json::Null, Json::Text)));
    Json::Object(all)
}

fn number(page: &[u8], at: usize) -> u64 {
    let bytes = page[at..].first_chunk();
    bytes.map_or(0, |bytes| u64::from_le_bytes(*bytes))
}

fn checksum(page: &[u8]) -> u32 {
    number(page, 12) as u32
}

fn sum(page: &[u8]) -> u32 {
    library::crc32c(&page[HEAD_BYTES..])
}

fn slot_rule(page: &[u8], part: Part) -> String {
    let count = short(page, 10);
    let (start, end) = (short(page, 32), short(page, 34));
    match part {
        Part::ItemCount => format!("item count {count}, which should be at most {SLOT_LIMIT}"),
        Part::FreeStart => format!(
            "free start {start}, which should be {}, 4 times the item count {count}",
            4 * count
        ),
        Part::FreeEnd => {
            format!("free end {end}, which should be from {start}, the free start, to {BODY_BYTES}")
        }
        Part::Slot(slot) => format!("{}; {}", slot_words(page, slot), slot_fault(page, slot)),
    }
}

/// The offset and length of a slot.
fn slot_numbers(page: &[u8], slot: usize) -> (usize, usize) {
    let at = HEAD_BYTES + 4 * slot;
    (short(page, at), short(page, at + 2))
}

fn slot_words(page: &[u8], slot: usize) -> String {
    let (offset, length) = slot_numbers(page, slot);
    format!("slot {slot} has offset {offset} and length {length}")
}

/// The first rule that a slot breaks.
fn slot_fault(page: &[u8], slot: usize) -> String {
    let (offset, length) = slot_numbers(page, slot);
    let (end, free_end) = (offset + length, short(page, 34));
    if length < ROW_HEAD_BYTES {
        return format!("a length should be {ROW_HEAD_BYTES} or more, or both should be 0");
    }
    if offset < free_end {
        return format!("its offset should be {free_end}, the free end, or more");
    }
    if end > BODY_BYTES {
        return format!("its tuple should end at {BODY_BYTES} or before, and ends at {end}");
    }
    let deleted = page[HEAD_BYTES + offset + 16];
    if deleted > 1 {
        return format!("its tuple's deleted byte is {deleted}, which should be 0 or 1");
    }
    let shared = |earlier: usize| {
        let (other, its) = slot_numbers(page, earlier);
        (offset.max(other), end.min(other + its))
    };
    let first = (0..slot).find(|earlier| shared(*earlier).0 < shared(*earlier).1);
    first.map_or_else(String::new, |earlier| {
        let (from, to) = shared(earlier);
        format!(
            "it shares bytes {from} to {} of the body with another: {}",
            to - 1,
            slot_words(page, earlier)
        )
    })
}
