//! Mutations of pages: every rule of a good page broken by itself, or met at
//! its very edge, and page LSNs that are too high.

use crate::draft::Draft;
use crate::mutate::Mutation;
use crate::page::{any_reserved, data_page, get_u16, get_u64, other_page, put_u16, put_u64};
use crate::page::{seal_page, DataPage, Slots, BODY_BYTES, DATA, PAGE_BYTES, PAGE_HEADER_BYTES};
use crate::rng::Rng;
use crate::style::{any_page, any_tuple, Style, LEAST_TUPLE};

pub const MUTATIONS: &[Mutation] = &[
    Mutation::new("page magic", 11, magic),
    Mutation::new("page type", 11, page_type),
    Mutation::new("page id", 17, page_id),
    Mutation::new("page checksum", 18, checksum),
    Mutation::new("bit of a page body", 18, body_bit),
    Mutation::new("item count over 4,080", 19, item_count_high),
    Mutation::new("item count beside free start", 19, item_count),
    Mutation::new("free start", 19, free_start),
    Mutation::new("free end below free start", 19, free_end_low),
    Mutation::new("free end past the body", 19, free_end_past_body),
    Mutation::new("free end inside a tuple", 19, free_end_inside_tuple),
    Mutation::new("slot of length below 24", 19, slot_too_short),
    Mutation::new("slot below free end", 19, slot_below_free_end),
    Mutation::new("slot past the body", 19, slot_past_body),
    Mutation::new("last slot of a full directory", 19, last_slot),
    Mutation::new("deleted byte of a tuple", 19, deleted_byte),
    Mutation::new("tuples sharing a byte", 19, shared_byte),
    Mutation::new("tuple inside another", 19, nested_tuples),
    Mutation::new("page of another file, misplaced", 11, magic_and_id),
    Mutation::new("misplaced page, torn", 17, id_and_checksum),
    Mutation::new("torn page with a broken slot rule", 18, checksum_and_slots),
    Mutation::new("two pages bad in different ways", 19, two_bad_pages),
    Mutation::new("tuples that just touch", 0, touching_tuples),
    Mutation::new("tuple from free end to the body's end", 0, whole_body),
    Mutation::new("page with 4,080 empty slots", 0, most_slots),
    Mutation::new("page with no slots", 0, no_slots),
    Mutation::new("page LSN too high", 12, lsn_too_high),
    Mutation::new("page LSN too high on a torn page", 18, lsn_too_high_torn),
    Mutation::new(
        "page LSN too high beside a broken slot rule",
        19,
        lsn_too_high_slots,
    ),
    Mutation::new(
        "page LSN too high before a bad page",
        12,
        lsn_too_high_before,
    ),
    Mutation::new("page LSN at the bound", 0, lsn_at_bound),
];

/// Where a field or slot at an offset of a page stands in the page area.
fn in_area(index: usize, at: usize) -> u64 {
    (index * PAGE_BYTES + at) as u64
}

/// Where a slot of a page stands in the page area.
fn slot_in_area(index: usize, slot: usize) -> u64 {
    in_area(index, PAGE_HEADER_BYTES + 4 * slot)
}

/// Adds a good Data page with these slots and an item count that is larger than
/// the lowest by `more`; gives its index.
pub fn add_data_page(rng: &mut Rng, draft: &mut Draft, slots: &[(u16, usize)], more: u16) -> usize {
    let index = draft.page_count();
    let mut filled = Slots::new();
    for &(slot, length) in slots {
        filled.insert(slot, any_tuple(rng, length));
    }
    let least = slots.iter().map(|&(slot, _)| slot + 1).max().unwrap_or(0);
    let parts = DataPage {
        magic: draft.magic,
        flags: rng.byte(),
        count: least + more,
        id: index as u64,
        lsn: 0,
        reserved: any_reserved(rng),
        slots: filled,
    };
    let page = data_page(rng, &parts);
    draft.pages.extend(page);
    draft.map_len = draft.map_len.max(draft.page_count().div_ceil(8));
    index
}

/// A page of the input; if it has none, one is added.
fn some_page(rng: &mut Rng, draft: &mut Draft) -> usize {
    if draft.page_count() == 0 || rng.one_in(5) {
        let index = draft.page_count();
        let page = any_page(rng, Style::Calm, draft.magic, index as u64, 0);
        draft.pages.extend(page);
    }
    rng.index(draft.page_count())
}

/// Puts a page in the place of one of the input's, or after the last.
fn put_page(rng: &mut Rng, draft: &mut Draft, build: impl Fn(&mut Rng, u64) -> Vec<u8>) -> usize {
    let index = rng.size(0, draft.page_count());
    let page = build(rng, index as u64);
    if index == draft.page_count() {
        draft.pages.extend(page);
    } else {
        draft.page_mut(index).copy_from_slice(&page);
    }
    index
}

/// A Data page with a free end and slots as they are given, good or not, and a
/// right checksum; every tuple that stands in the body has a deleted byte of 0.
fn raw_page(
    rng: &mut Rng,
    magic: u64,
    id: u64,
    free_end: usize,
    slots: &[(usize, usize)],
) -> Vec<u8> {
    let reserved = any_reserved(rng);
    let mut page = other_page(rng, magic, DATA, id, 0, &reserved);
    put_u16(&mut page, 10, slots.len() as u16);
    put_u16(&mut page, 32, 4 * slots.len() as u16);
    put_u16(&mut page, 34, free_end as u16);
    for (slot, &(offset, length)) in slots.iter().enumerate() {
        let at = PAGE_HEADER_BYTES + 4 * slot;
        put_u16(&mut page, at, offset as u16);
        put_u16(&mut page, at + 2, length as u16);
        if let Some(deleted) = page.get_mut(PAGE_HEADER_BYTES + offset + 16) {
            if length > 16 {
                *deleted = 0;
            }
        }
    }
    seal_page(&mut page);
    page
}

/// Puts a Data page in that is given by its free end and slots; gives its index.
fn put_raw(rng: &mut Rng, draft: &mut Draft, free_end: usize, slots: &[(usize, usize)]) -> usize {
    let magic = draft.magic;
    put_page(rng, draft, |rng, id| {
        raw_page(rng, magic, id, free_end, slots)
    })
}

/// Adds a Data page that is given by its free end and slots, and is good.
fn add_raw(rng: &mut Rng, draft: &mut Draft, free_end: usize, slots: &[(usize, usize)]) -> u64 {
    let id = draft.page_count() as u64;
    let page = raw_page(rng, draft.magic, id, free_end, slots);
    draft.pages.extend(page);
    draft.map_len = draft.map_len.max(draft.page_count().div_ceil(8));
    0
}

fn magic(rng: &mut Rng, draft: &mut Draft) -> u64 {
    let index = some_page(rng, draft);
    draft.page_mut(index)[rng.index(8)] ^= 1 << rng.below(8);
    index as u64
}

fn page_type(rng: &mut Rng, draft: &mut Draft) -> u64 {
    let index = some_page(rng, draft);
    draft.page_mut(index)[8] = *rng.pick(&[7, 7, 8, 100, 255]);
    index as u64
}

fn page_id(rng: &mut Rng, draft: &mut Draft) -> u64 {
    let index = some_page(rng, draft);
    let id = index as u64;
    let other = *rng.pick(&[id + 1, id.wrapping_sub(1), id + (1 << 32), u64::MAX - id]);
    put_u64(draft.page_mut(index), 16, other);
    id
}

fn checksum(rng: &mut Rng, draft: &mut Draft) -> u64 {
    let index = some_page(rng, draft);
    draft.page_mut(index)[12 + rng.index(4)] ^= 1 << rng.below(8);
    index as u64
}

fn body_bit(rng: &mut Rng, draft: &mut Draft) -> u64 {
    let index = some_page(rng, draft);
    let at = rng.size(PAGE_HEADER_BYTES, PAGE_BYTES - 1);
    draft.page_mut(index)[at] ^= 1 << rng.below(8);
    index as u64
}

/// The slots that are filled on a sample page, of four.
const SAMPLE_SLOTS: [usize; 3] = [0, 1, 3];

/// A good Data page with some tuples and an empty slot put in; gives its index.
fn sample_page(rng: &mut Rng, draft: &mut Draft) -> usize {
    let magic = draft.magic;
    put_page(rng, draft, |rng, id| {
        let mut slots = Slots::new();
        for slot in SAMPLE_SLOTS {
            let length = rng.size(LEAST_TUPLE, 70);
            slots.insert(slot as u16, any_tuple(rng, length));
        }
        let parts = DataPage {
            magic,
            flags: rng.byte(),
            count: 4,
            id,
            lsn: 0,
            reserved: any_reserved(rng),
            slots,
        };
        data_page(rng, &parts)
    })
}

/// A number of a sample page's header replaced; gives where it stands.
fn header_number(rng: &mut Rng, draft: &mut Draft, at: usize, numbers: &[u16]) -> usize {
    let index = sample_page(rng, draft);
    let number = *rng.pick(numbers);
    put_u16(draft.page_mut(index), at, number);
    index
}

fn item_count_high(rng: &mut Rng, draft: &mut Draft) -> u64 {
    // With 16,388 slots, 4 x item count is 16 again in 16 bits.
    let index = header_number(rng, draft, 10, &[4_081, 4_081, 16_388, 65_535]);
    in_area(index, 10)
}

/// The count is none that a page cannot have: the free start is at fault.
fn item_count(rng: &mut Rng, draft: &mut Draft) -> u64 {
    let index = header_number(rng, draft, 10, &[0, 3, 5, 4_080]);
    in_area(index, 32)
}

fn free_start(rng: &mut Rng, draft: &mut Draft) -> u64 {
    let index = header_number(rng, draft, 32, &[0, 12, 15, 17, 20, 64]);
    in_area(index, 32)
}

fn free_end_low(rng: &mut Rng, draft: &mut Draft) -> u64 {
    let index = header_number(rng, draft, 34, &[15, 15, 12, 0]);
    in_area(index, 34)
}

fn free_end_past_body(rng: &mut Rng, draft: &mut Draft) -> u64 {
    let end = *rng.pick(&[16_321, 16_321, 16_384, 65_535]);
    let slots = vec![(0, 0); rng.index(5)];
    in_area(put_raw(rng, draft, end, &slots), 34)
}

/// The slot whose tuple starts lowest is then below free end, and no other.
fn free_end_inside_tuple(rng: &mut Rng, draft: &mut Draft) -> u64 {
    let index = sample_page(rng, draft);
    let page = draft.page_mut(index);
    let offset = |slot: &usize| get_u16(page, PAGE_HEADER_BYTES + 4 * slot);
    let slot = SAMPLE_SLOTS.into_iter().min_by_key(offset).expect("a slot");
    let end = offset(&slot) + rng.between(1, 24) as u16;
    put_u16(page, 34, end);
    slot_in_area(index, slot)
}

fn slot_too_short(rng: &mut Rng, draft: &mut Draft) -> u64 {
    let index = sample_page(rng, draft);
    let length = *rng.pick(&[23, 23, 16, 1, 0]);
    let slot = *rng.pick(&SAMPLE_SLOTS);
    let page = draft.page_mut(index);
    put_u16(page, PAGE_HEADER_BYTES + 4 * slot + 2, length);
    seal_page(page);
    slot_in_area(index, slot)
}

fn slot_below_free_end(rng: &mut Rng, draft: &mut Draft) -> u64 {
    let free_end = rng.size(200, 16_000);
    let low = *rng.pick(&[free_end - 1, free_end - 1, free_end - 24, 0]);
    let index = put_raw(rng, draft, free_end, &[(0, 0), (low, LEAST_TUPLE)]);
    slot_in_area(index, 1)
}

fn slot_past_body(rng: &mut Rng, draft: &mut Draft) -> u64 {
    let length = *rng.pick(&[24, 24, 100, 65_535]);
    let offset = match rng.below(3) {
        0 => 65_535,
        1 => BODY_BYTES,
        _ => BODY_BYTES.saturating_sub(length) + 1,
    };
    let index = put_raw(rng, draft, 8, &[(offset.max(8), length), (0, 0)]);
    slot_in_area(index, 0)
}

/// The last slot that a body has room for: no byte is left for its tuple.
fn last_slot(rng: &mut Rng, draft: &mut Draft) -> u64 {
    let mut slots = [(0, 0); 4_080];
    slots[4_079] = (BODY_BYTES - LEAST_TUPLE, LEAST_TUPLE);
    let index = put_raw(rng, draft, BODY_BYTES, &slots);
    slot_in_area(index, 4_079)
}

fn deleted_byte(rng: &mut Rng, draft: &mut Draft) -> u64 {
    let index = sample_page(rng, draft);
    let deleted = *rng.pick(&[2, 2, 3, 128, 255]);
    let slot = *rng.pick(&SAMPLE_SLOTS);
    let page = draft.page_mut(index);
    let offset = get_u16(page, PAGE_HEADER_BYTES + 4 * slot) as usize;
    page[PAGE_HEADER_BYTES + offset + 16] = deleted;
    seal_page(page);
    slot_in_area(index, slot)
}

/// Two tuples, one behind the other, and empty slots around them.
fn two_tuples(rng: &mut Rng, shared: usize) -> (usize, Vec<(usize, usize)>) {
    let first = rng.size(LEAST_TUPLE, 90);
    let second = rng.size(LEAST_TUPLE, 90);
    let low = rng.size(300, 16_000);
    let mut slots = vec![(low, first), (low + first - shared, second)];
    for _ in 0..rng.below(4) {
        slots.push((0, 0));
    }
    rng.shuffle(&mut slots);
    let free_end = if rng.one_in(2) { low } else { 4 * slots.len() };
    (free_end, slots)
}

/// The later of two filled slots, which shares a byte with the earlier one.
fn later_slot(slots: &[(usize, usize)]) -> usize {
    let filled = slots.iter().rposition(|&slot| slot != (0, 0));
    filled.expect("a filled slot")
}

fn shared_byte(rng: &mut Rng, draft: &mut Draft) -> u64 {
    let shared = *rng.pick(&[1, 1, 1, 7, 24]);
    let (free_end, slots) = two_tuples(rng, shared);
    let index = put_raw(rng, draft, free_end, &slots);
    slot_in_area(index, later_slot(&slots))
}

fn nested_tuples(rng: &mut Rng, draft: &mut Draft) -> u64 {
    let outer = (rng.size(300, 15_000), 200);
    let inner = *rng.pick(&[
        (outer.0 + 60, 24),
        (outer.0, 200),
        (outer.0, 24),
        (outer.0 + 176, 24),
    ]);
    let mut slots = [outer, inner, (0, 0)];
    rng.shuffle(&mut slots);
    let index = put_raw(rng, draft, 12, &slots);
    slot_in_area(index, later_slot(&slots))
}

// Two faults of one page, of which the one that is judged first is given; and
// two bad pages, of which the lower is.

fn magic_and_id(rng: &mut Rng, draft: &mut Draft) -> u64 {
    let index = page_id(rng, draft) as usize;
    draft.page_mut(index)[rng.index(8)] ^= 1 << rng.below(8);
    index as u64
}

fn id_and_checksum(rng: &mut Rng, draft: &mut Draft) -> u64 {
    let index = page_id(rng, draft) as usize;
    draft.page_mut(index)[12 + rng.index(4)] ^= 1 << rng.below(8);
    index as u64
}

fn checksum_and_slots(rng: &mut Rng, draft: &mut Draft) -> u64 {
    let place = match rng.below(3) {
        0 => free_start(rng, draft),
        1 => free_end_past_body(rng, draft),
        _ => shared_byte(rng, draft),
    };
    let index = place as usize / PAGE_BYTES;
    draft.page_mut(index)[12 + rng.index(4)] ^= 1 << rng.below(8);
    index as u64
}

fn two_bad_pages(rng: &mut Rng, draft: &mut Draft) -> u64 {
    let lower = match rng.below(2) {
        0 => free_end_low(rng, draft),
        _ => shared_byte(rng, draft),
    };
    let higher = add_data_page(rng, draft, &[(0, LEAST_TUPLE)], 0);
    match rng.below(3) {
        0 => draft.page_mut(higher)[0] ^= 1,
        1 => put_u64(draft.page_mut(higher), 16, 0),
        _ => draft.page_mut(higher)[100] ^= 1,
    }
    lower
}

fn touching_tuples(rng: &mut Rng, draft: &mut Draft) -> u64 {
    let (free_end, slots) = two_tuples(rng, 0);
    add_raw(rng, draft, free_end, &slots)
}

fn whole_body(rng: &mut Rng, draft: &mut Draft) -> u64 {
    let count = rng.size(1, 3);
    let mut slots = vec![(0, 0); count];
    slots[rng.index(count)] = (4 * count, BODY_BYTES - 4 * count);
    add_raw(rng, draft, 4 * count, &slots)
}

fn most_slots(rng: &mut Rng, draft: &mut Draft) -> u64 {
    add_raw(rng, draft, BODY_BYTES, &[(0, 0); 4_080])
}

fn no_slots(rng: &mut Rng, draft: &mut Draft) -> u64 {
    let free_end = *rng.pick(&[0, 1, 8_000, BODY_BYTES]);
    add_raw(rng, draft, free_end, &[])
}

/// Lowers the floor and all page LSNs to the last LSN at most, so that one page
/// alone decides.
fn lower_lsns(draft: &mut Draft) -> u64 {
    let last = draft.last_lsn();
    draft.floor = draft.floor.min(last);
    for index in 0..draft.page_count() {
        let page = draft.page_mut(index);
        let lsn = get_u64(page, 24).min(last);
        put_u64(page, 24, lsn);
    }
    last
}

fn lsn_too_high(rng: &mut Rng, draft: &mut Draft) -> u64 {
    let index = some_page(rng, draft);
    let last = lower_lsns(draft);
    let lsn = *rng.pick(&[last + 1, last + 1, last + 2, u64::MAX]);
    put_u64(draft.page_mut(index), 24, lsn);
    if lsn > last + 1 && rng.one_in(2) {
        draft.floor = lsn - 1;
    }
    index as u64
}

fn lsn_too_high_torn(rng: &mut Rng, draft: &mut Draft) -> u64 {
    let index = lsn_too_high(rng, draft);
    draft.page_mut(index as usize)[100] ^= 1;
    index
}

fn lsn_too_high_slots(rng: &mut Rng, draft: &mut Draft) -> u64 {
    let last = lower_lsns(draft);
    let place = slot_too_short(rng, draft);
    put_u64(draft.page_mut(place as usize / PAGE_BYTES), 24, last + 1);
    place
}

fn lsn_too_high_before(rng: &mut Rng, draft: &mut Draft) -> u64 {
    let last = lower_lsns(draft);
    let high = add_data_page(rng, draft, &[(0, LEAST_TUPLE)], 0);
    put_u64(draft.page_mut(high), 24, last + 1);
    let spoiled = add_data_page(rng, draft, &[(0, LEAST_TUPLE)], 0);
    match rng.below(3) {
        0 => draft.page_mut(spoiled)[0] ^= 1,
        1 => put_u64(draft.page_mut(spoiled), 16, 1 << 40),
        _ => draft.page_mut(spoiled)[100] ^= 1,
    }
    high as u64
}

fn lsn_at_bound(rng: &mut Rng, draft: &mut Draft) -> u64 {
    let index = some_page(rng, draft);
    draft.map_len = draft.map_len.max(draft.page_count().div_ceil(8));
    let last = lower_lsns(draft);
    let lsn = *rng.pick(&[last, last + 1, u64::MAX]);
    put_u64(draft.page_mut(index), 24, lsn);
    draft.floor = draft.floor.max(if lsn > last { lsn } else { 0 });
    0
}
