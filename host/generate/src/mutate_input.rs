//! Mutations of whole inputs: page bytes, targets of changes, overfull pages,
//! the row that is asked for and the free map.

use crate::draft::Draft;
use crate::entry::{Entry, BEGIN, COMMIT, ROLLBACK};
use crate::mutate::Mutation;
use crate::mutate_page::add_data_page;
use crate::page::{other_page, put_u64, BODY_BYTES, FREE, PAGE_BYTES};
use crate::rng::Rng;
use crate::style::{any_tuple, LEAST_TUPLE};

pub const MUTATIONS: &[Mutation] = &[
    Mutation::new("page bytes no multiple", 1, ragged_pages),
    Mutation::new("change to a page beyond", 13, page_beyond),
    Mutation::new("change to a page of another type", 13, page_of_other_type),
    Mutation::new("change to a slot too far", 14, slot_too_far),
    Mutation::new("page overfull by one byte", 14, one_byte_over),
    Mutation::new("page overfull by its item count", 14, overfull_by_count),
    Mutation::new("page overfull by an old image", 14, overfull_by_old_image),
    Mutation::new("two overfull pages", 14, two_overfull),
    Mutation::new("overfull page and a page beyond", 13, overfull_and_beyond),
    Mutation::new("two pages beyond", 13, two_beyond),
    Mutation::new("page filled to the last byte", 0, exactly_full),
    Mutation::new("unended change to the last slot", 0, last_slot),
    Mutation::new("row on no page", 15, row_on_no_page),
    Mutation::new("free map too short", 16, map_too_short),
    Mutation::new("free map that just suffices", 0, map_just_enough),
    Mutation::new("too many pages", 1, too_many_pages).seldom(20),
    Mutation::new("pages of the largest number", 0, most_pages).seldom(60),
];

const MAX_PAGES: usize = 4_096;

fn ragged_pages(rng: &mut Rng, draft: &mut Draft) -> u64 {
    let more = *rng.pick(&[1, 64, 16_383]);
    if draft.pages.is_empty() || rng.one_in(2) {
        draft.pages.extend(rng.bytes(more));
    } else {
        draft.pages.truncate(draft.pages.len() - more);
    }
    0
}

/// Puts an Insert by transaction 0 in somewhere and gives its offset.
fn put_insert(rng: &mut Rng, draft: &mut Draft, page: u64) -> u64 {
    let slot = rng.next_u64() as u16;
    let tuple = any_tuple(rng, LEAST_TUPLE);
    let index = draft.any_gap(rng);
    draft.insert(index, Entry::insert(0, page, slot, &tuple));
    draft.offset(index)
}

fn page_beyond(rng: &mut Rng, draft: &mut Draft) -> u64 {
    let count = draft.page_count() as u64;
    let page = *rng.pick(&[count, count, count + 1, 1 << 32, u64::MAX]);
    put_insert(rng, draft, page)
}

fn page_of_other_type(rng: &mut Rng, draft: &mut Draft) -> u64 {
    let kind = *rng.pick(&[0, 2, 3, 4, 5, 6]);
    if draft.pages_of_data(false).is_empty() {
        let id = draft.page_count() as u64;
        let page = other_page(rng, draft.magic, kind, id, 0, &[7; 28]);
        draft.pages.extend(page);
    }
    let page = *rng.pick(&draft.pages_of_data(false));
    put_insert(rng, draft, page as u64)
}

fn slot_too_far(rng: &mut Rng, draft: &mut Draft) -> u64 {
    let index = add_data_page(rng, draft, &[], 0);
    let slot = *rng.pick(&[4_074, 4_075, 4_080, 16_384, 65_535]);
    let tuple = any_tuple(rng, LEAST_TUPLE);
    draft.append(Entry::insert(0, index as u64, slot, &tuple));
    index as u64
}

/// A fresh page with some tuples, and an Insert by transaction 0 that takes all
/// bytes that are left, and so many over.
fn fill_page(rng: &mut Rng, draft: &mut Draft, over: usize) -> usize {
    let lengths = [rng.size(24, 4_000), rng.size(24, 4_000)];
    let index = add_data_page(rng, draft, &[(0, lengths[0]), (2, lengths[1])], 0);
    let slot = *rng.pick(&[1, 3, 4, 20, 1_000]);
    let count = (slot as usize + 1).max(3);
    let length = BODY_BYTES - 4 * count - lengths[0] - lengths[1] + over;
    let tuple = any_tuple(rng, length);
    draft.append(Entry::insert(0, index as u64, slot, &tuple));
    index
}

fn one_byte_over(rng: &mut Rng, draft: &mut Draft) -> u64 {
    fill_page(rng, draft, 1) as u64
}

fn exactly_full(rng: &mut Rng, draft: &mut Draft) -> u64 {
    fill_page(rng, draft, 0);
    0
}

/// The log overfills the higher page first; the lower one is named.
fn two_overfull(rng: &mut Rng, draft: &mut Draft) -> u64 {
    let low = add_data_page(rng, draft, &[], 0);
    let high = add_data_page(rng, draft, &[], 0);
    let tuple = any_tuple(rng, LEAST_TUPLE);
    for page in [high, low] {
        draft.append(Entry::insert(0, page as u64, 4_074, &tuple));
    }
    low as u64
}

/// The change that overfills a page comes before the one to no page, which is
/// judged first all the same.
fn overfull_and_beyond(rng: &mut Rng, draft: &mut Draft) -> u64 {
    fill_page(rng, draft, 1);
    let beyond = draft.page_count() as u64;
    let tuple = any_tuple(rng, LEAST_TUPLE);
    draft.append(Entry::insert(0, beyond, 0, &tuple));
    draft.offset(draft.pieces.len() - 1)
}

/// The earlier of two changes to no page is named, though its page is higher.
fn two_beyond(rng: &mut Rng, draft: &mut Draft) -> u64 {
    let beyond = draft.page_count() as u64;
    let tuple = any_tuple(rng, LEAST_TUPLE);
    for page in [beyond + 1, beyond] {
        draft.append(Entry::insert(0, page, 0, &tuple));
    }
    draft.offset(draft.pieces.len() - 2)
}

/// A page whose own slots, all empty, leave no room for a tuple.
fn overfull_by_count(rng: &mut Rng, draft: &mut Draft) -> u64 {
    let count = *rng.pick(&[4_075, 4_080]);
    let index = add_data_page(rng, draft, &[], count);
    let tuple = any_tuple(rng, LEAST_TUPLE);
    draft.append(Entry::insert(0, index as u64, 0, &tuple));
    index as u64
}

/// A transaction that did not commit had made a tuple smaller, and another has
/// used the room and committed.
fn overfull_by_old_image(rng: &mut Rng, draft: &mut Draft) -> u64 {
    let large = any_tuple(rng, 10_000);
    let small = any_tuple(rng, LEAST_TUPLE);
    let second = any_tuple(rng, 8_000);
    let index = add_data_page(rng, draft, &[(0, LEAST_TUPLE), (1, 8_000)], 0);
    let page = index as u64;
    let number = draft.fresh_number(rng);
    draft.records += 2;
    draft.append(Entry::bare(number, BEGIN));
    draft.append(Entry::update(number, page, 0, &large, &small));
    let other = draft.fresh_number(rng);
    draft.append(Entry::bare(other, BEGIN));
    draft.append(Entry::insert(other, page, 1, &second));
    draft.append(Entry::bare(other, COMMIT));
    if rng.one_in(2) {
        draft.append(Entry::bare(number, ROLLBACK));
    }
    page
}

/// A page of 4,080 slots, the last of which an unended transaction has filled.
fn last_slot(rng: &mut Rng, draft: &mut Draft) -> u64 {
    let more = *rng.pick(&[0, 4_073, 4_080]);
    let index = add_data_page(rng, draft, &[], more);
    let number = draft.fresh_number(rng);
    let tuple = any_tuple(rng, LEAST_TUPLE);
    draft.records += 1;
    draft.append(Entry::bare(number, BEGIN));
    draft.append(Entry::insert(number, index as u64, 4_079, &tuple));
    0
}

fn row_on_no_page(rng: &mut Rng, draft: &mut Draft) -> u64 {
    let count = draft.page_count() as u64;
    draft.page = *rng.pick(&[count, count, count + 1, 1 << 48, u64::MAX]);
    0
}

fn map_too_short(rng: &mut Rng, draft: &mut Draft) -> u64 {
    while draft.page_count() == 0 || rng.one_in(3) {
        let id = draft.page_count() as u64;
        let page = other_page(rng, draft.magic, FREE, id, 0, &[0; 28]);
        draft.pages.extend(page);
    }
    draft.map_len = rng.index(draft.page_count().div_ceil(8));
    0
}

fn map_just_enough(rng: &mut Rng, draft: &mut Draft) -> u64 {
    let count = draft.page_count();
    let wanted = *rng.pick(&[8, 9, 16, 17]);
    for id in count..wanted {
        let kind = if rng.one_in(2) { FREE } else { 3 };
        let page = other_page(rng, draft.magic, kind, id as u64, 0, &[0; 28]);
        draft.pages.extend(page);
    }
    draft.map_len = draft.page_count().div_ceil(8);
    0
}

fn too_many_pages(rng: &mut Rng, draft: &mut Draft) -> u64 {
    let count = MAX_PAGES + rng.size(1, 2);
    fill_pages(rng, draft, count);
    0
}

fn most_pages(rng: &mut Rng, draft: &mut Draft) -> u64 {
    fill_pages(rng, draft, MAX_PAGES);
    draft.map_len = MAX_PAGES / 8;
    0
}

/// Adds good pages with one body until there are so many.
fn fill_pages(rng: &mut Rng, draft: &mut Draft, count: usize) {
    let mut page = other_page(rng, draft.magic, FREE, 0, 0, &[0; 28]);
    draft.pages.reserve(count * PAGE_BYTES);
    for id in draft.page_count()..count {
        put_u64(&mut page, 16, id as u64);
        draft.pages.extend(&page);
    }
}
