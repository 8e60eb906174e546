//! Double-write files are answered as they were made to be, and torn pages are torn.

use std::collections::BTreeMap;

use generate::{doublewrite_file, file_kinds, page_list, plain_page, torn, Rng};
use oracle::{crc32c, doublewrite_read, doublewrite_write, repair, verify, PAGE_BYTES};

const MAGIC: u64 = 77;

fn pages(count: u64) -> Vec<u8> {
    (0..count)
        .flat_map(|id| plain_page(MAGIC, 2, id, 9))
        .collect()
}

#[test]
fn every_kind_of_file_is_answered_as_it_aims() {
    let mut rng = Rng::new(3);
    let mut kinds: BTreeMap<&str, u64> = BTreeMap::new();
    for round in 0..4_000 {
        let lent = rng.below(5);
        let copies = torn(&mut rng, &pages(lent), None, true).copies;
        let file = doublewrite_file(&mut rng, lent, &copies);
        let answer = doublewrite_read(&file.bytes, lent);
        assert_eq!(
            (answer.number, answer.place),
            (file.number, 0),
            "{} in round {round}",
            file.kind
        );
        *kinds.entry(file.kind).or_default() += 1;
    }
    for kind in file_kinds() {
        assert!(kinds.get(kind) >= Some(&50), "{kind}: {kinds:?}");
    }
}

/// With a copy for every torn page a repair brings back the pages, or the earlier ones that were copied.
#[test]
fn mendable_pages_are_mended() {
    let mut rng = Rng::new(4);
    let (mut restored, mut back) = (0, 0);
    for _ in 0..500 {
        let count = rng.below(6);
        let whole = pages(count);
        let mut torn = torn(&mut rng, &whole, None, true);
        let file = doublewrite_file(&mut rng, count, &torn.copies);
        let answer = repair(MAGIC, &mut torn.pages, &file.bytes);
        if file.number == 0 {
            assert!(torn.pages == whole);
            assert_eq!(verify(MAGIC, &torn.pages).number, 0);
            restored += answer.restored;
            back += 1;
        }
    }
    assert!(
        restored > 200 && back > 200,
        "{restored} pages, {back} times"
    );
}

/// Of other pages some are torn, with a good copy, with one that is not good and with none, and some are not torn but bad.
#[test]
fn pages_are_torn_in_every_way() {
    let mut rng = Rng::new(5);
    let mut seen: BTreeMap<(bool, bool, bool), u64> = BTreeMap::new();
    for _ in 0..300 {
        let whole = pages(6);
        let torn = torn(&mut rng, &whole, None, false);
        for (index, page) in (0u64..).zip(torn.pages.chunks(PAGE_BYTES)) {
            let is_torn = page[12..16] != crc32c(&page[64..]).to_le_bytes();
            let is_whole = page == &whole[index as usize * PAGE_BYTES..][..PAGE_BYTES];
            let copy = torn.copies.iter().find(|(id, _)| *id == index);
            *seen.entry((is_torn, is_whole, copy.is_some())).or_default() += 1;
        }
    }
    for state in [
        (true, false, true),
        (true, false, false),
        (false, false, true),
        (false, true, true),
        (false, true, false),
    ] {
        assert!(seen.get(&state) >= Some(&50), "{state:?}: {seen:?}");
    }
}

#[test]
fn lists_rise_or_break_the_rule() {
    let mut rng = Rng::new(6);
    let mut answers: BTreeMap<u64, u64> = BTreeMap::new();
    let lent = pages(6);
    for _ in 0..1_000 {
        let list = page_list(&mut rng, 6);
        let mut area = vec![0; 24 + 16_392 * list.len()];
        let answer = doublewrite_write(&lent, &list, &mut area);
        *answers.entry(answer.number).or_default() += 1;
        let rises = list.windows(2).all(|two| two[0] < two[1]);
        assert_eq!(answer.number == 0, rises && list.iter().all(|it| *it < 6));
    }
    assert!(answers[&0] > 300 && answers[&25] > 300, "{answers:?}");
}
