//! Repaired pages: good in every layout with the same rows, and each thing wrong where it is said to be.

use std::collections::BTreeMap;

use generate::{
    bad_page, case, other_reserved, other_row, other_type, repacked, row_lost, row_twice,
    touched_pages, tuples_on, untouched_byte, Rng,
};
use oracle::{judge, recover, verify, Record};

#[test]
fn layouts_are_good_and_spoiled_pages_wrong_where_they_say() {
    let mut kinds: BTreeMap<&str, u64> = BTreeMap::new();
    for seed in 0..400 {
        let case = case(seed);
        let mut ours = case.pages.clone();
        let mut table = vec![Record::default(); case.log.len() / 43];
        let (magic, floor, log) = (case.magic, case.floor, &case.log);
        if recover(magic, floor, &mut ours, log, &mut table).number != 0 {
            continue;
        }
        let rng = &mut Rng::new(seed);
        let touched = touched_pages(log);
        let after = repacked(rng, &ours, &touched);
        assert_eq!(verify(magic, &after).number, 0, "seed {seed}");
        assert!(tuples_on(&after) == tuples_on(&ours), "seed {seed}");
        assert_eq!(judge(magic, floor, &case.pages, log, &after).differs, 0);
        let spoils = [
            other_row,
            row_twice,
            row_lost,
            other_reserved,
            other_type,
            untouched_byte,
        ];
        for spoil in spoils {
            let Some(spoiled) = spoil(rng, &after, &touched) else {
                continue;
            };
            let found = judge(magic, floor, &case.pages, log, &spoiled.pages);
            assert_eq!(
                (found.number, found.differs, found.page, found.slot),
                (0, 1, spoiled.page, spoiled.slot),
                "seed {seed}, {}",
                spoiled.kind
            );
            *kinds.entry(spoiled.kind).or_default() += 1;
        }
        if let Some(bad) = bad_page(rng, &after) {
            assert_ne!(verify(magic, &bad).number, 0, "seed {seed}");
            *kinds.entry("bad page").or_default() += 1;
        }
    }
    assert_eq!(kinds.len(), 9, "{kinds:?}");
    assert!(kinds.values().all(|&times| times > 5), "{kinds:?}");
}
