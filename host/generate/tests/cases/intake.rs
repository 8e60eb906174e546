//! Order payloads at every bound, marks that repeat and nearly do, and good pages that hold them.

use std::collections::BTreeMap;

use generate::{mark, order_payload, orders, Rng};
use oracle::{find_order, repeated_orders, verify};

#[test]
fn payloads_reach_every_bound() {
    let mut rng = Rng::new(9);
    let mut lengths = BTreeMap::new();
    for _ in 0..20_000 {
        let mark = mark(&mut rng);
        *lengths
            .entry(order_payload(&mut rng, mark).len())
            .or_insert(0) += 1;
    }
    for length in [0, 15, 16, 23, 24, 25] {
        assert!(lengths[&length] > 200, "{length}: {lengths:?}");
    }
    assert_eq!(lengths.len(), 55, "{lengths:?}");
}

#[test]
fn marks_are_few_and_differ_in_any_byte() {
    let mut rng = Rng::new(9);
    let marks: Vec<_> = (0..2_000).map(|_| mark(&mut rng)).collect();
    for byte in 0..16 {
        let differ_there_alone = marks.iter().any(|one| {
            marks
                .iter()
                .any(|other| (0..16).all(|at| (one[at] == other[at]) == (at != byte)))
        });
        assert!(differ_there_alone, "byte {byte}");
    }
}

#[test]
fn orders_are_good_pages_with_and_without_the_mark_and_a_pair() {
    let (mut found, mut repeated) = ([0; 2], [0; 2]);
    for seed in 0..500 {
        let mut rng = Rng::new(seed);
        let own = orders(&mut rng);
        assert_eq!(verify(own.magic, &own.pages).number, 0, "seed {seed}");
        let mark = mark(&mut rng);
        found[find_order(own.magic, &own.pages, &mark).found as usize] += 1;
        repeated[repeated_orders(own.magic, &own.pages).found as usize] += 1;
    }
    assert!(found.iter().all(|&times| times > 30), "{found:?}");
    assert!(repeated.iter().all(|&times| times > 100), "{repeated:?}");
}
