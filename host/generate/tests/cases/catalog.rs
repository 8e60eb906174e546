//! Catalog payloads at every bound, and good pages that hold them.

use std::collections::{BTreeMap, BTreeSet};

use generate::{catalog, catalog_id, table_payload, Rng};
use oracle::{table_find, table_read, verify};

/// Where a payload ends that is cut one byte short of a field, as the field's name; else none.
fn short_of(payload: &[u8]) -> Option<&'static str> {
    let schema = payload.get(12).map(|&length| 13 + length as usize);
    let name = schema.and_then(|at| payload.get(at).map(|&length| at + 1 + length as usize));
    let last = payload.len() + 1;
    match last {
        4 => Some("table id"),
        12 => Some("root page"),
        13 => Some("schema length"),
        _ if Some(last) == schema => Some("schema"),
        _ if schema.is_some_and(|at| last == at + 1) => Some("name length"),
        _ if Some(last) == name => Some("name"),
        _ => None,
    }
}

#[test]
fn payloads_reach_every_bound() {
    let mut rng = Rng::new(7);
    let (mut short, mut after, mut numbers) = (BTreeMap::new(), BTreeSet::new(), BTreeMap::new());
    for _ in 0..20_000 {
        let id = catalog_id(&mut rng);
        let payload = table_payload(&mut rng, id);
        let read = table_read(&payload);
        *numbers.entry(read.number).or_insert(0) += 1;
        match read.number {
            34 => {
                if let Some(field) = short_of(&payload) {
                    *short.entry(field).or_insert(0) += 1;
                }
            }
            _ => {
                let schema = payload[12] as usize;
                let name = payload[13 + schema] as usize;
                after.insert(payload.len() - 14 - schema - name);
            }
        }
    }
    assert_eq!(short.len(), 6, "{short:?}");
    assert!(short.values().all(|&times| times > 50), "{short:?}");
    assert_eq!(after, (0..=12).collect());
    for number in [0, 34, 35, 36] {
        assert!(numbers[&number] > 500, "{number}: {numbers:?}");
    }
}

#[test]
fn catalogs_are_good_pages_with_and_without_the_table() {
    let mut found = [0; 2];
    for seed in 0..500 {
        let mut rng = Rng::new(seed);
        let own = catalog(&mut rng);
        assert_eq!(verify(own.magic, &own.pages).number, 0, "seed {seed}");
        let id = catalog_id(&mut rng);
        found[table_find(own.magic, &own.pages, id).found as usize] += 1;
    }
    assert!(found.iter().all(|&times| times > 50), "{found:?}");
}
