//! The sizes at the limits, and one more of each.

use compare::{case, limits, sweep};
use library::{LOG_LIMIT_BYTES, PAGE_BYTES, PAGE_LIMIT};

use crate::{assert_no_differences, tell};

/// Both programs agree on every case, and recovery answers what the case was made for.
#[test]
fn both_programs_agree_at_the_limits() {
    let count = limits().count() as u64;
    let first = limits().map(|(seed, _, _)| seed).min().expect("a case");
    let seen = sweep(first..first + count);
    for (seed, name, number) in limits() {
        tell(&format!("seed {seed}: {name}, answer {number}"));
        assert_eq!(seen.kinds.get(name), Some(&1), "{name}");
    }
    assert_no_differences(&seen);
    assert_eq!(seen.cases, count);
    assert!(seen.events("aim") >= count);
    assert!(seen.events("repeated recovery") >= 2);
}

/// The cases have the sizes that their names say.
#[test]
fn the_cases_are_at_the_limits() {
    let named = |wanted: &str| {
        let found = limits().find(|(_, name, _)| *name == wanted);
        case(found.expect("a case of this name").0)
    };
    let sizes = |name: &str| {
        let case = named(name);
        (case.pages.len(), case.log.len())
    };
    let most = PAGE_LIMIT * PAGE_BYTES;
    assert_eq!(sizes("every limit at once"), (most, LOG_LIMIT_BYTES));
    assert_eq!(sizes("the most pages").0, most);
    assert_eq!(sizes("one page more").0, most + PAGE_BYTES);
    assert_eq!(sizes("one page byte more").0, most + 1);
    assert_eq!(sizes("the longest log").1, LOG_LIMIT_BYTES);
    assert_eq!(sizes("the longest log, torn").1, LOG_LIMIT_BYTES);
    let all_zero = named("the longest log, all zero").log;
    assert_eq!(all_zero.len(), LOG_LIMIT_BYTES);
    assert!(all_zero[32..].iter().all(|&byte| byte == 0));
    assert_eq!(sizes("one log byte more").1, LOG_LIMIT_BYTES + 1);
    assert!(named("as many transactions as fit").records == (LOG_LIMIT_BYTES - 32) / 43);

    let step = library::log_forward(&named("the longest entries").log, 75);
    assert_eq!(step.length, 32_705);
    let all_slots = named("all slots, none filled");
    assert_eq!(all_slots.pages[10..12], 4_080u16.to_le_bytes());
}
