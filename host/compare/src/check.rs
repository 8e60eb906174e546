//! Every comparison on one case.

use generate::{Case, Rng, DATA};
use oracle::PAGE_BYTES;

use crate::seen::Seen;
use crate::{audit, catalog, doublewrite, intake, log, pages, recovery, rows, summary};

/// A case of more bytes, or of more pairs of slots that might share a byte, gets fewer calls.
const LIGHT_BYTES: usize = 2_000_000;
const LIGHT_PAIRS: u64 = 500_000;

/// Of the cases with still more pairs, three of four get one recovery and no other call over the pages.
const BRIEF_PAIRS: u64 = 4_000_000;

/// A case, with the random choices of where to look that belong to its seed.
pub(crate) struct Subject<'a> {
    pub case: &'a Case,
    pub rng: Rng,
    pub light: bool,
}

/// Compares both programs on every call of the C interface.
pub fn check(case: &Case, seen: &mut Seen) {
    seen.start(format!("seed {} ({})", case.seed, case.kind), case.kind);
    let mut subject = Subject {
        case,
        rng: Rng::new(!case.seed),
        light: case.pages.len() + case.log.len() <= LIGHT_BYTES && pairs(case) <= LIGHT_PAIRS,
    };
    log::compare(&mut subject, seen);
    catalog::compare(&mut subject, seen);
    intake::compare(&mut subject, seen);
    if pairs(case) > BRIEF_PAIRS && case.seed % 4 != 0 {
        recovery::compare_once(&mut subject, seen);
        return;
    }
    pages::compare(&mut subject, seen);
    rows::compare(&mut subject, seen);
    recovery::compare(&mut subject, seen);
    // Last, in the order in which they came, so that the calls above choose as they did before.
    summary::compare(&mut subject, seen);
    doublewrite::compare(&mut subject, seen);
    audit::compare(&mut subject, seen);
}

/// The pairs of slots on each Data page, all together.
fn pairs(case: &Case) -> u64 {
    let data = case
        .pages
        .chunks_exact(PAGE_BYTES)
        .filter(|page| page[8] == DATA);
    data.map(|page| u64::from(u16::from_le_bytes([page[10], page[11]])).pow(2) / 2)
        .sum()
}
