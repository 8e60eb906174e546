//! The case of a seed, and many seeds on all cores.

use std::ops::Range;
use std::panic::{catch_unwind, resume_unwind};
use std::sync::atomic::{AtomicU64, Ordering};
use std::thread;

use generate::Case;

use crate::check::check;
use crate::limits::limit;
use crate::seen::Seen;

/// The case of a seed: one at the limits, or a random one.
pub fn case(seed: u64) -> Case {
    limit(seed).unwrap_or_else(|| generate::case(seed))
}

/// What the comparison of one seed's case sees, with every answer told if it is wanted.
pub fn check_seed(seed: u64, tells: bool) -> Seen {
    let mut seen = Seen::telling(tells);
    check(&case(seed), &mut seen);
    seen
}

/// What the comparisons of all these seeds see.
pub fn sweep(seeds: Range<u64>) -> Seen {
    let cores = thread::available_parallelism().map_or(1, |cores| cores.get());
    let next = AtomicU64::new(seeds.start);
    let worker = || {
        let mut seen = Seen::default();
        loop {
            let seed = next.fetch_add(1, Ordering::Relaxed);
            if !seeds.contains(&seed) {
                return seen;
            }
            match catch_unwind(|| check_seed(seed, false)) {
                Ok(found) => seen.add(found),
                Err(_) => seen.differences.push(format!("seed {seed}: panicked")),
            }
        }
    };
    thread::scope(|scope| {
        let workers: Vec<_> = (0..cores).map(|_| scope.spawn(worker)).collect();
        let mut seen = Seen::default();
        for worker in workers {
            match worker.join() {
                Ok(found) => seen.add(found),
                Err(panic) => resume_unwind(panic),
            }
        }
        seen
    })
}
