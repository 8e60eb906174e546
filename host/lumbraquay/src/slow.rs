//! A line for whoever waits: what a run does that takes longer than two seconds.

use std::sync::atomic::{AtomicUsize, Ordering};
use std::thread;
use std::time::Duration;

use crate::failure::note;

const PATIENCE: Duration = Duration::from_secs(2);

/// What a run does at a time.
const WORKS: [&str; 7] = [
    "the work",
    "reading",
    "repairing",
    "recovering",
    "writing",
    "showing",
    "comparing",
];

#[derive(Clone, Copy)]
pub enum Work {
    Reading = 1,
    Repairing,
    Recovering,
    Writing,
    Showing,
    Comparing,
}

static AT: AtomicUsize = AtomicUsize::new(0);

/// Says what is done from now on.
pub fn at(work: Work) {
    AT.store(work as usize, Ordering::Relaxed);
}

/// Tells once what is done after two seconds. Without a thread for it, nothing is told.
pub fn watch() {
    let thread = thread::Builder::new().stack_size(1 << 16);
    let _ = thread.spawn(|| {
        thread::sleep(PATIENCE);
        let work = WORKS[AT.load(Ordering::Relaxed) % WORKS.len()];
        note(format_args!("{work} takes longer than two seconds"));
    });
}
