//! The proved library against the second program: random histories and damaged inputs, cuts with zeros behind them, the
//! sizes at the limits, the stack that the library may use, and its header.

mod caller;
mod cuts;
mod header;
mod limits;
mod maps;
mod orders;
mod seeds;
mod stack;
mod summaries;

use std::io::Write;

use compare::Seen;

/// Prints past the test harness, which keeps back what passing tests print.
fn tell(text: &str) {
    // Nothing depends on it, so a closed output is let pass.
    let _ = writeln!(std::io::stdout(), "{text}");
}

/// Fails with the first differences, if there are any.
fn assert_no_differences(seen: &Seen) {
    let shown: Vec<&str> = seen
        .differences
        .iter()
        .take(10)
        .map(String::as_str)
        .collect();
    assert!(
        seen.differences.is_empty(),
        "{} differences; a seed is replayed by `lumbraquay replay SEED`. The first:\n{}",
        seen.differences.len(),
        shown.join("\n")
    );
}
