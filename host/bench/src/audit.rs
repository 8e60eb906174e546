//! Judging repaired pages beside recovery of the same: our own pages, and ours in another layout; and beside one
//! verification where the log touches no page.

use std::hint::black_box;
use std::time::Instant;

use bench::workload::{Input, MAGIC, SIZES, WORKLOADS};
use generate::{log_header, repacked, touched_pages, Rng};
use library::RECORD_NUMBERS;

const RUNS: usize = 5;

/// What judging should stay under, in terms of recovery.
const BOUND: f64 = 1.3;

/// Seconds that a call takes.
fn seconds<T>(call: impl FnOnce() -> T) -> f64 {
    let start = Instant::now();
    black_box(call());
    start.elapsed().as_secs_f64()
}

/// The pages that recovery leaves, and how long it takes.
fn recovered(input: &Input) -> (Vec<u8>, f64) {
    let mut pages = input.pages.clone();
    let mut table = vec![0; input.records * RECORD_NUMBERS];
    let time = seconds(|| {
        let answer = library::recover(MAGIC, 0, &mut pages, black_box(&input.log), &mut table);
        assert_eq!(answer.number, 0);
    });
    (pages, time)
}

fn judged(input: &Input, after: &[u8]) -> f64 {
    seconds(|| {
        let found = library::judge(MAGIC, 0, black_box(&input.pages), &input.log, after);
        assert_eq!((found.number, found.differs), (0, 0));
    })
}

fn measure(name: &str, input: &Input) {
    let (ours, _) = recovered(input);
    let touched = touched_pages(&input.log);
    let other = repacked(&mut Rng::new(1), &ours, &touched);
    let [mut recovery, mut own, mut layout] = [f64::MAX; 3];
    for _ in 0..RUNS {
        recovery = recovery.min(recovered(input).1);
        own = own.min(judged(input, &ours));
        layout = layout.min(judged(input, &other));
    }
    let verdict = |time: f64| match time <= BOUND * recovery {
        true => "as it should be",
        false => "TOO SLOW",
    };
    println!(
        "{name}, {} pages touched: recovery {:.2} ms; judging our own pages {:.2} ms, {:.2} times: {}; in another layout {:.2} ms, {:.2} times: {}",
        touched.len(),
        recovery * 1e3,
        own * 1e3,
        own / recovery,
        verdict(own),
        layout * 1e3,
        layout / recovery,
        verdict(layout)
    );
}

fn main() {
    let full = SIZES[0];
    for workload in &WORKLOADS {
        measure(
            &format!("({}) {}", workload.name, workload.about),
            &workload.input(full),
        );
    }
    let untouched = Input {
        log: log_header(&[0; 26]),
        records: 0,
        ..WORKLOADS[0].input(full)
    };
    measure("a log without entries", &untouched);
}
