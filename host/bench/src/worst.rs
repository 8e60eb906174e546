//! Recovery on logs that are made to cost searches, at half and at full size, beside the ordinary log (b) of the same size.

use std::hint::black_box;

use bench::seconds;
use bench::workload::{Input, Size, MAGIC, SIZES, WORKLOADS, WORST};
use library::RECORD_NUMBERS;

/// A log that takes longer than this is run once.
const LONG: f64 = 1.0;
const RUNS: usize = 5;

/// At most so many times the ordinary log, and time at most this many times as fast as bytes.
const MOST_OF_ORDINARY: f64 = 10.0;
const MOST_GROWTH: f64 = 1.3;

/// The best time of some runs, and the number of the answer.
fn time(input: &Input) -> (f64, u64) {
    let mut best = f64::INFINITY;
    let mut number = 0;
    for _ in 0..RUNS {
        let mut pages = input.pages.clone();
        let mut table = vec![1; input.records * RECORD_NUMBERS];
        let taken = seconds(|| {
            number = black_box(library::recover(
                MAGIC, 0, &mut pages, &input.log, &mut table,
            ))
            .number;
        });
        best = best.min(taken);
        if best > LONG {
            break;
        }
    }
    (best, number)
}

struct Row {
    name: &'static str,
    about: &'static str,
    times: Vec<f64>,
    number: u64,
}

fn row(
    name: &'static str,
    about: &'static str,
    sizes: &[Size],
    input: impl Fn(Size) -> Input,
) -> Row {
    let (times, numbers): (Vec<f64>, Vec<u64>) =
        sizes.iter().map(|&size| time(&input(size))).unzip();
    Row {
        name,
        about,
        times,
        number: numbers[0],
    }
}

fn main() {
    let sizes = &SIZES[..2];
    let ordinary = &WORKLOADS[1];
    let mut rows = vec![row(ordinary.name, ordinary.about, sizes, |size| {
        ordinary.input(size)
    })];
    for workload in &WORST {
        rows.push(row(workload.name, workload.about, sizes, |size| {
            workload.input(size)
        }));
    }
    rows.push(row("unlent", "half the pages are lent", sizes, |size| {
        let mut input = ordinary.input(size);
        input.pages.truncate(input.pages.len() / 2);
        input
    }));

    println!("Recovery on logs made to cost searches; milliseconds, best of {RUNS}, or one run above a second");
    println!(
        "{:<44}{:>10}{:>10}{:>14}{:>10}{:>8}",
        "", "half", "full", "of ordinary", "growth", "answer"
    );
    let (mut worst, mut growth) = (0.0f64, 0.0f64);
    for it in &rows {
        let of = it.times[0] / rows[0].times[0];
        let bytes = sizes[0].bytes() as f64 / sizes[1].bytes() as f64;
        let grows = it.times[0] / it.times[1] / bytes;
        println!(
            "({}) {:<width$}{:>10.1}{:>10.1}{:>14.2}{:>10.2}{:>8}",
            it.name,
            it.about,
            it.times[1] * 1e3,
            it.times[0] * 1e3,
            of,
            grows,
            it.number,
            width = 41 - it.name.len()
        );
        worst = worst.max(of);
        growth = growth.max(grows);
    }
    let word = |met: bool| if met { "met" } else { "missed" };
    println!(
        "\n{:>8}  full size in terms of the ordinary log: {worst:.2}, at most {MOST_OF_ORDINARY}",
        word(worst <= MOST_OF_ORDINARY)
    );
    println!(
        "{:>8}  growth of time in terms of bytes: {growth:.2}, at most {MOST_GROWTH}",
        word(growth <= MOST_GROWTH)
    );
}
