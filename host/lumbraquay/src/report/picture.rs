//! The pictures of a report: the pages as a grid, and the transactions as bars over the log.

use std::cmp::Reverse;
use std::collections::BTreeMap;

use library::{Record, Step, ENDED_EXACTLY, PAGE_BYTES};

use crate::mended::Mended;
use crate::show;
use crate::tuple::short;
use crate::walk;

use super::tables::class;

/// The bytes of a page that slots and tuples share.
const BODY_BYTES: usize = 16_320;

/// Pages in a row of the grid, and the sides of a page's cell.
const COLUMNS: usize = 64;
const FEW_COLUMNS: usize = 16;
const CELL: usize = 14;
const LARGE_CELL: usize = 34;

/// How many transactions are drawn at most: first those that never ended, then those with the most changes.
const MOST_BARS: usize = 60;
const BAR: usize = 16;

/// The width of the log, and the room for names before it.
const WIDTH: f64 = 900.0;
const LEFT: f64 = 110.0;

/// How many bytes of a data page's body are taken.
fn filled(page: &[u8]) -> usize {
    let (start, end) = (short(page, 32), short(page, 34));
    BODY_BYTES
        .saturating_sub(end.saturating_sub(start))
        .min(BODY_BYTES)
}

/// Every page as a cell: how full a data page is, which are free, and which recovery rewrites.
pub fn pages(mended: &Mended) -> String {
    let old = &mended.pages.bytes;
    let count = mended.pages.count();
    let (columns, cell) = match count {
        0..=128 => (FEW_COLUMNS, LARGE_CELL),
        _ => (COLUMNS, CELL),
    };
    let rows = count.div_ceil(columns);
    let mut svg = format!(
        "<svg class=\"grid\" role=\"img\" aria-label=\"the pages\" viewBox=\"0 0 {} {}\" width=\"{}\">\n",
        columns.min(count) * cell + 2,
        rows * cell + 2,
        columns.min(count) * cell + 2
    );
    let fault = mended.faulty_page();
    let news = mended.new.chunks_exact(PAGE_BYTES);
    for (index, (old, new)) in old.chunks_exact(PAGE_BYTES).zip(news).enumerate() {
        let mark = match fault == Some(index as u64) {
            true => Mark::Faulty,
            false if old != new => Mark::Touched,
            false => Mark::None,
        };
        svg += &page_cell(index, new, mark, cell, (index % columns, index / columns));
    }
    let marked = match (mended.answer.number, fault) {
        (0, _) => "<span class=\"mark touched\"></span>rewritten ",
        (_, Some(_)) => "<span class=\"mark unended\"></span>refused ",
        (_, None) => "",
    };
    svg + &format!(
        "</svg>\n<p class=\"legend\"><span class=\"mark data\"></span>data, filled from below {marked}\
         <span class=\"mark free\"></span>free <span class=\"mark other\"></span>other types</p>\n"
    )
}

/// What is marked on a page.
#[derive(Clone, Copy)]
enum Mark {
    None,
    Touched,
    Faulty,
}

fn page_cell(index: usize, new: &[u8], mark: Mark, cell: usize, at: (usize, usize)) -> String {
    let (x, y) = (at.0 * cell + 2, at.1 * cell + 2);
    let side = cell - cell / 8 - 1;
    let name = show::page_type(new[8]);
    let mut title = format!("page {index}, {name}");
    let (class, inner) = match new[8] {
        1 => {
            let full = filled(new);
            let height = (side * full).div_ceil(BODY_BYTES);
            title += &format!(
                ", {full} of {BODY_BYTES} bytes taken, {} slots",
                short(new, 10)
            );
            let inner = format!(
                "<rect class=\"fill\" x=\"{x}\" y=\"{}\" width=\"{side}\" height=\"{height}\"/>",
                y + side - height
            );
            ("data", inner)
        }
        4 => ("free", String::new()),
        _ => ("other", String::new()),
    };
    let (marked, words) = match mark {
        Mark::None => ("", ""),
        Mark::Touched => (" touched", ", rewritten"),
        Mark::Faulty => (" faulty", ", refused"),
    };
    title += words;
    let number = match cell {
        LARGE_CELL => format!(
            "<text x=\"{}\" y=\"{}\">{index}</text>",
            x + side / 2,
            y + 12
        ),
        _ => String::new(),
    };
    format!(
        "<g class=\"{class}{marked}\"><title>{title}</title><rect class=\"cell\" x=\"{x}\" y=\"{y}\" width=\"{side}\" height=\"{side}\"/>{inner}{number}</g>\n"
    )
}

/// A transaction from its first entry to its last.
struct Bar {
    number: u64,
    outcome: u64,
    start: u64,
    end: Option<u64>,
    changes: Vec<u64>,
}

/// Every transaction as a bar from its Begin to its end, with a mark for each change.
pub fn transactions(mended: &Mended) -> String {
    let log = &mended.log.bytes;
    let drawn = drawn(mended);
    let mut bars: BTreeMap<u64, Bar> = BTreeMap::new();
    let mut alone = Vec::new();
    let mut checkpoints = Vec::new();
    for step in walk::entries(log) {
        match step.transaction {
            0 if walk::is_change(&step) => alone.push(step.offset),
            0 => checkpoints.push(step.offset),
            number => {
                if let Some(outcome) = drawn.get(&number) {
                    add(&mut bars, &step, *outcome);
                }
            }
        }
    }
    if bars.is_empty() && alone.is_empty() {
        return "<p class=\"note\">No entry of the log belongs to one.</p>\n".to_string();
    }
    let mut bars: Vec<Bar> = bars.into_values().collect();
    bars.sort_by_key(|bar| bar.start);
    let rows = bars.len() + usize::from(!alone.is_empty());
    let height = rows * BAR + 34;
    let scale = Scale {
        bytes: log.len().max(1) as f64,
    };
    let mut svg = format!(
        "<div class=\"wide\"><svg class=\"bars\" role=\"img\" aria-label=\"the transactions\" viewBox=\"0 0 {} {height}\" width=\"{}\">\n",
        LEFT + WIDTH + 10.0,
        LEFT + WIDTH + 10.0
    );
    let many = checkpoints.len();
    if many > MOST_BARS {
        checkpoints.clear();
    }
    svg += &backdrop(mended, &scale, rows, &checkpoints);
    let mut y = 4;
    if !alone.is_empty() {
        svg += &lane(y, "alone (0)");
        svg += &marks(&scale, y, "alone", &alone);
        y += BAR;
    }
    for bar in &bars {
        svg += &drawn_bar(&scale, bar, y);
        y += BAR;
    }
    svg += "</svg></div>\n";
    let left_out = mended.records.len().saturating_sub(bars.len());
    if left_out > 0 {
        svg +=
            &format!("<p class=\"note\">{left_out} more, which changed less, are not drawn.</p>\n");
    }
    if many > MOST_BARS {
        svg += &format!("<p class=\"note\">{many} checkpoints are not drawn.</p>\n");
    }
    svg + LEGEND_OF_BARS
}

const LEGEND_OF_BARS: &str = "<p class=\"legend\"><span class=\"mark committed\"></span>committed \
    <span class=\"mark rolled\"></span>rolled back <span class=\"mark unended\"></span>never ended \
    <span class=\"mark alone\"></span>changes without a transaction <span class=\"mark torn\"></span>torn \
    <span class=\"mark unused\"></span>unused</p>\n\
    <p class=\"legend\">The log runs from left to right, by its bytes. Each stroke is a change, each dotted line a checkpoint.</p>\n";

/// The transactions that are drawn, with their outcomes.
fn drawn(mended: &Mended) -> BTreeMap<u64, u64> {
    let mut all: Vec<&Record> = mended.records.iter().collect();
    all.sort_by_key(|record| (record.outcome != library::UNENDED, Reverse(record.changes)));
    let drawn = all.into_iter().take(MOST_BARS);
    drawn
        .map(|record| (record.number, record.outcome))
        .collect()
}

fn add(bars: &mut BTreeMap<u64, Bar>, step: &Step, outcome: u64) {
    let bar = bars.entry(step.transaction).or_insert(Bar {
        number: step.transaction,
        outcome,
        start: step.offset,
        end: None,
        changes: Vec::new(),
    });
    if walk::is_change(step) {
        bar.changes.push(step.offset);
    } else if walk::is_commit(step) || walk::is_rollback(step) {
        bar.end = Some(step.next);
    }
}

/// From places in the log to places in the picture.
struct Scale {
    bytes: f64,
}

impl Scale {
    fn x(&self, offset: u64) -> f64 {
        LEFT + WIDTH * offset as f64 / self.bytes
    }
}

/// The torn tail or the unused room, the checkpoints and the axis.
fn backdrop(mended: &Mended, scale: &Scale, rows: usize, checkpoints: &[u64]) -> String {
    let bottom = rows * BAR + 8;
    let mut svg = String::new();
    let place = mended.answer.tail_offset;
    if mended.answer.ending != ENDED_EXACTLY {
        let ending = show::ending(mended.answer.ending);
        svg += &format!(
            "<rect class=\"{ending}\" x=\"{:.1}\" y=\"0\" width=\"{:.1}\" height=\"{bottom}\"><title>{ending}, from offset {place} on</title></rect>\n",
            scale.x(place),
            scale.x(mended.log.bytes.len() as u64) - scale.x(place)
        );
    }
    for place in checkpoints {
        svg += &format!(
            "<line class=\"check\" x1=\"{0:.1}\" x2=\"{0:.1}\" y1=\"0\" y2=\"{bottom}\"><title>checkpoint at offset {place}</title></line>\n",
            scale.x(*place)
        );
    }
    svg += &format!(
        "<line class=\"axis\" x1=\"{LEFT}\" x2=\"{}\" y1=\"{bottom}\" y2=\"{bottom}\"/>\n",
        LEFT + WIDTH
    );
    for part in 0..=4 {
        let offset = mended.log.bytes.len() as u64 * part / 4;
        let anchor = match part {
            0 => "start",
            4 => "end",
            _ => "middle",
        };
        svg += &format!(
            "<text class=\"tick\" text-anchor=\"{anchor}\" x=\"{:.1}\" y=\"{}\">{offset}</text>\n",
            scale.x(offset),
            bottom + 16
        );
    }
    svg
}

fn lane(y: usize, name: &str) -> String {
    format!(
        "<text class=\"name\" text-anchor=\"end\" x=\"{}\" y=\"{}\">{name}</text>\n",
        LEFT - 8.0,
        y + 11
    )
}

fn marks(scale: &Scale, y: usize, class: &str, places: &[u64]) -> String {
    let mut svg = String::new();
    let mut last = f64::MIN;
    for x in places.iter().map(|place| scale.x(*place)) {
        // Strokes that would fall together are drawn once.
        if x - last >= 0.7 {
            svg += &format!(
                "<rect class=\"stroke {class}\" x=\"{x:.1}\" y=\"{}\" width=\"2\" height=\"12\"/>",
                y
            );
            last = x;
        }
    }
    svg + "\n"
}

fn drawn_bar(scale: &Scale, bar: &Bar, y: usize) -> String {
    let class = class(bar.outcome);
    let start = scale.x(bar.start);
    let end = bar.end.map_or(LEFT + WIDTH, |end| scale.x(end));
    let open = if bar.end.is_none() { " open" } else { "" };
    let mut svg = lane(y, &bar.number.to_string());
    svg += &format!(
        "<rect class=\"bar {class}{open}\" x=\"{start:.1}\" y=\"{}\" width=\"{:.1}\" height=\"8\" rx=\"3\"><title>transaction {}, {}, {}</title></rect>",
        y + 2,
        (end - start).max(2.0),
        bar.number,
        show::outcome(bar.outcome),
        show::count(bar.changes.len() as u64, "change", "changes")
    );
    svg + &marks(scale, y, class, &bar.changes)
}
