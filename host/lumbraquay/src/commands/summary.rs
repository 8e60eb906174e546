//! `summary write`, `summary show` and `summary diff`: the visible rows as a list kept beside the data.

use std::cmp::Ordering;
use std::iter::Peekable;

use library::SummaryStep;

use crate::advice::unless_refused;
use crate::args::{Choice, Command, Parsed, JSON, MAGIC, QUIET};
use crate::failure::Failure;
use crate::files::{self, is_standard};
use crate::input::{head_fields, Pages, Read, Summary};
use crate::json::Json;
use crate::memory;
use crate::output::Output;
use crate::show;
use crate::slow::{self, Work};

pub const WRITE: Command = Command {
    name: "summary write",
    about: "writes the list of the visible rows: page, slot and length of each",
    takes: &[super::PAGES],
    options: &[
        Choice::needed("--lsn", "LSN", "the last LSN, which the list is to name"),
        Choice::needed("--out", "FILE", "the new file; - for standard output, and the report goes to standard error"),
        Choice::flag("--force", "replace the new file if it exists"),
        MAGIC,
        QUIET,
        JSON,
    ],
    more: "The list is of the rows as they stand in PAGES: recover it first. `recover` tells the last LSN. The new file is written\n\
           under another name in the same directory, synced and renamed, so it is never seen half-written.",
    run: write,
};

pub const SHOW: Command = Command {
    name: "summary show",
    about: "shows a list of visible rows",
    takes: &[FILE],
    options: &[
        Choice::value("--limit", "N", "show no more rows than this"),
        JSON,
    ],
    more: "The whole file is judged before anything is shown.",
    run: show,
};

pub const DIFF: Command = Command {
    name: "summary diff",
    about: "compares a list of visible rows with those of a page file: gone, new, changed in length",
    takes: &[FILE, super::PAGES],
    options: &[
        Choice::value("--limit", "N", "show no more changes than this; all are counted"),
        MAGIC,
        JSON,
    ],
    more: "A row is gone if FILE has it and PAGES does not, new if it is the other way round. Rows are told apart by page and slot.\n\
           The exit status is 0 whatever changes there are; the last line counts them.",
    run: diff,
};

/// What FILE means.
const FILE: (&str, &str) = (
    "FILE",
    "the list that `summary write` wrote; - for standard input",
);

fn write(parsed: &Parsed, output: &mut Output) -> Result<(), Failure> {
    let lsn = parsed.needed_number("--lsn")?;
    let out = parsed.needed_path("--out")?;
    if !is_standard(out) {
        if files::is_same(out, parsed.path(0)) {
            return Err(Failure::file("write", out, "it is the file that is read"));
        }
        files::check_new(out, parsed.flag("--force"))?;
    } else if Output::is_terminal() {
        let why = "cannot write the list to standard output: it is a terminal";
        return Err(Failure::File(why.to_string()));
    }
    let pages = Pages::read(parsed)?;
    slow::at(Work::Writing);
    let mut area = memory::room(library::summary_room(pages.count()))?;
    area.resize(area.capacity(), 0);
    let written = library::summary_write(pages.magic, &pages.bytes, lsn, &mut area);
    unless_refused(parsed, output, written.verdict(), Read::pages(&pages))?;
    area.truncate(written.length as usize);
    let count = library::summary_read(&area).count;
    if is_standard(out) {
        let mut standard = Output::standard();
        standard.bytes(&area)?;
        standard.flush()?;
        if !parsed.flag("--quiet") {
            *output = Output::error();
        }
    } else {
        pages.seen.must_be_as_read()?;
        files::write_new(out, &area, Some(&pages.seen), parsed.flag("--force"))?;
    }
    if parsed.flag("--json") {
        let mut fields = head_fields(parsed, "done", written.verdict());
        fields.extend(pages.fields());
        fields.extend([
            ("lsn", lsn.into()),
            ("count", count.into()),
            ("bytes", written.length.into()),
            ("written_to", Json::text(out.display())),
        ]);
        return output.line(Json::Object(fields));
    }
    output.line(pages.line())?;
    let to = match is_standard(out) {
        true => "standard output".to_string(),
        false => out.display().to_string(),
    };
    output.line(format_args!(
        "{}, last LSN {lsn}: {} bytes written to {to}",
        rows(count),
        written.length
    ))
}

fn rows(count: u64) -> String {
    show::count(count, "visible row", "visible rows")
}

/// How many rows or changes are shown at most.
fn limit(parsed: &Parsed) -> Result<usize, Failure> {
    let limit = parsed.chosen_number("--limit")?.unwrap_or(u64::MAX);
    Ok(usize::try_from(limit).unwrap_or(usize::MAX))
}

fn show(parsed: &Parsed, output: &mut Output) -> Result<(), Failure> {
    let limit = limit(parsed)?;
    let summary = Summary::read(parsed)?;
    let verdict = summary.read.verdict();
    unless_refused(parsed, output, verdict, Read::summary(&summary))?;
    slow::at(Work::Showing);
    let shown = summary.rows().take(limit);
    if parsed.flag("--json") {
        let mut fields = head_fields(parsed, "done", verdict);
        fields.extend(summary.fields());
        let rows = shown.map(|row| Json::Object(row_fields(row)));
        return output.object(fields, [("rows", rows)]);
    }
    output.line(summary.line())?;
    output.line("  page   slot  length")?;
    let mut count = 0;
    for row in shown {
        count += 1;
        output.line(format_args!(
            "{:>6}  {:>5}  {:>6}",
            row.page, row.slot, row.length
        ))?;
    }
    match summary.read.count {
        all if all == count => output.line(rows(all)),
        all => output.line(format_args!("{count} of {}", rows(all))),
    }
}

fn row_fields(row: SummaryStep) -> Vec<(&'static str, Json)> {
    vec![
        ("page", row.page.into()),
        ("slot", row.slot.into()),
        ("length", row.length.into()),
    ]
}

/// What became of a row.
enum Change {
    Gone(SummaryStep),
    New(SummaryStep),
    /// With its length now.
    Changed(SummaryStep, u64),
    Same,
}

/// The kinds of change, in the order in which they are told.
const KINDS: [&str; 3] = ["gone", "new", "changed"];
const COUNTS: [&str; 3] = ["gone_count", "new_count", "changed_count"];

impl Change {
    /// Its kind's place among these; none where nothing changed.
    fn kind(&self) -> Option<usize> {
        match self {
            Change::Gone(_) => Some(0),
            Change::New(_) => Some(1),
            Change::Changed(..) => Some(2),
            Change::Same => None,
        }
    }

    /// Its row, with the length now where that is another.
    fn row(self) -> Option<(SummaryStep, Option<u64>)> {
        match self {
            Change::Gone(row) | Change::New(row) => Some((row, None)),
            Change::Changed(row, now) => Some((row, Some(now))),
            Change::Same => None,
        }
    }
}

/// The rows of two lists, each in order, compared one by one.
struct Compared<A: Iterator, B: Iterator> {
    then: Peekable<A>,
    now: Peekable<B>,
}

impl<A: Iterator<Item = SummaryStep>, B: Iterator<Item = SummaryStep>> Iterator for Compared<A, B> {
    type Item = Change;

    fn next(&mut self) -> Option<Change> {
        let place = |row: &SummaryStep| (row.page, row.slot);
        let order = match (self.then.peek(), self.now.peek()) {
            (None, None) => return None,
            (Some(_), None) => Ordering::Less,
            (None, Some(_)) => Ordering::Greater,
            (Some(then), Some(now)) => place(then).cmp(&place(now)),
        };
        match order {
            Ordering::Less => self.then.next().map(Change::Gone),
            Ordering::Greater => self.now.next().map(Change::New),
            Ordering::Equal => match (self.then.next()?, self.now.next()?) {
                (then, now) if then.length == now.length => Some(Change::Same),
                (then, now) => Some(Change::Changed(then, now.length)),
            },
        }
    }
}

/// Compares the list with that of the pages, which is written into memory: once to count the changes, and once for each
/// kind to tell them, so that none is kept.
fn diff(parsed: &Parsed, output: &mut Output) -> Result<(), Failure> {
    let limit = limit(parsed)?;
    let summary = Summary::read(parsed)?;
    let pages = Pages::read_at(parsed, 1)?;
    let read = Read::compared(&summary, &pages);
    unless_refused(parsed, output, summary.read.verdict(), read)?;
    slow::at(Work::Comparing);
    let mut area = memory::room(library::summary_room(pages.count()))?;
    area.resize(area.capacity(), 0);
    let written = library::summary_write(pages.magic, &pages.bytes, 0, &mut area);
    unless_refused(parsed, output, written.verdict(), read)?;
    area.truncate(written.length as usize);
    let now = library::summary_read(&area);

    let compared = || Compared {
        then: summary.rows().peekable(),
        now: library::summary_rows(&area, now).peekable(),
    };
    let (mut counts, mut same) = ([0; KINDS.len()], 0u64);
    for change in compared() {
        match change.kind() {
            Some(kind) => counts[kind] += 1,
            None => same += 1,
        }
    }
    // Of each kind as many as the kinds before it leave of the limit.
    let mut left = limit;
    let lists = (0..KINDS.len()).map(|kind| {
        let shown = left.min(counts[kind]);
        left -= shown;
        let own = compared().filter(move |change| change.kind() == Some(kind));
        (KINDS[kind], own.filter_map(Change::row).take(shown))
    });
    if parsed.flag("--json") {
        let mut fields = head_fields(parsed, "done", written.verdict());
        fields.extend(summary.fields());
        fields.extend(pages.fields());
        fields.push(("same", same.into()));
        for (name, count) in COUNTS.into_iter().zip(counts) {
            fields.push((name, count.into()));
        }
        let lists = lists.map(|(name, rows)| {
            let rows = rows.map(|(row, now)| {
                let mut fields = row_fields(row);
                fields.extend(now.map(|now| ("length_now", now.into())));
                Json::Object(fields)
            });
            (name, rows)
        });
        return output.object(fields, lists);
    }
    output.line(summary.line())?;
    output.line(pages.line())?;
    for (word, rows) in lists {
        for (row, now) in rows {
            let now = now.map_or(String::new(), |now| format!(", now {now}"));
            output.line(format_args!(
                "  {word:<8} page {} slot {}, {} bytes{now}",
                row.page, row.slot, row.length
            ))?;
        }
    }
    let [gone, new, changed] = counts;
    let all = gone + new + changed;
    if limit < all {
        output.line(format_args!("{limit} of {all} changes shown"))?;
    }
    output.line(format_args!(
        "{gone} gone, {new} new, {changed} changed in length, {same} as listed"
    ))
}
