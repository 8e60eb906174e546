//! `recover`: mends the pages by the log and writes them to a new file, or in place with a backup.

use crate::advice::unless_refused;
use crate::args::{Choice, Command, Parsed, FLOOR, JSON, LOG_UNTIL, MAGIC, QUIET};
use crate::changes::Change;
use crate::doublewrite::{Doublewrite, Repaired};
use crate::failure::Failure;
use crate::files::is_standard;
use crate::input::{head_fields, Log, Pages, Read};
use crate::json::Json;
use crate::mended::Mended;
use crate::output::Output;
use crate::show;
use crate::target::{self, Target, Written, DRY_RUN, FORCE, IN_PLACE};

pub const COMMAND: Command = Command {
    name: "recover",
    about: "recovers the pages by the log and writes them to a new file",
    takes: &[super::PAGES, super::LOG],
    options: &[
        Choice::value("--out", "FILE", "the new file; PAGES.recovered where not given; - for standard output, and the report goes to standard error"),
        FORCE,
        IN_PLACE,
        DRY_RUN,
        Choice::value("--dw", "FILE", "restore torn pages from this double-write file first, as `repair` does"),
        MAGIC,
        FLOOR,
        LOG_UNTIL,
        Choice::value("--records", "N", "refuse a log of more transactions than this"),
        Choice::flag("--transactions", "list what became of each transaction"),
        Choice::flag("--changes", "list every slot that recovery changes, before and after; with --dry-run, would change"),
        QUIET,
        JSON,
    ],
    more: "The new file is written under another name in the same directory, synced and renamed, so it is never seen half-written.\n\
           A run that was broken off may be repeated. The log file is never changed.\n\
           --in-place takes the lock of PAGES (flock) and stops, with all as it was, if another process holds it, has PAGES open for\n\
           writing, or changes PAGES, LOG or the double-write file before the end. Owner, rights, extended attributes and access lists are kept.",
    run,
};

fn run(parsed: &Parsed, output: &mut Output) -> Result<(), Failure> {
    let report = recover(parsed, output)?;
    let Report { mended, .. } = &report;
    let changes = match parsed.flag("--changes") {
        true => mended.changes(),
        false => Vec::new(),
    };
    if parsed.flag("--json") {
        let mut fields = head_fields(parsed, report.written.result(), mended.answer.verdict());
        fields.extend(report.fields());
        if parsed.flag("--changes") {
            let changes = changes.iter().map(Change::fields).collect();
            fields.push(("changed_slots", Json::List(changes)));
        }
        return output.line(Json::Object(fields));
    }
    mended.tell(output, parsed.flag("--transactions"))?;
    if parsed.flag("--changes") {
        let count = show::count(changes.len() as u64, "slot", "slots");
        output.line(format_args!("  {count} changed"))?;
    }
    for change in changes {
        change.tell(output)?;
    }
    output.line(report.written())
}

/// Does what the words of a command line ask for. Only a refusal is printed here, if as JSON.
pub fn recover(parsed: &Parsed, output: &mut Output) -> Result<Report, Failure> {
    let held = target::held(parsed)?;
    let mut inputs = vec![parsed.path(0), parsed.path(1)];
    let file = parsed.chosen_path("--dw");
    if let Some(file) = file {
        if is_standard(file) && inputs.iter().any(|input| is_standard(input)) {
            return Err(parsed.wrong("only one file can be standard input".to_string()));
        }
        inputs.push(file);
    }
    let mut pages = match &held {
        Some(held) => Pages::read_held(parsed, held)?,
        None => Pages::read(parsed)?,
    };
    let log = Log::read(parsed, 1)?;
    let file = file.map(Doublewrite::read).transpose()?;
    let target = Target::of(parsed, held, ".recovered", &inputs)?;
    let repaired = match file {
        Some(file) => Some(repair(parsed, output, &mut pages, file)?),
        None => None,
    };
    let mended = Mended::of(parsed, pages, log, repaired)?;
    unless_refused(parsed, output, mended.answer.verdict(), mended.read())?;
    let Mended { pages, new, .. } = &mended;
    let written = target.write(parsed, output, pages, &mended.others(), new)?;
    Ok(Report { mended, written })
}

/// Restores torn pages before they are recovered.
fn repair(
    parsed: &Parsed,
    output: &mut Output,
    pages: &mut Pages,
    file: Doublewrite,
) -> Result<Repaired, Failure> {
    let repaired = Repaired::of(parsed, pages, file)?;
    let read = Read::pages(pages).with(&repaired.file);
    unless_refused(parsed, output, repaired.answer.verdict(), read)?;
    Ok(repaired)
}

/// What was recovered, and what became of it.
pub struct Report {
    pub mended: Mended,
    written: Written,
}

impl Report {
    pub fn written(&self) -> String {
        let pages = &self.mended.pages;
        self.written.words("recovered", "recovery", pages)
    }

    /// The fields after number, name and place.
    pub fn fields(&self) -> Vec<(&'static str, Json)> {
        let mut fields = self.mended.fields();
        fields.extend(self.written.fields(&self.mended.pages));
        fields.push(("transactions", self.mended.transactions()));
        fields
    }
}
