//! `log`: the entries of a log, forward or backward.

use library::refusal::ENTRY_DAMAGED;
use library::{
    Step, Verdict, LOG_HEAD_BYTES, STEP_DAMAGED, STEP_END, STEP_ENTRY, STEP_TORN, STEP_UNUSED,
};

use crate::advice::{refusal_fields, text, unless_refused};
use crate::args::{Choice, Command, Parsed, CATALOG, JSON};
use crate::catalog::{Catalog, TableNames};
use crate::failure::Failure;
use crate::input::{head_fields, Log, Read};
use crate::json::Json;
use crate::output::Output;
use crate::show;
use crate::stats::Stats;
use crate::tuple::{self, Tuple};
use crate::walk;

pub const COMMAND: Command = Command {
    name: "log",
    about: "lists the entries of a log, and where and how it ends",
    takes: &[super::LOG],
    options: &[
        Choice::flag("--backward", "from the end found by walking back to the first entry"),
        Choice::value("--from", "PLACE", "start at this byte instead"),
        Choice::value("--limit", "N", "list no more entries than this"),
        Choice::value("--transaction", "N", "only entries of this transaction"),
        Choice::value("--page", "N", "only changes to this page"),
        Choice::value("--slot", "N", "only changes to this slot"),
        Choice::value("--type", "TYPE", "only entries of this type, by name or number"),
        Choice::value("--lsn-from", "LSN", "only entries of this LSN and above"),
        Choice::value("--lsn-to", "LSN", "only entries of this LSN and below"),
        Choice::flag("--payload", "show the rows before and after each change"),
        Choice::flag("--stats", "count and sum the entries instead of listing them"),
        CATALOG,
        JSON,
    ],
    more: "A torn tail, or unused room (zero bytes to the end of the file), ends a log and is no fault. Damage is refusal 4, told\n\
           after the entries before it. Backward, PLACE should be the end of an entry: from any other byte a row that contains\n\
           the bytes of an entry may pass for one.\n\
           Of several options that say which entries, an entry has to meet all.",
    run,
};

/// How many letters of a payload stand in a line of text.
const SHOWN: usize = 200;

/// How wide the names of tables stand.
const NAME_WIDTH: usize = 20;

/// What stands for the name of a table that the catalog does not have.
const UNNAMED: &str = "-";

/// What the listing starts from.
struct Start {
    place: u64,
    /// Whether the place was found by walking, and not given.
    walked: bool,
    backward: bool,
    limit: u64,
    filter: Filter,
    payload: bool,
    catalog: Option<Catalog>,
}

impl Start {
    fn names(&self) -> Option<&TableNames> {
        self.catalog.as_ref().map(|catalog| &catalog.names)
    }
}

/// Which entries are listed.
struct Filter {
    transaction: Option<u64>,
    page: Option<u64>,
    slot: Option<u64>,
    entry_type: Option<&'static str>,
    lsn_from: Option<u64>,
    lsn_to: Option<u64>,
}

impl Filter {
    fn of(parsed: &Parsed) -> Result<Filter, Failure> {
        Ok(Filter {
            transaction: parsed.chosen_number("--transaction")?,
            page: parsed.chosen_number("--page")?,
            slot: parsed.chosen_number("--slot")?,
            entry_type: parsed.chosen_name("--type", show::ENTRY_TYPES)?,
            lsn_from: parsed.chosen_number("--lsn-from")?,
            lsn_to: parsed.chosen_number("--lsn-to")?,
        })
    }

    fn is_met(&self, log: &Log, step: &Step) -> bool {
        let target = walk::target(&log.bytes, step);
        let same = |asked: Option<u64>, has: Option<u64>| asked.is_none_or(|it| Some(it) == has);
        same(self.transaction, Some(step.transaction))
            && same(self.page, target.map(|(page, _)| page))
            && same(self.slot, target.map(|(_, slot)| slot.into()))
            && self
                .entry_type
                .is_none_or(|name| name == show::entry_type(step.entry_type))
            && self.lsn_from.is_none_or(|lsn| lsn <= step.lsn)
            && self.lsn_to.is_none_or(|lsn| step.lsn <= lsn)
    }
}

/// How far a listing went.
struct Walked {
    stopped: u64,
    entries: u64,
    listed: u64,
}

fn run(parsed: &Parsed, output: &mut Output) -> Result<(), Failure> {
    let backward = parsed.flag("--backward");
    let from = parsed.chosen_number("--from")?;
    let limit = parsed.chosen_number("--limit")?.unwrap_or(u64::MAX);
    let log = Log::read(parsed, 0)?;
    let catalog = Catalog::read(parsed, output, &log)?;
    let opened = library::log_open(&log.bytes, backward);
    unless_refused(parsed, output, opened, Read::log(&log))?;
    if let Some(inside) = from.and_then(|from| around(&log, from)) {
        return Err(parsed.wrong(format!(
            "--from is inside the entry at offset {}, which ends at {}",
            inside.offset, inside.next
        )));
    }
    let start = Start {
        place: from.unwrap_or(opened.place),
        walked: from.is_none(),
        backward,
        limit,
        filter: Filter::of(parsed)?,
        payload: parsed.flag("--payload"),
        catalog,
    };
    match (parsed.flag("--stats"), parsed.flag("--json")) {
        (true, _) => sum(parsed, output, &log, &start),
        (false, true) => list_json(parsed, output, &log, &start),
        (false, false) => list_text(output, &log, &start),
    }
}

/// The entry that a place is inside of.
fn around(log: &Log, place: u64) -> Option<Step> {
    walk::entries(&log.bytes)
        .take_while(|step| step.offset < place)
        .find(|step| step.next > place)
}

/// Calls for every entry that is to be listed.
fn each_entry(
    log: &Log,
    start: &Start,
    mut call: impl FnMut(&Step) -> Result<(), Failure>,
) -> Result<Walked, Failure> {
    let step = match start.backward {
        true => library::log_backward,
        false => library::log_forward,
    };
    let mut walked = Walked {
        stopped: start.place,
        entries: 0,
        listed: 0,
    };
    while walked.listed < start.limit {
        let found = step(&log.bytes, walked.stopped);
        if found.kind != STEP_ENTRY {
            break;
        }
        walked.entries += 1;
        walked.stopped = found.next;
        if start.filter.is_met(log, &found) {
            walked.listed += 1;
            call(&found)?;
        }
    }
    Ok(walked)
}

/// What stands where a listing ends: forward where it stopped, backward from the end found by walking at that end. Backward
/// from another place nothing is known of what stands there, so it tells why it stopped.
fn end_of(log: &Log, start: &Start, stopped: u64) -> (Step, &'static str) {
    if start.backward && !start.walked {
        let end = library::log_backward(&log.bytes, stopped);
        let kind = match end.kind {
            STEP_ENTRY => "more entries",
            _ if stopped == LOG_HEAD_BYTES as u64 => "the first entry was reached",
            _ => "no entry ends",
        };
        return (no_entry(stopped), kind);
    }
    let place = if start.backward { start.place } else { stopped };
    let end = library::log_forward(&log.bytes, place);
    match end.kind {
        STEP_ENTRY => (no_entry(place), "more entries"),
        STEP_TORN => (end, "torn tail"),
        STEP_UNUSED => (end, "unused room"),
        STEP_DAMAGED => (end, "damage"),
        _ if place == log.bytes.len() as u64 => (end, "exact end"),
        _ => (end, "no place of an entry"),
    }
}

/// A step that stays where it is.
fn no_entry(place: u64) -> Step {
    Step {
        kind: STEP_END,
        next: place,
        ..Step::default()
    }
}

fn damage(end: &Step) -> Option<Verdict> {
    (end.kind == STEP_DAMAGED).then_some(Verdict {
        number: ENTRY_DAMAGED,
        place: end.next,
    })
}

fn list_text(output: &mut Output, log: &Log, start: &Start) -> Result<(), Failure> {
    output.line(log.line())?;
    let column = |text: &str| match start.names() {
        Some(_) => format!("{text:<NAME_WIDTH$}  "),
        None => String::new(),
    };
    output.line(format_args!(
        "    offset  length       LSN  transaction  type           table  {}change",
        column("name")
    ))?;
    let walked = each_entry(log, start, |step| {
        let (before, after) = walk::tuples(&log.bytes, step);
        let target = walk::target(&log.bytes, step);
        let change = match target {
            Some((page, slot)) => format!(
                "page {page} slot {slot}, {} bytes before, {} after",
                before.len(),
                after.len()
            ),
            None => String::new(),
        };
        let name = match (start.names(), target) {
            (Some(names), Some(_)) => names.get(step.table).unwrap_or(UNNAMED),
            _ => "",
        };
        let line = format!(
            "{:>10}  {:>6}  {:>8}  {:>11}  {:<13}  {:>5}  {}{change}",
            step.offset,
            step.length,
            step.lsn,
            step.transaction,
            show::entry_type(step.entry_type),
            step.table,
            column(name)
        );
        output.line(line.trim_end())?;
        for (name, tuple) in [("before:", before), ("after: ", after)] {
            if let Some(tuple) = Tuple::of(tuple).filter(|_| start.payload && target.is_some()) {
                output.line(format_args!("{:>20} {}", name, tuple.words(SHOWN)))?;
            }
        }
        Ok(())
    })?;
    end_text(output, log, start, &walked)
}

/// The last line, and the refusal of damage.
fn end_text(output: &mut Output, log: &Log, start: &Start, walked: &Walked) -> Result<(), Failure> {
    let (end, kind) = end_of(log, start, walked.stopped);
    let place = end.next;
    let rest = match end.kind {
        STEP_TORN | STEP_UNUSED => format!(", {} bytes", log.bytes.len() as u64 - place),
        _ => String::new(),
    };
    let entries = show::count(walked.entries, "entry", "entries");
    let entries = match walked.listed == walked.entries {
        true => entries,
        false => format!("{} of {entries}", walked.listed),
    };
    output.line(format_args!("{entries}; {kind} at {place}{rest}"))?;
    match damage(&end) {
        None => Ok(()),
        Some(verdict) => Err(Failure::Refused(text(verdict, Read::log(log)))),
    }
}

/// One object, written while the log is read: the entries come before the number.
fn list_json(
    parsed: &Parsed,
    output: &mut Output,
    log: &Log,
    start: &Start,
) -> Result<(), Failure> {
    output.text("{\"entries\":[")?;
    let mut first = true;
    let walked = each_entry(log, start, |step| {
        output.text(if std::mem::take(&mut first) {
            "\n"
        } else {
            ",\n"
        })?;
        output.text(&Json::Object(entry_fields(log, start, step)).to_string())
    })?;
    output.text("],\n")?;
    end_json(parsed, output, log, start, &walked, Vec::new())
}

/// The fields of the end, after what was written of the object already; its brace is left out then.
fn end_json(
    parsed: &Parsed,
    output: &mut Output,
    log: &Log,
    start: &Start,
    walked: &Walked,
    more: Vec<(&'static str, Json)>,
) -> Result<(), Failure> {
    let (end, kind) = end_of(log, start, walked.stopped);
    let verdict = damage(&end).unwrap_or_default();
    let result = if verdict.number == 0 {
        "done"
    } else {
        "refused"
    };
    let mut fields = head_fields(parsed, result, verdict);
    if verdict.number != 0 {
        fields.extend(refusal_fields(verdict, Read::log(log)));
    }
    fields.extend(log.fields());
    if let Some(catalog) = &start.catalog {
        fields.push(("catalog_file", Json::text(catalog.pages.path.display())));
    }
    fields.extend([
        ("backward", start.backward.into()),
        ("from", start.place.into()),
        ("stopped", walked.stopped.into()),
        ("walked", walked.entries.into()),
        ("listed", walked.listed.into()),
        ("end", kind.into()),
    ]);
    let is_begun = more.is_empty();
    fields.extend(more);
    let text = Json::Object(fields).to_string();
    output.line(&text[usize::from(is_begun)..])?;
    match verdict.number {
        0 => Ok(()),
        _ => Err(Failure::Refused(String::new())),
    }
}

fn entry_fields(log: &Log, start: &Start, step: &Step) -> Vec<(&'static str, Json)> {
    let target = walk::target(&log.bytes, step);
    let (page, slot) = match target {
        Some((page, slot)) => (page.into(), u64::from(slot).into()),
        None => (Json::Null, Json::Null),
    };
    let mut fields = vec![
        ("offset", step.offset.into()),
        ("length", step.length.into()),
        ("lsn", step.lsn.into()),
        ("transaction", step.transaction.into()),
        ("type", step.entry_type.into()),
        ("type_name", show::entry_type(step.entry_type).into()),
        ("table", step.table.into()),
    ];
    if let Some(names) = start.names() {
        let name = target.and_then(|_| names.get(step.table));
        fields.push(("table_name", name.map_or(Json::Null, Json::from)));
    }
    fields.extend([
        ("page", page),
        ("slot", slot),
        ("key_bytes", step.key_len.into()),
        ("old_bytes", step.old_len.into()),
        ("new_bytes", step.new_len.into()),
    ]);
    if start.payload {
        let (before, after) = walk::tuples(&log.bytes, step);
        fields.push(("before", tuple::fields(Tuple::of(before))));
        fields.push(("after", tuple::fields(Tuple::of(after))));
    }
    fields
}

/// Counts and sums instead of the entries.
fn sum(parsed: &Parsed, output: &mut Output, log: &Log, start: &Start) -> Result<(), Failure> {
    let mut stats = Stats::default();
    let walked = each_entry(log, start, |step| {
        stats.add(step, walk::target(&log.bytes, step));
        Ok(())
    })?;
    if parsed.flag("--json") {
        let stats = vec![("stats", stats.fields(start.names()))];
        return end_json(parsed, output, log, start, &walked, stats);
    }
    output.line(log.line())?;
    stats.tell(output, start.names())?;
    end_text(output, log, start, &walked)
}
