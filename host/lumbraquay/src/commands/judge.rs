//! `judge`: whether pages that another program repaired hold what recovery would leave.

use std::collections::BTreeSet;

use library::refusal::{DONE, NO_SUCH_PAGE, PAGE_AREAS_DIFFER};
use library::{Finding, Verdict};

use crate::advice::unless_refused;
use crate::args::{Choice, Command, Parsed, FLOOR, JSON, LOG_UNTIL, MAGIC};
use crate::failure::Failure;
use crate::input::{head_fields, Log, Pages, Read, Side};
use crate::json::Json;
use crate::output::Output;
use crate::show;
use crate::tuple::{in_slot, state, Tuple};
use crate::walk;

pub const COMMAND: Command = Command {
    name: "judge",
    about: "says whether pages that another program repaired hold what recovery would leave",
    takes: &[
        ("BEFORE", "the page file before the repair; - for standard input"),
        super::LOG,
        ("AFTER", "the page file after it; - for standard input"),
    ],
    options: &[
        Choice::flag("--all", "list every page that differs, not the lowest alone"),
        MAGIC,
        FLOOR,
        LOG_UNTIL,
        JSON,
    ],
    more: "A page that the log does not touch must be the same bytes. A touched one must have the same magic, type, id and reserved bytes\n\
           and the same row in every slot; where its rows stand, flags, LSN and item count may differ. A no names the lowest page and its\n\
           lowest slot that differs, slot 0 for an untouched page or a header. The exit status is 0 for yes, 1 for no, 3 refused: first\n\
           the pages before and the log, as recovery refuses them; then areas of two lengths; then the pages after.",
    run,
};

fn run(parsed: &Parsed, output: &mut Output) -> Result<(), Failure> {
    let floor = parsed.chosen_number("--floor")?.unwrap_or(0);
    let before = Pages::read(parsed)?;
    let log = Log::read(parsed, 1)?;
    let after = Pages::read_after(parsed, 2, &before)?;
    let sides = Sides {
        before: &before,
        log: &log,
        after: &after,
        floor,
        touched: touched(&log),
    };
    let found = sides.judged_from(0);
    sides.unless_refused(parsed, output, found.verdict())?;

    let differences = match parsed.flag("--all") {
        true => sides.differences().collect(),
        false => Vec::from_iter(sides.difference(found)),
    };
    if parsed.flag("--json") {
        let mut fields = head_fields(parsed, "done", found.verdict());
        fields.extend(before.fields());
        fields.extend(log.fields());
        fields.extend([
            ("after_file", Json::text(after.path.display())),
            ("floor", floor.into()),
            (
                "judged",
                if found.differs == 1 { "no" } else { "yes" }.into(),
            ),
        ]);
        let differences = differences.iter().map(Difference::fields).collect();
        fields.push(("differences", Json::List(differences)));
        output.line(Json::Object(fields))?;
    } else {
        output.line(before.line())?;
        output.line(log.line())?;
        output.line(format_args!(
            "{}: {} pages",
            after.path.display(),
            after.count()
        ))?;
        for difference in &differences {
            difference.tell(output)?;
        }
        output.line(match (found.differs, parsed.flag("--all")) {
            (0, _) => "yes: the pages hold what recovery would leave".to_string(),
            (_, false) => format!(
                "no: page {} slot {} is the lowest that differs",
                found.page, found.slot
            ),
            (_, true) => format!(
                "no: {} of {} differ",
                differences.len(),
                show::count(after.count() as u64, "page", "pages")
            ),
        })?;
    }
    match found.differs {
        0 => Ok(()),
        _ => Err(Failure::No),
    }
}

/// What is judged.
struct Sides<'a> {
    before: &'a Pages,
    log: &'a Log,
    after: &'a Pages,
    floor: u64,
    /// The pages that the log touches.
    touched: BTreeSet<u64>,
}

fn touched(log: &Log) -> BTreeSet<u64> {
    let changed = walk::entries(&log.bytes).filter_map(|step| walk::target(&log.bytes, &step));
    changed.map(|(page, _)| page).collect()
}

impl<'a> Sides<'a> {
    fn judged_from(&self, first: u64) -> Finding {
        library::judge_from(
            self.before.magic,
            self.floor,
            &self.before.bytes,
            &self.log.bytes,
            &self.after.bytes,
            first,
        )
    }

    /// The row that recovery would leave in a slot.
    fn row(&self, page: u64, slot: u64) -> library::Row {
        library::read_row(
            self.before.magic,
            self.floor,
            &self.before.bytes,
            &self.log.bytes,
            page,
            slot as u16,
        )
    }

    /// A refusal is of the pages before and the log where reading a row refuses them too; else of the pages after.
    fn unless_refused(
        &self,
        parsed: &Parsed,
        output: &mut Output,
        verdict: Verdict,
    ) -> Result<(), Failure> {
        if verdict.number == DONE {
            return Ok(());
        }
        let of_before = self.row(0, 0).number;
        let side = match (verdict.number, of_before) {
            (PAGE_AREAS_DIFFER, 0 | NO_SUCH_PAGE) => Side::Both,
            (_, 0 | NO_SUCH_PAGE) => Side::After,
            _ => Side::Before,
        };
        let read = Read::both(self.before, self.log, self.floor).repair(self.after, side);
        unless_refused(parsed, output, verdict, read)
    }

    /// Every page that differs: each is looked for behind the one before.
    fn differences(&self) -> impl Iterator<Item = Difference<'a>> + '_ {
        let mut first = 0;
        std::iter::from_fn(move || {
            let found = self.judged_from(first);
            first = found.page + 1;
            self.difference(found)
        })
    }

    /// What stands where a page differs, and what should.
    fn difference(&self, found: Finding) -> Option<Difference<'a>> {
        let Finding {
            differs: 1,
            page,
            slot,
            ..
        } = found
        else {
            return None;
        };
        let own = self.before.page(page)?;
        let other = self.after.page(page)?;
        let why = if !self.touched.contains(&page) {
            let at = own
                .iter()
                .zip(other)
                .position(|(own, other)| own != other)?;
            Why::Untouched(at, other[at], own[at])
        } else if let Some(at) = KEPT.into_iter().flatten().find(|&at| own[at] != other[at]) {
            Why::Header(at, other[at], own[at])
        } else {
            let row = self.row(page, slot);
            let payload = row.payload(&self.before.bytes, &self.log.bytes);
            let ours = (row.filled == 1).then(|| {
                let mut tuple = [row.xmin.to_le_bytes(), row.xmax.to_le_bytes()].concat();
                tuple.push(row.deleted as u8);
                tuple.extend(&row.pad.to_le_bytes()[..7]);
                tuple.extend(payload);
                tuple
            });
            Why::Row(in_slot(other, slot as usize), ours)
        };
        Some(Difference { page, slot, why })
    }
}

/// The bytes of a header that a repair keeps: magic and type, id, reserved bytes.
const KEPT: [std::ops::Range<usize>; 3] = [0..9, 16..24, 36..64];

/// A page that differs.
struct Difference<'a> {
    page: u64,
    slot: u64,
    why: Why<'a>,
}

enum Why<'a> {
    /// The first byte of an untouched page that is another: its offset in the page, what stands there and what should.
    Untouched(usize, u8, u8),
    /// The same of a header.
    Header(usize, u8, u8),
    /// The row that stands in the slot, and the one that should.
    Row(Option<Tuple<'a>>, Option<Vec<u8>>),
}

impl Difference<'_> {
    fn tell(&self, output: &mut Output) -> Result<(), Failure> {
        let Difference { page, slot, why } = self;
        let (what, stands, should) = match why {
            Why::Untouched(at, stands, should) => (
                format!("not touched by the log, first other byte at offset {at} of the page"),
                format!("0x{stands:02x}"),
                format!("0x{should:02x}"),
            ),
            Why::Header(at, stands, should) => (
                format!("header, first other byte at offset {at} of the page"),
                format!("0x{stands:02x}"),
                format!("0x{should:02x}"),
            ),
            Why::Row(stands, should) => (
                "row".to_string(),
                row_words(*stands),
                row_words(should.as_deref().and_then(Tuple::of)),
            ),
        };
        output.line(format_args!("page {page} slot {slot}: {what}"))?;
        output.line(format_args!("  stands: {stands}"))?;
        output.line(format_args!("  should: {should}"))
    }

    fn fields(&self) -> Json {
        let mut fields = vec![("page", self.page.into()), ("slot", self.slot.into())];
        let byte = |byte: &u8| Json::text(format_args!("{byte:02x}"));
        match &self.why {
            Why::Untouched(at, stands, should) | Why::Header(at, stands, should) => {
                let what = match self.why {
                    Why::Untouched(..) => "untouched page",
                    _ => "header",
                };
                fields.extend([
                    ("what", what.into()),
                    ("offset_in_page", (*at as u64).into()),
                    ("stands", byte(stands)),
                    ("should", byte(should)),
                ]);
            }
            Why::Row(stands, should) => fields.extend([
                ("what", "row".into()),
                ("stands", row_fields(*stands)),
                ("should", row_fields(should.as_deref().and_then(Tuple::of))),
            ]),
        }
        Json::Object(fields)
    }
}

/// A row's header, and its payload as text and as hexadecimal digits.
fn row_words(tuple: Option<Tuple>) -> String {
    let Some(tuple) = tuple else {
        return "no row".to_string();
    };
    let payload = tuple.payload();
    let text = match show::printable(payload) {
        Some(_) => format!(" {}", show::payload(payload, usize::MAX)),
        None => String::new(),
    };
    format!(
        "{}, xmin {}, xmax {}, pad {}, payload of {} bytes{text} 0x{}",
        state(tuple.is_deleted(), tuple.xmax()),
        tuple.xmin(),
        tuple.xmax(),
        tuple.pad(),
        payload.len(),
        show::hex(payload)
    )
}

fn row_fields(tuple: Option<Tuple>) -> Json {
    let Some(tuple) = tuple else {
        return Json::Null;
    };
    let payload = tuple.payload();
    Json::Object(vec![
        ("deleted", tuple.is_deleted().into()),
        ("xmin", tuple.xmin().into()),
        ("xmax", tuple.xmax().into()),
        ("pad", tuple.pad().into()),
        ("payload", Json::text(show::hex(payload))),
        (
            "text",
            show::printable(payload).map_or(Json::Null, Json::from),
        ),
    ])
}
