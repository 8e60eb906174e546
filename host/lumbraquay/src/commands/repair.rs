//! `repair`: restores torn pages from a double-write file and writes them to a new file, or in place with a backup.

use crate::advice::unless_refused;
use crate::args::{Choice, Command, Parsed, JSON, MAGIC, QUIET};
use crate::doublewrite::{Doublewrite, Repaired};
use crate::failure::Failure;
use crate::input::{head_fields, Pages, Read};
use crate::json::Json;
use crate::output::Output;
use crate::target::{self, Target, DRY_RUN, FORCE, IN_PLACE};

pub const COMMAND: Command = Command {
    name: "repair",
    about: "restores torn pages from a double-write file and writes all pages to a new file",
    takes: &[super::PAGES, ("FILE.dw", "the double-write file; - for standard input")],
    options: &[
        Choice::value("--out", "FILE", "the new file; PAGES.repaired where not given; - for standard output, and the report goes to standard error"),
        FORCE,
        IN_PLACE,
        DRY_RUN,
        MAGIC,
        QUIET,
        JSON,
    ],
    more: "A page is taken from its copy exactly where its body's checksum is wrong and the copy is a good page with its number; every\n\
           other page keeps its bytes. Where --magic is not given, page 0 is torn and no whole page has its magic, that of its copy is taken.\n\
           Comes before `recover`, whose --dw does both and writes once.\n\
           The new file is written under another name in the same directory, synced and renamed, so it is never seen half-written.\n\
           A run that was broken off may be repeated. FILE.dw is never changed: keep it until the pages are recovered.\n\
           --in-place takes the lock of PAGES (flock) and stops, with all as it was, if another process holds it, has PAGES open for\n\
           writing, or changes PAGES or FILE.dw before the end. Owner, rights, extended attributes and access lists are kept.",
    run,
};

fn run(parsed: &Parsed, output: &mut Output) -> Result<(), Failure> {
    let held = target::held(parsed)?;
    let mut pages = match &held {
        Some(held) => Pages::read_held(parsed, held)?,
        None => Pages::read(parsed)?,
    };
    let file = Doublewrite::read(parsed.path(1))?;
    let inputs = [parsed.path(0), parsed.path(1)];
    let target = Target::of(parsed, held, ".repaired", &inputs)?;
    let repaired = Repaired::of(parsed, &mut pages, file)?;
    let verdict = repaired.answer.verdict();
    let read = Read::pages(&pages).with(&repaired.file);
    unless_refused(parsed, output, verdict, read)?;
    let others = [&repaired.file.seen];
    let written = target.write(parsed, output, &pages, &others, &pages.bytes)?;
    if parsed.flag("--json") {
        let mut fields = head_fields(parsed, written.result(), verdict);
        fields.extend(pages.fields());
        fields.extend(repaired.fields());
        fields.extend(written.fields(&pages));
        return output.line(Json::Object(fields));
    }
    output.line(pages.line())?;
    repaired.tell(output)?;
    output.line(written.words("repaired", "repair", &pages))
}
