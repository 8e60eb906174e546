//! `verify`: whether every page is good, and which are not.

use library::{Verdict, PAGE_BYTES};

use crate::advice::{refusal_fields, text, unless_refused};
use crate::args::{Choice, Command, Parsed, JSON, MAGIC, QUIET};
use crate::failure::Failure;
use crate::fault;
use crate::input::{head_fields, Pages, Read};
use crate::json::Json;
use crate::output::Output;
use crate::show;

pub const COMMAND: Command = Command {
    name: "verify",
    about: "says whether every page is good",
    takes: &[super::PAGES],
    options: &[
        Choice::flag("--all", "list every bad page, not the first alone"),
        MAGIC,
        QUIET,
        JSON,
    ],
    more: "A page is good if its magic, type, id and checksum are right and, on a data page, every slot is. The first that is not\n\
           is refused: by 11 for its magic or type, 17 for its id, 18 for its checksum, 19 for a slot or what the header says of\n\
           slots.",
    run,
};

fn run(parsed: &Parsed, output: &mut Output) -> Result<(), Failure> {
    if parsed.flag("--all") && parsed.flag("--quiet") {
        return Err(parsed.wrong("--quiet does not go with --all".to_string()));
    }
    let pages = Pages::read(parsed)?;
    let verdict = library::verify(pages.magic, &pages.bytes);
    if parsed.flag("--all") && fault::bad_page(verdict).is_some() {
        return list(parsed, output, &pages, verdict);
    }
    unless_refused(parsed, output, verdict, Read::pages(&pages))?;

    let types = types(&pages);
    if parsed.flag("--json") {
        let mut fields = head_fields(parsed, "done", verdict);
        fields.extend(pages.fields());
        let types = types.iter().map(|&(name, count)| (name, count.into()));
        fields.push(("types", Json::Object(types.collect())));
        if parsed.flag("--all") {
            fields.push(("bad_pages", Json::List(Vec::new())));
        }
        return output.line(Json::Object(fields));
    }
    output.line(pages.line())?;
    let types: Vec<String> = types
        .iter()
        .map(|(name, count)| format!("{count} {name}"))
        .collect();
    output.line(format_args!("every page is good: {}", types.join(", ")))
}

/// Lists every bad page; then the first of them is refused.
fn list(
    parsed: &Parsed,
    output: &mut Output,
    pages: &Pages,
    verdict: Verdict,
) -> Result<(), Failure> {
    let read = Read {
        all_listed: true,
        ..Read::pages(pages)
    };
    if parsed.flag("--json") {
        let bad = fault::bad_pages(pages).map(|(_, verdict)| fault::bad_fields(pages, verdict));
        let mut fields = head_fields(parsed, "refused", verdict);
        fields.extend(refusal_fields(verdict, read));
        fields.extend(pages.fields());
        fields.push(("bad_pages", Json::List(bad.collect())));
        output.line(Json::Object(fields))?;
        return Err(Failure::Refused(String::new()));
    }
    output.line(pages.line())?;
    output.line("  page  refused by             found")?;
    let mut bad = 0;
    for (page, verdict) in fault::bad_pages(pages) {
        bad += 1;
        output.line(format_args!(
            "{page:>6}  {} {:<18}  {}",
            verdict.number,
            fault::name(verdict),
            fault::words(pages, verdict).unwrap_or_default()
        ))?;
    }
    output.line(format_args!(
        "{bad} of {} not good",
        show::count(pages.count() as u64, "page is", "pages are")
    ))?;
    Err(Failure::Refused(text(verdict, read)))
}

/// How many pages there are of each type that comes up.
fn types(pages: &Pages) -> Vec<(&'static str, u64)> {
    let mut types: Vec<(&'static str, u64)> = Vec::new();
    for page in pages.bytes.chunks_exact(PAGE_BYTES) {
        let name = show::page_type(page[8]);
        match types.iter_mut().find(|(known, _)| *known == name) {
            Some((_, count)) => *count += 1,
            None => types.push((name, 1)),
        }
    }
    types
}
