//! `doublewrite`: writes a double-write file of some pages.

use library::Verdict;

use crate::advice::unless_refused;
use crate::args::{Choice, Command, Parsed, JSON, MAGIC, QUIET};
use crate::failure::Failure;
use crate::fault;
use crate::input::{head_fields, Pages, Read};
use crate::json::Json;
use crate::memory;
use crate::output::Output;
use crate::show;
use crate::target::{Target, FORCE};

pub const COMMAND: Command = Command {
    name: "doublewrite",
    about: "writes a double-write file of some pages, from which `repair` restores them",
    takes: &[super::PAGES],
    options: &[
        Choice::value("--pages", "LIST", "which pages, in rising order, as 0,1,7-9; all where not given"),
        Choice::value("--out", "FILE", "the new file; PAGES.dw where not given; - for standard output, and the report goes to standard error"),
        FORCE,
        MAGIC,
        QUIET,
        JSON,
    ],
    more: "The pages are copied as they stand. `repair` takes no copy that is not a good page, so those are told.\n\
           The new file is written under another name in the same directory, synced and renamed, so it is never seen half-written.",
    run,
};

fn run(parsed: &Parsed, output: &mut Output) -> Result<(), Failure> {
    let pages = Pages::read(parsed)?;
    let list = list(parsed, pages.count() as u64)?;
    let target = Target::of(parsed, None, ".dw", &[parsed.path(0)])?;
    let length = library::doublewrite_bytes(list.len());
    let mut file = memory::room(length)?;
    file.resize(length, 0);
    let answer = library::doublewrite_write(&pages.bytes, &list, &mut file);
    let read = Read::pages(&pages).listing(&list);
    unless_refused(parsed, output, answer.verdict(), read)?;
    let bad: Vec<(u64, Verdict)> = fault::bad_pages(&pages)
        .filter(|(page, _)| list.binary_search(page).is_ok())
        .collect();
    let written = target.write(parsed, output, &pages, &[], &file)?;
    if parsed.flag("--json") {
        let mut fields = head_fields(parsed, written.result(), answer.verdict());
        fields.extend(pages.fields());
        let list = list.into_iter().map(Json::from).collect();
        let bad = bad
            .iter()
            .map(|(_, verdict)| fault::bad_fields(&pages, *verdict));
        fields.extend([
            ("copied_pages", Json::List(list)),
            ("bad_pages", Json::List(bad.collect())),
            ("doublewrite_bytes", answer.length.into()),
        ]);
        fields.extend(written.fields(&pages));
        return output.line(Json::Object(fields));
    }
    output.line(pages.line())?;
    let copied = show::count(list.len() as u64, "page", "pages");
    match list.is_empty() {
        true => output.line(format_args!("  copied:       {copied}"))?,
        false => output.line(format_args!(
            "  copied:       {copied}: {}",
            show::ranges(&list)
        ))?,
    }
    for (page, verdict) in bad {
        output.line(format_args!(
            "  not good:     page {page}, by {} {}: its copy restores nothing",
            verdict.number,
            fault::name(verdict)
        ))?;
    }
    output.line(written.words("double-write file", "writing", &pages))
}

/// The pages of --pages: numbers and ranges, with commas between. A range that goes past the pages names one that is not
/// there, and no more of them.
fn list(parsed: &Parsed, pages: u64) -> Result<Vec<u64>, Failure> {
    let Some(text) = parsed.chosen_text("--pages") else {
        return Ok((0..pages).collect());
    };
    let mut list = Vec::new();
    for item in text.split(',').filter(|_| !text.is_empty()) {
        let (first, last) = match item.split_once('-') {
            Some((first, last)) => (first, last),
            None => (item, item),
        };
        let number = |text: &str| {
            let number = parsed.parse("--pages", text.as_ref(), u64::MAX);
            number.map_err(|_| {
                let most = u64::MAX;
                parsed.wrong(format!(
                    "--pages has '{item}', not a number up to {most} nor two with - between"
                ))
            })
        };
        let (first, last) = (number(first)?, number(last)?);
        if last < first {
            return Err(parsed.wrong(format!("--pages has '{item}', which goes backward")));
        }
        list.extend(first..=last.min(first.max(pages)));
    }
    Ok(list)
}
