//! `table`: which table an id is, by the first visible row that names it.

use library::Listed;

use crate::advice::unless_refused;
use crate::args::{Command, Parsed, JSON, MAGIC};
use crate::catalog::TableRow;
use crate::failure::Failure;
use crate::input::{head_fields, Pages, Read};
use crate::json::Json;
use crate::output::Output;
use crate::tuple::Tuple;

pub const COMMAND: Command = Command {
    name: "table",
    about: "says which table an id is, by the catalog's rows",
    takes: &[super::PAGES, ("ID", "the table's id, as log entries have it")],
    options: &[MAGIC, JSON],
    more: "The first visible row counts whose payload reads as a table's row and has this id. Rows come as they stand in the file: recover\n\
           it first.",
    run,
};

fn run(parsed: &Parsed, output: &mut Output) -> Result<(), Failure> {
    let id = parsed.number(1, u32::MAX.into())?;
    let pages = Pages::read(parsed)?;
    let found = library::table_find(pages.magic, &pages.bytes, id as u32);
    unless_refused(parsed, output, found.verdict(), Read::pages(&pages))?;

    let at = Listed::from([found.page, found.slot, found.length, found.offset]);
    let tuple = &pages.bytes[at.offset as usize..][..at.length as usize];
    let row = Tuple::of(tuple).and_then(|tuple| TableRow::of(at, tuple.payload()));
    if parsed.flag("--json") {
        let mut fields = head_fields(parsed, "done", found.verdict());
        fields.extend(pages.fields());
        fields.extend([("asked", id.into()), ("found", row.is_some().into())]);
        fields.extend(row.map_or(Vec::new(), |row| row.fields()));
        return output.line(Json::Object(fields));
    }
    output.line(pages.line())?;
    let Some(row) = row else {
        return output.line(format_args!("table {id}: no visible row names it"));
    };
    output.line(format_args!(
        "table {id}: {}, {}, root page {}, version {}",
        row.name(),
        row.layout(),
        row.table.root,
        row.table.version
    ))?;
    output.line(format_args!(
        "page {} slot {}, payload of {} bytes at offset {} of the pages",
        at.page,
        at.slot,
        row.payload.len(),
        at.offset + at.length - row.payload.len() as u64
    ))
}
