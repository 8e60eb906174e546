//! `transactions`: when each transaction began, last changed something and was final, and what became of it.

use std::collections::{BTreeMap, BTreeSet};

use library::Record;

use crate::advice::unless_refused;
use crate::args::{Choice, Command, Parsed, CATALOG, FLOOR, JSON, LOG_UNTIL, MAGIC};
use crate::catalog::Catalog;
use crate::failure::Failure;
use crate::input::{head_fields, Log, Pages};
use crate::json::Json;
use crate::mended::{record_fields, record_line, Mended, TRANSACTIONS};
use crate::output::Output;
use crate::show;
use crate::walk;

pub const COMMAND: Command = Command {
    name: "transactions",
    about: "lists the transactions of the log: when each began, last changed a row and ended, and how",
    takes: &[super::PAGES, super::LOG],
    options: &[
        Choice::value(
            "--outcome",
            "OUTCOME",
            "only those that are committed, rolled-back or unended",
        ),
        CATALOG,
        MAGIC,
        FLOOR,
        LOG_UNTIL,
        JSON,
    ],
    more: "An LSN is 0 where there is no such entry. Nothing is written, and what recovery would refuse is refused.\n\
           With --catalog the tables that each transaction changed stand behind it.",
    run,
};

/// The names of the tables that each transaction changed, by table id.
struct Tables {
    changed: BTreeMap<u64, BTreeSet<u64>>,
    catalog: Catalog,
}

impl Tables {
    fn of(log: &Log, catalog: Catalog) -> Tables {
        let mut changed: BTreeMap<u64, BTreeSet<u64>> = BTreeMap::new();
        for step in walk::entries(&log.bytes).filter(walk::is_change) {
            changed
                .entry(step.transaction)
                .or_default()
                .insert(step.table);
        }
        Tables { changed, catalog }
    }

    /// Those of one transaction; a table that the catalog does not have goes by its id.
    fn by(&self, transaction: u64) -> Vec<String> {
        let ids = self.changed.get(&transaction).into_iter().flatten();
        ids.map(|&id| match self.catalog.names.get(id) {
            Some(name) => name.to_string(),
            None => format!("table {id}"),
        })
        .collect()
    }
}

fn run(parsed: &Parsed, output: &mut Output) -> Result<(), Failure> {
    let outcome = parsed.chosen_name("--outcome", show::OUTCOMES)?;
    let pages = Pages::read(parsed)?;
    let log = Log::read(parsed, 1)?;
    let catalog = Catalog::read(parsed, output, &log)?;
    let mended = Mended::of(parsed, pages, log, None)?;
    unless_refused(parsed, output, mended.answer.verdict(), mended.read())?;
    let tables = catalog.map(|catalog| Tables::of(&mended.log, catalog));

    let is_asked = |record: &&Record| outcome.is_none_or(|name| name == option_name(record));
    let asked: Vec<&Record> = mended.records.iter().filter(is_asked).collect();
    if parsed.flag("--json") {
        let mut fields = head_fields(parsed, "done", mended.answer.verdict());
        fields.extend(mended.fields());
        if let Some(tables) = &tables {
            let path = tables.catalog.pages.path.display();
            fields.push(("catalog_file", Json::text(path)));
        }
        let asked = asked.iter().map(|record| fields_of(record, &tables));
        fields.push(("transactions", Json::List(asked.collect())));
        return output.line(Json::Object(fields));
    }
    output.line(mended.pages.line())?;
    output.line(format_args!(
        "{}, floor {}",
        mended.log.line(),
        mended.floor
    ))?;
    output.line(TRANSACTIONS)?;
    for record in &asked {
        let names = match &tables {
            Some(tables) => format!("  {}", tables.by(record.number).join(", ")),
            None => String::new(),
        };
        let line = record_line(record) + &names;
        output.line(line.trim_end())?;
    }
    let all = mended.records.len();
    let part = match asked.len() < all {
        true => format!("{} of ", asked.len()),
        false => String::new(),
    };
    let answer = &mended.answer;
    output.line(format_args!(
        "{part}{}: {} committed, {} rolled back, {} unended",
        show::count(all as u64, "transaction", "transactions"),
        answer.committed,
        answer.rolled_back,
        answer.unended
    ))
}

/// Its outcome, as --outcome names it.
fn option_name(record: &Record) -> &'static str {
    let mut names = show::OUTCOMES.iter();
    names
        .find(|(number, _)| *number == record.outcome)
        .map_or("", |(_, name)| name)
}

fn fields_of(record: &Record, tables: &Option<Tables>) -> Json {
    let mut fields = record_fields(record);
    if let Some(tables) = tables {
        let names = tables.by(record.number).into_iter().map(Json::Text);
        fields.push(("tables", Json::List(names.collect())));
    }
    Json::Object(fields)
}
