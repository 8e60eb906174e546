//! What the entries of a log are, in numbers.

use std::collections::{BTreeMap, BTreeSet};

use library::Step;

use crate::catalog::TableNames;
use crate::failure::Failure;
use crate::json::Json;
use crate::output::Output;
use crate::show;
use crate::walk::{self, Place};

/// Entries and their bytes.
#[derive(Clone, Copy, Default)]
struct Sum {
    entries: u64,
    bytes: u64,
}

impl Sum {
    fn add(&mut self, step: &Step) {
        self.entries += 1;
        self.bytes += step.length;
    }

    fn fields(&self) -> Vec<(&'static str, Json)> {
        vec![
            ("entries", self.entries.into()),
            ("bytes", self.bytes.into()),
        ]
    }
}

#[derive(Default)]
pub struct Stats {
    all: Sum,
    types: BTreeMap<u64, Sum>,
    tables: BTreeMap<u64, Sum>,
    lsns: Option<(u64, u64)>,
    begun: u64,
    committed: u64,
    rolled_back: u64,
    pages: BTreeSet<u64>,
    slots: BTreeSet<Place>,
    changes: u64,
}

impl Stats {
    pub fn add(&mut self, step: &Step, target: Option<Place>) {
        self.all.add(step);
        self.types.entry(step.entry_type).or_default().add(step);
        let (lowest, highest) = self.lsns.unwrap_or((step.lsn, step.lsn));
        self.lsns = Some((lowest.min(step.lsn), highest.max(step.lsn)));
        if let Some(place) = target {
            self.changes += 1;
            self.pages.insert(place.0);
            self.slots.insert(place);
            self.tables.entry(step.table).or_default().add(step);
        }
        self.begun += u64::from(walk::is_begin(step));
        self.committed += u64::from(walk::is_commit(step));
        self.rolled_back += u64::from(walk::is_rollback(step));
    }

    pub fn tell(&self, output: &mut Output, names: Option<&TableNames>) -> Result<(), Failure> {
        output.line("  type            entries       bytes  of all bytes")?;
        for (number, sum) in &self.types {
            self.tell_sum(output, show::entry_type(*number), sum, "")?;
        }
        for (table, sum) in &self.tables {
            let name = names.and_then(|names| names.get(*table));
            self.tell_sum(output, &format!("table {table}"), sum, name.unwrap_or(""))?;
        }
        self.tell_sum(output, "all", &self.all, "")?;
        if let Some((lowest, highest)) = self.lsns {
            output.line(format_args!("  LSN {lowest} to {highest}"))?;
        }
        output.line(format_args!(
            "  transactions: {} begun, {} committed, {} rolled back",
            self.begun, self.committed, self.rolled_back
        ))?;
        output.line(format_args!(
            "  {} to {} of {}",
            show::count(self.changes, "change", "changes"),
            show::count(self.slots.len() as u64, "slot", "slots"),
            show::count(self.pages.len() as u64, "page", "pages")
        ))
    }

    fn tell_sum(
        &self,
        output: &mut Output,
        what: &str,
        sum: &Sum,
        name: &str,
    ) -> Result<(), Failure> {
        let share = 100.0 * sum.bytes as f64 / self.all.bytes.max(1) as f64;
        let line = format!(
            "  {what:<13}  {:>8}  {:>10}  {share:>11.1}%  {name}",
            sum.entries, sum.bytes
        );
        output.line(line.trim_end())
    }

    pub fn fields(&self, names: Option<&TableNames>) -> Json {
        let types = self.types.iter().map(|(number, sum)| {
            let mut fields = vec![
                ("type", (*number).into()),
                ("type_name", show::entry_type(*number).into()),
            ];
            fields.extend(sum.fields());
            Json::Object(fields)
        });
        let tables = self.tables.iter().map(|(table, sum)| {
            let mut fields = vec![("table", (*table).into())];
            if let Some(names) = names {
                let name = names.get(*table).map_or(Json::Null, Json::from);
                fields.push(("table_name", name));
            }
            fields.extend(sum.fields());
            Json::Object(fields)
        });
        let (lowest, highest) = self.lsns.unzip();
        let lsn = |lsn: Option<u64>| lsn.map_or(Json::Null, Json::from);
        let mut fields = self.all.fields();
        fields.extend([
            ("types", Json::List(types.collect())),
            ("tables", Json::List(tables.collect())),
            ("lowest_lsn", lsn(lowest)),
            ("highest_lsn", lsn(highest)),
            ("begun", self.begun.into()),
            ("committed", self.committed.into()),
            ("rolled_back", self.rolled_back.into()),
            ("changes", self.changes.into()),
            ("slots", self.slots.len().into()),
            ("pages", self.pages.len().into()),
        ]);
        Json::Object(fields)
    }
}
