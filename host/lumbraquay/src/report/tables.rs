//! The tables of a report. Of very many rows the first are shown, and how many more there are.

use std::collections::BTreeMap;

use crate::changes::Change;
use crate::mended::Mended;
use crate::show;
use crate::tuple::{state, Tuple};

use super::safe;

/// How many rows a table has at most.
const MOST_ROWS: usize = 1_000;

/// How many letters of a payload are shown.
const SHOWN: usize = 300;

fn more(all: usize) -> String {
    match all.saturating_sub(MOST_ROWS) {
        0 => String::new(),
        more => format!("<p class=\"note\">{more} more are not shown.</p>\n"),
    }
}

fn row(tuple: Option<Tuple>) -> String {
    let Some(tuple) = tuple else {
        return "<td class=\"none\">no row</td>".to_string();
    };
    let payload = safe(&show::payload(tuple.payload(), SHOWN));
    let (xmin, xmax) = (tuple.xmin(), tuple.xmax());
    let (class, words) = match state(tuple.is_deleted(), xmax) {
        "live" => ("row", String::new()),
        other => ("row deleted", format!("{other}, ")),
    };
    format!("<td class=\"{class}\"><code>{payload}</code><small>{words}xmin {xmin}, xmax {xmax}</small></td>")
}

/// Each changed row before and after.
pub fn changes(mended: &Mended, changes: &[Change]) -> String {
    if changes.is_empty() {
        return "<p class=\"note\">Every row is as it should be.</p>\n".to_string();
    }
    let mut html = String::from(
        "<div class=\"wide\"><table>\n<tr><th>Page<th>Slot<th>On disk<th>Recovered<th>Why</tr>\n",
    );
    let outcomes = mended.records.iter().map(|it| (it.number, it.outcome));
    let outcomes: BTreeMap<u64, u64> = outcomes.collect();
    for change in changes.iter().take(MOST_ROWS) {
        let (page, slot) = change.place;
        let outcome = change.by.and_then(|by| outcomes.get(&by.transaction));
        let class = outcome.map_or("alone", |outcome| class(*outcome));
        html += &format!(
            "<tr><td class=\"n\">{page}</td><td class=\"n\">{slot}</td>{}{}<td><span class=\"mark {class}\"></span>{}</td></tr>\n",
            row(change.before),
            row(change.after),
            safe(&change.why())
        );
    }
    html + "</table></div>\n" + &more(changes.len())
}

/// What became of each transaction.
pub fn transactions(mended: &Mended) -> String {
    if mended.records.is_empty() {
        return "<p class=\"note\">The log has none.</p>\n".to_string();
    }
    let mut html = String::from(
        "<div class=\"wide\"><table>\n<tr><th>Number<th>First LSN<th>Last change<th>Ending LSN<th>Changes<th>Outcome</tr>\n",
    );
    for record in mended.records.iter().take(MOST_ROWS) {
        let outcome = match record.outcome {
            library::UNENDED => "never ended",
            outcome => show::outcome(outcome),
        };
        html += &format!(
            "<tr><td class=\"n\">{}</td><td class=\"n\">{}</td><td class=\"n\">{}</td><td class=\"n\">{}</td><td class=\"n\">{}</td><td><span class=\"mark {}\"></span>{outcome}</td></tr>\n",
            record.number,
            record.first_lsn,
            record.last_change_lsn,
            record.ending_lsn,
            record.changes,
            class(record.outcome)
        );
    }
    html + "</table></div>\n" + &more(mended.records.len())
}

/// The class, and so the colour, of an outcome.
pub fn class(outcome: u64) -> &'static str {
    match outcome {
        library::COMMITTED => "committed",
        library::ROLLED_BACK => "rolled",
        _ => "unended",
    }
}
