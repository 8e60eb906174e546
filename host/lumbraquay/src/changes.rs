//! What recovery changes, slot by slot: the pages before and after it compared, and the log asked who decided.

use std::collections::{BTreeMap, BTreeSet};

use library::{Step, PAGE_BYTES};

use crate::failure::Failure;
use crate::json::Json;
use crate::output::Output;
use crate::tuple::{self, Tuple};
use crate::walk::{self, Place};

/// How many letters of a payload stand in a line of text.
const SHOWN: usize = 200;

/// A slot that does not hold the same after recovery.
pub struct Change<'a> {
    pub place: Place,
    pub before: Option<Tuple<'a>>,
    pub after: Option<Tuple<'a>>,
    /// The entry that decided, and whether its change lasts or was taken back.
    pub by: Option<Step>,
    pub lasts: bool,
}

/// Every slot that differs between pages that are all good, in order.
pub fn changes<'a>(old: &'a [u8], new: &'a [u8], log: &[u8]) -> Vec<Change<'a>> {
    let deciding = deciding(log);
    let mut changes = Vec::new();
    let pairs = old
        .chunks_exact(PAGE_BYTES)
        .zip(new.chunks_exact(PAGE_BYTES));
    for (index, (old, new)) in (0..).zip(pairs) {
        if old == new {
            continue;
        }
        for slot in 0..tuple::slot_count(old).max(tuple::slot_count(new)) {
            let (before, after) = (tuple::in_slot(old, slot), tuple::in_slot(new, slot));
            if before == after {
                continue;
            }
            let place = (index, slot as u16);
            let (by, lasts) = deciding.get(&place).copied().unzip();
            changes.push(Change {
                place,
                before,
                after,
                by,
                lasts: lasts.unwrap_or(false),
            });
        }
    }
    changes
}

/// For each slot of which the log speaks the last change that committed, or the first of all if none did.
fn deciding(log: &[u8]) -> BTreeMap<Place, (Step, bool)> {
    let committed: BTreeSet<u64> = walk::entries(log)
        .filter(walk::is_commit)
        .map(|step| step.transaction)
        .chain([0])
        .collect();
    let mut deciding = BTreeMap::new();
    for step in walk::entries(log) {
        let Some(place) = walk::target(log, &step) else {
            continue;
        };
        match committed.contains(&step.transaction) {
            true => {
                deciding.insert(place, (step, true));
            }
            false => {
                deciding.entry(place).or_insert((step, false));
            }
        }
    }
    deciding
}

impl Change<'_> {
    pub fn why(&self) -> String {
        match (&self.by, self.lasts) {
            (None, _) => String::new(),
            (Some(by), true) => format!("by transaction {}, LSN {}", by.transaction, by.lsn),
            (Some(by), false) => format!(
                "taken back: transaction {}, from LSN {} on",
                by.transaction, by.lsn
            ),
        }
    }

    pub fn tell(&self, output: &mut Output) -> Result<(), Failure> {
        let (page, slot) = self.place;
        output.line(format_args!("  page {page} slot {slot}, {}", self.why()))?;
        output.line(format_args!(
            "    before: {}",
            tuple::words(self.before, SHOWN)
        ))?;
        output.line(format_args!(
            "    after:  {}",
            tuple::words(self.after, SHOWN)
        ))
    }

    pub fn fields(&self) -> Json {
        let (page, slot) = self.place;
        let number = |of: fn(&Step) -> u64| self.by.as_ref().map_or(Json::Null, |by| of(by).into());
        Json::Object(vec![
            ("page", page.into()),
            ("slot", u64::from(slot).into()),
            ("before", tuple::fields(self.before)),
            ("after", tuple::fields(self.after)),
            ("lasts", self.lasts.into()),
            ("transaction", number(|by| by.transaction)),
            ("lsn", number(|by| by.lsn)),
            ("offset", number(|by| by.offset)),
        ])
    }
}
