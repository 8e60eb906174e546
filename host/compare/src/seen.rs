//! What comparisons have seen: how often each call gave each answer, and where the two programs differ.

use std::collections::BTreeMap;
use std::fmt::{Debug, Display};

use generate::Case;
use library::Verdict;

/// One call and what both programs said.
#[derive(Clone, Debug)]
pub struct Told {
    pub call: String,
    pub library: String,
    pub oracle: String,
}

#[derive(Clone, Debug, Default)]
pub struct Seen {
    pub cases: u64,
    /// How often a call gave a number, or a step a kind.
    pub answers: BTreeMap<(&'static str, u64), u64>,
    /// How often something that the tests count came up.
    pub events: BTreeMap<&'static str, u64>,
    /// What kinds the cases were of.
    pub kinds: BTreeMap<&'static str, u64>,
    /// Every difference, in words.
    pub differences: Vec<String>,
    /// The answers of single calls, where they are wanted.
    pub told: Vec<Told>,
    tells: bool,
    case: String,
}

impl Seen {
    /// Keeps the answers of single calls if they are wanted.
    pub fn telling(tells: bool) -> Seen {
        Seen {
            tells,
            ..Seen::default()
        }
    }

    /// Starts a case; its differences carry this name.
    pub fn start(&mut self, case: String, kind: &'static str) {
        self.cases += 1;
        *self.kinds.entry(kind).or_default() += 1;
        self.case = case;
    }

    pub fn event(&mut self, event: &'static str) {
        *self.events.entry(event).or_default() += 1;
    }

    pub fn differs(&mut self, what: impl Display) {
        self.differences.push(format!("{}: {what}", self.case));
    }

    /// Something that must hold of the library's answers alone.
    pub fn must(&mut self, holds: bool, what: impl FnOnce() -> String) {
        if !holds {
            self.differs(what());
        }
    }

    /// A case that was made for an answer which this call can give gets it.
    pub(crate) fn meets_aim(&mut self, case: &Case, possible: &[u64], verdict: Verdict) {
        let Some(aim) = case.aim.filter(|aim| possible.contains(&aim.number)) else {
            return;
        };
        self.event("aim");
        self.must(
            (verdict.number, verdict.place) == (aim.number, aim.place),
            || format!("made for {aim:?}, answered {verdict:?}"),
        );
    }

    /// Both programs' answers to a call, which gave a number.
    pub fn answers<T: PartialEq + Debug>(
        &mut self,
        entry: &'static str,
        number: u64,
        call: impl Display,
        library: &T,
        oracle: &T,
    ) {
        *self.answers.entry((entry, number)).or_default() += 1;
        if library != oracle {
            self.differs(format_args!(
                "{entry} {call}: library {library:?}, oracle {oracle:?}"
            ));
        }
        if self.tells {
            self.told.push(Told {
                call: format!("{entry} {call}").trim_end().to_string(),
                library: format!("{library:?}"),
                oracle: format!("{oracle:?}"),
            });
        }
    }

    /// What both programs left in a lent buffer.
    pub fn items<T: PartialEq + Debug>(&mut self, what: impl Display, library: &[T], oracle: &[T]) {
        if library == oracle {
            return;
        }
        let mut pairs = library.iter().zip(oracle);
        match pairs.position(|(one, other)| one != other) {
            Some(at) => self.differs(format_args!(
                "{what}: differs first at {at}, library {:?}, oracle {:?}",
                library[at], oracle[at]
            )),
            None => self.differs(format_args!(
                "{what}: {} and {} items",
                library.len(),
                oracle.len()
            )),
        }
    }

    /// How often a call gave a number.
    pub fn times(&self, entry: &'static str, number: u64) -> u64 {
        self.answers.get(&(entry, number)).copied().unwrap_or(0)
    }

    /// How often any call gave a refusal's number.
    pub fn reached(&self, number: u64) -> u64 {
        let refusing = self.answers.iter().filter(|((entry, n), _)| {
            *n == number
                && !matches!(
                    *entry,
                    "log_forward" | "log_backward" | "summary_step" | "crc32c"
                )
        });
        refusing.map(|(_, times)| times).sum()
    }

    pub fn events(&self, event: &'static str) -> u64 {
        self.events.get(event).copied().unwrap_or(0)
    }

    pub fn calls(&self) -> u64 {
        self.answers.values().sum()
    }

    /// Adds what another comparison has seen.
    pub fn add(&mut self, other: Seen) {
        self.cases += other.cases;
        for (answer, times) in other.answers {
            *self.answers.entry(answer).or_default() += times;
        }
        for (event, times) in other.events {
            *self.events.entry(event).or_default() += times;
        }
        for (kind, times) in other.kinds {
            *self.kinds.entry(kind).or_default() += times;
        }
        self.differences.extend(other.differences);
        self.told.extend(other.told);
    }
}
