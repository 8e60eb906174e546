//! The random histories are honest in the paper's words: every sentence about
//! an honest history is checked on the list of steps.

use std::collections::BTreeMap;

use generate::{tuples_on, Entry, History, Ledger, Rng, Step, Style};
use oracle::PAGE_BYTES;

type Image = Option<Vec<u8>>;

/// What a history is found at fault with.
type Fault = &'static str;

fn ensure(holds: bool, fault: Fault) -> Result<(), Fault> {
    holds.then_some(()).ok_or(fault)
}

/// A transaction that has not ended, while its history is told.
#[derive(Default)]
struct Unended {
    /// Every slot it has changed.
    slots: Vec<(u64, u16)>,
    /// Its changes to Data pages with their before-images, oldest first.
    changes: Vec<((u64, u16), Image)>,
    restored: usize,
}

/// The slots and the transactions as they stand between two steps.
struct Telling<'a> {
    history: &'a History,
    slots: Ledger,
    unended: BTreeMap<u64, Unended>,
    begun: Vec<u64>,
    last_lsn: u64,
}

impl Telling<'_> {
    fn is_data(&self, page: u64) -> bool {
        let mut pages = self.history.start_pages.chunks(PAGE_BYTES);
        pages.nth(page as usize).is_some_and(|page| page[8] == 1)
    }

    /// A restoring puts back the newest before-image that its transaction has
    /// not restored yet.
    fn restore(&mut self, at: (u64, u16), image: &Image) -> Result<(), Fault> {
        let mut holders = self.unended.values_mut();
        let by = holders
            .find(|it| it.slots.contains(&at))
            .ok_or("restored by no unended transaction")?;
        ensure(by.restored < by.changes.len(), "nothing left to restore")?;
        let newest = &by.changes[by.changes.len() - 1 - by.restored];
        ensure(
            newest == &(at, image.clone()),
            "not the newest before-image",
        )?;
        by.restored += 1;
        match image {
            Some(tuple) => self.slots.insert(at, tuple.clone()),
            None => self.slots.remove(&at),
        };
        Ok(())
    }

    /// A change finds its before-image in its slot and leaves its after-image.
    fn change(&mut self, entry: &Entry) -> Result<(), Fault> {
        let number = entry.transaction;
        let at = entry.target();
        for (other, it) in &self.unended {
            ensure(*other == number || !it.slots.contains(&at), "clash")?;
        }
        let on_data = self.is_data(at.0);
        match self.unended.get_mut(&number) {
            Some(by) => {
                ensure(by.restored == 0, "change after a restoring")?;
                by.slots.push(at);
                if on_data {
                    by.changes.push((at, entry.before_image()));
                }
            }
            None => ensure(number == 0, "change by no transaction")?,
        }
        if on_data {
            let found = self.slots.insert(at, entry.after_image());
            ensure(found == entry.before_image(), "before-image not found")?;
        }
        Ok(())
    }

    fn entry(&mut self, entry: &Entry) -> Result<(), Fault> {
        let number = entry.transaction;
        ensure(entry.lsn > self.last_lsn, "LSN")?;
        self.last_lsn = entry.lsn;
        match entry.kind {
            1 => {
                ensure(number != 0 && !self.begun.contains(&number), "begin")?;
                self.begun.push(number);
                self.unended.insert(number, Unended::default());
            }
            2 => {
                let ended = self.unended.remove(&number).ok_or("commit of none")?;
                ensure(ended.restored == 0, "commit after a restoring")?;
            }
            3 => {
                let ended = self.unended.remove(&number).ok_or("rollback of none")?;
                ensure(ended.restored == ended.changes.len(), "not all restored")?;
            }
            7 => ensure(number == 0, "checkpoint")?,
            _ => self.change(entry)?,
        }
        Ok(())
    }

    /// Some good page can hold the slots of each page.
    fn all_fit(&self) -> bool {
        let mut needed: BTreeMap<u64, (usize, usize)> = BTreeMap::new();
        for (&(page, slot), tuple) in &self.slots {
            let (count, bytes) = needed.entry(page).or_default();
            *count = slot as usize + 1;
            *bytes += tuple.len();
        }
        let mut needed = needed.values();
        needed.all(|(count, bytes)| 4 * count + bytes <= 16_320)
    }
}

/// Tells a history step by step; gives how many restorings it has.
fn tell(history: &History) -> Result<usize, Fault> {
    let mut telling = Telling {
        history,
        slots: tuples_on(&history.start_pages),
        unended: BTreeMap::new(),
        begun: Vec::new(),
        last_lsn: 0,
    };
    let (mut written, mut restorings) = (0, 0);
    for step in &history.steps {
        match step {
            Step::Restore { page, slot, image } => {
                telling.restore((*page, *slot), image)?;
                restorings += 1;
            }
            Step::Entry(index) => {
                ensure(*index == written, "entries out of order")?;
                telling.entry(&history.entries[*index])?;
                written += 1;
            }
        }
        ensure(telling.all_fit(), "slots that fit no page")?;
    }
    ensure(written == history.entries.len(), "entries left over")?;
    Ok(restorings)
}

#[test]
fn histories_are_honest() {
    let mut rng = Rng::new(9);
    let mut restorings = 0;
    for _ in 0..1_500 {
        let style = Style::any(&mut rng);
        let strays = rng.one_in(4);
        restorings += tell(&History::random(&mut rng, style, strays)).unwrap();
    }
    assert!(restorings > 500, "{restorings}");
}

/// The telling itself finds fault with histories that are not honest.
#[test]
fn dishonest_histories_are_found() {
    let mut rng = Rng::new(10);
    let mut found: BTreeMap<Fault, u64> = BTreeMap::new();
    for _ in 0..600 {
        let mut history = History::random(&mut rng, Style::Calm, false);
        if history.steps.len() < 20 {
            continue;
        }
        // One step is left out, or two neighbours change places.
        let at = rng.size(0, history.steps.len() - 2);
        if rng.one_in(2) {
            history.steps.remove(at);
        } else {
            history.steps.swap(at, at + 1);
        }
        if let Err(fault) = tell(&history) {
            *found.entry(fault).or_default() += 1;
        }
    }
    assert!(found["entries out of order"] > 50, "{found:?}");
    assert!(found["not all restored"] > 2, "{found:?}");
    assert!(found["not the newest before-image"] > 1, "{found:?}");

    let mut history = History::random(&mut rng, Style::Calm, false);
    while !history.entries.iter().any(|entry| entry.kind == 10) {
        history = History::random(&mut rng, Style::Calm, false);
    }
    let mut entries = history.entries.iter_mut();
    let update = entries.find(|entry| entry.kind == 10).unwrap();
    update.old[30] ^= 1;
    assert_eq!(tell(&history), Err("before-image not found"));
}
