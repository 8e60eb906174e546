//! A random honest history: good starting pages, a log, and the list of entries
//! and restorings that the pages have felt or will feel.

use std::collections::BTreeSet;

use crate::entry::{log_header, Entry, BEGIN, CHECKPOINT, COMMIT, ROLLBACK};
use crate::page::{fits, page_type, slots_of, Slots, DATA, PAGE_BYTES};
use crate::rng::Rng;
use crate::style::{any_page, any_tuple, room_for, Style, LEAST_TUPLE};

/// One step of a history.
#[derive(Clone, Debug)]
pub enum Step {
    /// The entry of this index is written; a change also alters its slot.
    Entry(usize),
    /// A transaction that rolls back puts a before-image back in its slot.
    Restore {
        page: u64,
        slot: u16,
        image: Option<Vec<u8>>,
    },
}

#[derive(Clone, Debug)]
pub struct History {
    pub style: Style,
    pub magic: u64,
    pub floor: u64,
    pub start_pages: Vec<u8>,
    pub header: Vec<u8>,
    pub entries: Vec<Entry>,
    /// Where each entry starts in the log, and last the log's length.
    pub offsets: Vec<usize>,
    pub log: Vec<u8>,
    pub steps: Vec<Step>,
}

impl History {
    /// A random history. With strays, the log may hold changes to pages that
    /// are not lent or not of type 1.
    pub fn random(rng: &mut Rng, style: Style, strays: bool) -> History {
        let magic = rng.number();
        let page_count = match rng.below(10) {
            0 => 0,
            1 => rng.size(5, 12),
            _ => rng.size(1, 4),
        };
        let most_steps = match style {
            Style::Full => 20,
            _ => *rng.pick(&[5, 40, 120]),
        };
        let steps = rng.size(0, most_steps);
        let gap = *rng.pick(&[1, 2, 1_000, 1 << 50]);
        let start_lsn = *rng.pick(&[0, 0, 1 << 40, u64::MAX - (1 << 60)]);
        let floor = match rng.below(5) {
            0 => 0,
            1 => u64::MAX,
            2 => start_lsn,
            _ => start_lsn + rng.below(gap * 200),
        };
        let mut start_pages = Vec::new();
        for id in 0..page_count {
            let lsn = below_or_at(rng, floor);
            start_pages.extend(any_page(rng, style, magic, id as u64, lsn));
        }
        let mut builder = Builder::new(style, &start_pages, start_lsn, gap);
        for _ in 0..steps {
            builder.step(rng, strays);
        }
        let mut ignored = [0; 26];
        rng.fill(&mut ignored);
        let header = log_header(&ignored);
        let mut log = header.clone();
        let mut offsets = vec![log.len()];
        for entry in &builder.entries {
            log.extend(entry.encode());
            offsets.push(log.len());
        }
        History {
            style,
            magic,
            floor,
            start_pages,
            header,
            entries: builder.entries,
            offsets,
            log,
            steps: builder.steps,
        }
    }

    pub fn page_count(&self) -> usize {
        self.start_pages.len() / PAGE_BYTES
    }

    pub fn begins(&self) -> usize {
        let begins = self.entries.iter().filter(|entry| entry.kind == BEGIN);
        begins.count()
    }
}

/// A number not above a bound: the bound itself, 0 or any other.
pub fn below_or_at(rng: &mut Rng, bound: u64) -> u64 {
    match rng.below(4) {
        0 => 0,
        1 => bound,
        _ => rng.between(0, bound),
    }
}

/// A transaction that has begun and not ended.
struct Live {
    number: u64,
    /// Its changes with their before-images, oldest first; those that have been
    /// restored are taken off the end, but their slots stay in `slots`.
    undo: Vec<(u64, u16, Option<Vec<u8>>)>,
    slots: BTreeSet<(u64, u16)>,
    restoring: bool,
}

/// The pages, the log and the live transactions while a history grows.
struct Builder {
    style: Style,
    /// The slots of each page, none for a page that is not of type 1.
    pages: Vec<Option<Slots>>,
    live: Vec<Live>,
    numbers: BTreeSet<u64>,
    entries: Vec<Entry>,
    steps: Vec<Step>,
    lsn: u64,
    gap: u64,
}

impl Builder {
    fn new(style: Style, start_pages: &[u8], lsn: u64, gap: u64) -> Builder {
        let pages = start_pages
            .chunks(PAGE_BYTES)
            .map(|page| (page_type(page) == DATA).then(|| slots_of(page)))
            .collect();
        Builder {
            style,
            pages,
            live: Vec::new(),
            numbers: BTreeSet::from([0]),
            entries: Vec::new(),
            steps: Vec::new(),
            lsn,
            gap,
        }
    }

    fn step(&mut self, rng: &mut Rng, strays: bool) {
        match rng.below(20) {
            0..=2 => self.begin(rng),
            3 | 4 => self.commit(rng),
            5 => self.start_restoring(rng),
            6..=9 => self.restore_or_roll_back(rng),
            10 => self.write(rng, Entry::bare(0, CHECKPOINT)),
            11 if strays && rng.one_in(8) => self.stray(rng),
            _ => self.change(rng),
        }
    }

    /// Writes an entry with the next LSN.
    fn write(&mut self, rng: &mut Rng, entry: Entry) {
        self.lsn += 1 + rng.below(self.gap);
        let table = rng.number() as u32;
        self.steps.push(Step::Entry(self.entries.len()));
        self.entries.push(Entry {
            lsn: self.lsn,
            table,
            ..entry
        });
    }

    fn begin(&mut self, rng: &mut Rng) {
        let number = rng.number();
        if self.live.len() < 6 && self.numbers.insert(number) {
            self.live.push(Live {
                number,
                undo: Vec::new(),
                slots: BTreeSet::new(),
                restoring: false,
            });
            self.write(rng, Entry::bare(number, BEGIN));
        }
    }

    /// The index of a live transaction that is restoring, or is not.
    fn pick_live(&self, rng: &mut Rng, restoring: bool) -> Option<usize> {
        let found: Vec<usize> = (0..self.live.len())
            .filter(|&at| self.live[at].restoring == restoring)
            .collect();
        (!found.is_empty()).then(|| *rng.pick(&found))
    }

    fn commit(&mut self, rng: &mut Rng) {
        if let Some(at) = self.pick_live(rng, false) {
            let live = self.live.remove(at);
            self.write(rng, Entry::bare(live.number, COMMIT));
        }
    }

    fn start_restoring(&mut self, rng: &mut Rng) {
        if let Some(at) = self.pick_live(rng, false) {
            self.live[at].restoring = true;
        }
    }

    /// The newest before-image that is still to be restored goes back in its
    /// slot, if the page has room for it; when none is left, the Rollback is
    /// written.
    fn restore_or_roll_back(&mut self, rng: &mut Rng) {
        let Some(at) = self.pick_live(rng, true) else {
            return;
        };
        let Some((page, slot, image)) = self.live[at].undo.last().cloned() else {
            let live = self.live.remove(at);
            self.write(rng, Entry::bare(live.number, ROLLBACK));
            return;
        };
        // A stray change has no slot that could be restored.
        if let Some(Some(slots)) = self.pages.get_mut(page as usize) {
            let mut restored = slots.clone();
            match &image {
                Some(tuple) => restored.insert(slot, tuple.clone()),
                None => restored.remove(&slot),
            };
            if !fits(&restored) {
                return;
            }
            *slots = restored;
            self.steps.push(Step::Restore { page, slot, image });
        }
        self.live[at].undo.pop();
    }

    fn is_held_by_another(&self, page: u64, slot: u16, number: u64) -> bool {
        self.live
            .iter()
            .any(|live| live.number != number && live.slots.contains(&(page, slot)))
    }

    /// Who makes the next change: transaction 0 or a live one.
    fn pick_changer(&self, rng: &mut Rng) -> Option<usize> {
        if rng.one_in(5) {
            None
        } else {
            self.pick_live(rng, false)
        }
    }

    /// A change that finds its before-image in its slot and leaves its
    /// after-image there, on a page that has room for it.
    fn change(&mut self, rng: &mut Rng) {
        if self.pages.is_empty() {
            return;
        }
        let page = rng.index(self.pages.len());
        let Some(slots) = &self.pages[page] else {
            return;
        };
        let filled: Vec<u16> = slots.keys().copied().collect();
        let slot = if !filled.is_empty() && rng.one_in(2) {
            *rng.pick(&filled)
        } else {
            self.style.slot(rng)
        };
        let changer = self.pick_changer(rng);
        let number = changer.map_or(0, |at| self.live[at].number);
        if self.is_held_by_another(page as u64, slot, number) {
            return;
        }
        let found = slots.get(&slot).cloned();
        let most = room_for(slots, slot);
        let entry = match &found {
            Some(old) if rng.one_in(3) || most < LEAST_TUPLE => {
                Entry::delete(number, page as u64, slot, old)
            }
            Some(old) => {
                let length = self.style.length(rng, most);
                let new = any_tuple(rng, length);
                Entry::update(number, page as u64, slot, old, &new)
            }
            None if most < LEAST_TUPLE => return,
            None => {
                let length = self.style.length(rng, most);
                Entry::insert(number, page as u64, slot, &any_tuple(rng, length))
            }
        };
        if let Some(slots) = &mut self.pages[page] {
            slots.insert(slot, entry.after_image());
        }
        if let Some(at) = changer {
            self.live[at].undo.push((page as u64, slot, found));
            self.live[at].slots.insert((page as u64, slot));
        }
        self.write(rng, entry);
    }

    /// An Insert on a page beyond the lent ones or not of type 1.
    fn stray(&mut self, rng: &mut Rng) {
        let others: Vec<usize> = (0..self.pages.len())
            .filter(|&page| self.pages[page].is_none())
            .collect();
        let page = if others.is_empty() || rng.one_in(2) {
            self.pages.len() as u64 + rng.number() % 1_000
        } else {
            *rng.pick(&others) as u64
        };
        let slot = rng.below(4) as u16;
        let changer = self.pick_changer(rng);
        let number = changer.map_or(0, |at| self.live[at].number);
        if self.is_held_by_another(page, slot, number) {
            return;
        }
        if let Some(at) = changer {
            self.live[at].undo.push((page, slot, None));
            self.live[at].slots.insert((page, slot));
        }
        let tuple = any_tuple(rng, LEAST_TUPLE);
        self.write(rng, Entry::insert(number, page, slot, &tuple));
    }
}
