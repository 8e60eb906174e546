//! The pages of a history as each stood at a moment of its own, and cuts of the
//! history's log.

use crate::entry::LOG_HEADER_BYTES;
use crate::history::{below_or_at, History, Step};
use crate::page::{data_page, other_page, page_type, slots_of, DataPage, DATA, PAGE_BYTES};
use crate::rng::Rng;

/// Pages at moments, and where the log's last change that any of them has felt
/// ends.
#[derive(Clone, Debug)]
pub struct Moments {
    pub pages: Vec<u8>,
    pub felt_end: usize,
}

impl History {
    /// Each page at a moment of its own: all at one, all at the start, all at
    /// the end, or each anywhere.
    pub fn at_moments(&self, rng: &mut Rng) -> Moments {
        let last = self.steps.len();
        let common = match rng.below(6) {
            0 => Some(0),
            1 => Some(last),
            2 => Some(rng.size(0, last)),
            _ => None,
        };
        let mut pages = Vec::new();
        let mut felt_end = LOG_HEADER_BYTES;
        for index in 0..self.page_count() {
            let moment = common.unwrap_or_else(|| rng.size(0, last));
            let (page, end) = self.page_at(rng, index, moment);
            pages.extend(page);
            felt_end = felt_end.max(end);
        }
        Moments { pages, felt_end }
    }

    /// One page as it may have stood after so many steps, and where the last
    /// change that it has felt ends in the log. Its slots are those of the
    /// moment, and its LSN is not above the floor and the changes it has felt;
    /// layout, flags, item count and all else that is not kept are free.
    pub fn page_at(&self, rng: &mut Rng, index: usize, moment: usize) -> (Vec<u8>, usize) {
        let start = &self.start_pages[index * PAGE_BYTES..][..PAGE_BYTES];
        let reserved: [u8; 28] = start[36..64].try_into().expect("reserved bytes");
        let id = index as u64;
        if moment == 0 && rng.one_in(2) {
            return (start.to_vec(), LOG_HEADER_BYTES);
        }
        if page_type(start) != DATA {
            let lsn = below_or_at(rng, self.floor);
            let page = other_page(rng, self.magic, page_type(start), id, lsn, &reserved);
            return (page, LOG_HEADER_BYTES);
        }

        let mut slots = slots_of(start);
        let mut highest_lsn = self.floor;
        let mut felt_end = LOG_HEADER_BYTES;
        for step in &self.steps[..moment] {
            let (page, slot, image) = match step {
                Step::Entry(at) if self.entries[*at].is_change() => {
                    let entry = &self.entries[*at];
                    let (page, slot) = entry.target();
                    if page == id {
                        highest_lsn = highest_lsn.max(entry.lsn);
                        felt_end = self.offsets[*at + 1];
                    }
                    (page, slot, Some(entry.after_image()))
                }
                Step::Entry(_) => continue,
                Step::Restore { page, slot, image } => (*page, *slot, image.clone()),
            };
            if page == id {
                match image {
                    Some(tuple) => slots.insert(slot, tuple),
                    None => slots.remove(&slot),
                };
            }
        }

        let parts = DataPage {
            magic: self.magic,
            flags: rng.byte(),
            count: self.style.count(rng, &slots),
            id,
            lsn: below_or_at(rng, highest_lsn),
            reserved,
            slots,
        };
        (data_page(rng, &parts), felt_end)
    }

    /// A cut of the log at any byte from 32 on.
    pub fn any_cut(&self, rng: &mut Rng) -> usize {
        self.cut_from(rng, LOG_HEADER_BYTES)
    }

    /// A cut of the log that does not come before a byte: anywhere, at the end
    /// of an entry, a few bytes past one, so that the tail is torn in any way, or
    /// a few bytes before it, so that zeros may complete the entry.
    pub fn cut_from(&self, rng: &mut Rng, least: usize) -> usize {
        let whole = self.log.len();
        match rng.below(5) {
            0 => whole,
            1 => rng.size(least, whole),
            2 => (*rng.pick(&self.offsets)).clamp(least, whole),
            3 => (*rng.pick(&self.offsets) - rng.size(1, 3)).clamp(least, whole),
            _ => (*rng.pick(&self.offsets) + rng.size(1, 4)).clamp(least, whole),
        }
    }
}
