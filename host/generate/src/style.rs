//! What kind of tuples, slots and pages a random input is made of.

use crate::entry::Entry;
use crate::page::{any_reserved, data_page, least_count, other_page, tuple_bytes};
use crate::page::{DataPage, Slots, BODY_BYTES, DATA};
use crate::rng::Rng;

/// The smallest tuple is a row header alone.
pub const LEAST_TUPLE: usize = 24;

/// The largest tuple fills a page with one slot.
pub const MOST_TUPLE: usize = 16_316;

#[derive(Clone, Copy, Debug, PartialEq, Eq)]
pub enum Style {
    /// Few slots and small tuples, so that no page can ever be overfull.
    Calm,
    /// Tuples of middling size on many slots.
    Busy,
    /// Few slots and large tuples: pages full or nearly so.
    Full,
    /// Small tuples far apart, on slots up to the last that fits.
    Sparse,
}

impl Style {
    pub fn any(rng: &mut Rng) -> Style {
        match rng.below(8) {
            0..=2 => Style::Calm,
            3..=5 => Style::Busy,
            6 => Style::Full,
            _ => Style::Sparse,
        }
    }

    /// A slot to look at.
    pub fn slot(self, rng: &mut Rng) -> u16 {
        let (lowest, highest) = match self {
            Style::Calm => (0, 11),
            Style::Busy => (0, 40),
            Style::Full => (0, 4),
            Style::Sparse => *rng.pick(&[(0, 8), (0, 100), (0, 2_000), (3_900, 4_073)]),
        };
        rng.between(lowest, highest) as u16
    }

    /// The length of a tuple when there is room for `most` bytes.
    pub fn length(self, rng: &mut Rng, most: usize) -> usize {
        let wanted = match self {
            Style::Calm => rng.size(LEAST_TUPLE, 80),
            Style::Busy => *rng.pick(&[24, 25, 30, 100, 400, 1_500]) + rng.size(0, 60),
            Style::Full => match rng.below(4) {
                0 => most,
                1 => rng.size(LEAST_TUPLE, 200),
                _ => rng.size(LEAST_TUPLE, MOST_TUPLE),
            },
            Style::Sparse => rng.size(LEAST_TUPLE, 120),
        };
        wanted.min(most).min(MOST_TUPLE)
    }

    /// An item count that a page with these slots may have: the lowest, the
    /// highest, or one in between. A calm one is never far above the lowest.
    pub fn count(self, rng: &mut Rng, slots: &Slots) -> u16 {
        let least = least_count(slots);
        let most = (BODY_BYTES - tuple_bytes(slots)) / 4;
        let near = rng.size(least, most.min(least + 5));
        let count = match rng.below(10) {
            _ if self == Style::Calm => near,
            0 => most,
            1 => rng.size(least, most),
            2..=5 => near,
            _ => least,
        };
        count as u16
    }
}

/// A tuple of a given length. Now and then its payload holds a whole entry.
pub fn any_tuple(rng: &mut Rng, length: usize) -> Vec<u8> {
    let mut tuple = rng.bytes(length);
    let xmin = rng.number();
    let xmax = if rng.one_in(2) { 0 } else { rng.number() };
    tuple[0..8].copy_from_slice(&xmin.to_le_bytes());
    tuple[8..16].copy_from_slice(&xmax.to_le_bytes());
    tuple[16] = u8::from(rng.one_in(4));
    if length >= LEAST_TUPLE + 43 && rng.one_in(6) {
        let inner = Entry::bare(rng.number(), rng.below(12) as u8).with_lsn(rng.number());
        let at = rng.size(LEAST_TUPLE, length - 43);
        tuple[at..at + 43].copy_from_slice(&inner.encode());
    }
    tuple
}

/// How long a tuple in a slot may be so that the page still holds all its
/// slots, the one it replaces left out.
pub fn room_for(slots: &Slots, slot: u16) -> usize {
    let count = least_count(slots).max(slot as usize + 1);
    let replaced = slots.get(&slot).map_or(0, Vec::len);
    BODY_BYTES.saturating_sub(4 * count + tuple_bytes(slots) - replaced)
}

/// The slots of a starting page.
pub fn any_slots(rng: &mut Rng, style: Style) -> Slots {
    let mut slots = Slots::new();
    for _ in 0..rng.below(8) {
        let slot = style.slot(rng);
        let most = room_for(&slots, slot);
        if most >= LEAST_TUPLE {
            let length = style.length(rng, most);
            slots.insert(slot, any_tuple(rng, length));
        }
    }
    slots
}

/// A type of page, mostly Data.
pub fn any_type(rng: &mut Rng) -> u8 {
    if rng.below(10) < 7 {
        DATA
    } else {
        rng.below(7) as u8
    }
}

/// A good page of some type with slots of a style.
pub fn any_page(rng: &mut Rng, style: Style, magic: u64, id: u64, lsn: u64) -> Vec<u8> {
    let reserved = any_reserved(rng);
    let kind = any_type(rng);
    if kind != DATA {
        return other_page(rng, magic, kind, id, lsn, &reserved);
    }
    let slots = any_slots(rng, style);
    let parts = DataPage {
        magic,
        flags: rng.byte(),
        count: style.count(rng, &slots),
        id,
        lsn,
        reserved,
        slots,
    };
    data_page(rng, &parts)
}
