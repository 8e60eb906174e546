//! Double-write files for the pages of an input, as they are written or spoiled
//! in one known way; and pages that are torn, so that a repair has work to do.

use oracle::crc32c;

use crate::page::{put_u32, put_u64, PAGE_BYTES, PAGE_HEADER_BYTES};
use crate::rng::Rng;

/// Pages, and the copies of some of them that a file is to have, by page.
#[derive(Clone, Debug)]
pub struct Torn {
    pub pages: Vec<u8>,
    pub copies: Vec<(u64, Vec<u8>)>,
}

/// A double-write file, what was done to it, and the number that it must be
/// answered with for the pages it was made for.
#[derive(Clone, Debug)]
pub struct DoublewriteFile {
    pub bytes: Vec<u8>,
    pub kind: &'static str,
    pub number: u64,
}

/// The parts of a file before they are put together.
struct Parts {
    name: Vec<u8>,
    version: u32,
    /// What is added to the right slot count.
    more_slots: u32,
    slots: Vec<(u64, Vec<u8>)>,
    /// How many pages are lent.
    lent: u64,
    /// What is xored into the right checksum, and into the right mark.
    sum: u32,
    mark: u32,
}

impl Parts {
    fn bytes(&self) -> Vec<u8> {
        let mut file = self.name.clone();
        let count = (self.slots.len() as u32).wrapping_add(self.more_slots);
        file.extend(self.version.to_le_bytes());
        file.extend(count.to_le_bytes());
        for (id, copy) in &self.slots {
            file.extend(id.to_le_bytes());
            file.extend(copy);
        }
        file.extend((crc32c(&file) ^ self.sum).to_le_bytes());
        file.extend((0xDEAD_BEEF ^ self.mark).to_le_bytes());
        file
    }

    /// Adds a slot for a page.
    fn add(&mut self, rng: &mut Rng, id: u64) {
        let at = rng.size(0, self.slots.len());
        self.slots.insert(at, (id, rng.bytes(PAGE_BYTES)));
    }

    /// A page that is named already; one is named first where none is.
    fn named(&mut self, rng: &mut Rng) -> u64 {
        if self.slots.is_empty() {
            self.add(rng, 0);
        }
        rng.pick(&self.slots).0
    }
}

/// A number of which one bit is set.
fn bit(rng: &mut Rng) -> u32 {
    1 << rng.below(32)
}

/// Bytes with one bit changed.
fn flipped(rng: &mut Rng, mut bytes: Vec<u8>, from: usize, to: usize) -> Vec<u8> {
    bytes[rng.size(from, to - 1)] ^= 1 << rng.below(8);
    bytes
}

/// A way to make a file: its name, the number it is answered with, and how.
type Way = (&'static str, u64, fn(&mut Rng, &mut Parts) -> Vec<u8>);

const WAYS: &[Way] = &[
    ("file as written", 0, |_, parts| parts.bytes()),
    ("file in another order", 0, |rng, parts| {
        rng.shuffle(&mut parts.slots);
        parts.bytes()
    }),
    ("file one byte short", 22, |_, parts| {
        let mut file = parts.bytes();
        file.pop();
        file
    }),
    ("file one byte long", 22, |rng, parts| {
        let mut file = parts.bytes();
        file.push(rng.byte());
        file
    }),
    ("empty file", 22, |_, _| Vec::new()),
    ("start of a file", 22, |rng, parts| {
        parts.slots.clear();
        let length = rng.size(1, 23);
        parts.bytes()[..length].to_vec()
    }),
    ("name of a file", 22, |rng, parts| {
        parts.name = flipped(rng, parts.name.clone(), 0, 8);
        parts.bytes()
    }),
    ("file of version 2", 22, |_, parts| {
        parts.version = 2;
        parts.bytes()
    }),
    ("version of a file", 22, |rng, parts| {
        parts.version ^= bit(rng);
        parts.bytes()
    }),
    ("slot count one more", 22, |_, parts| {
        parts.more_slots = 1;
        parts.bytes()
    }),
    ("slot count of another file", 22, |rng, parts| {
        parts.more_slots = 1 + rng.below(u64::from(u32::MAX)) as u32;
        parts.bytes()
    }),
    ("checksum of a file", 23, |rng, parts| {
        parts.sum = bit(rng);
        parts.bytes()
    }),
    ("bit of a slot", 23, |rng, parts| {
        parts.named(rng);
        let file = parts.bytes();
        let end = file.len() - 8;
        flipped(rng, file, 16, end)
    }),
    ("checksum and mark of a file", 23, |rng, parts| {
        parts.sum = bit(rng);
        parts.mark = bit(rng);
        parts.bytes()
    }),
    ("checksum of a file with a page twice", 23, |rng, parts| {
        let id = parts.named(rng);
        parts.add(rng, id);
        parts.sum = bit(rng);
        parts.bytes()
    }),
    ("mark of a file", 24, |rng, parts| {
        parts.mark = bit(rng);
        parts.bytes()
    }),
    (
        "mark of a file with a page past the last",
        24,
        |rng, parts| {
            parts.add(rng, parts.lent);
            parts.mark = bit(rng);
            parts.bytes()
        },
    ),
    ("page named twice", 25, |rng, parts| {
        let id = parts.named(rng);
        parts.add(rng, id);
        parts.bytes()
    }),
    ("page past the last", 25, |rng, parts| {
        parts.add(rng, parts.lent);
        parts.bytes()
    }),
    ("page far past the last", 25, |rng, parts| {
        // The low half may be that of a lent page.
        let id = (1 + rng.below(u64::from(u32::MAX))) << 32 | rng.below(8);
        parts.add(rng, id);
        parts.bytes()
    }),
];

/// The names of all ways to make a file.
pub fn file_kinds() -> impl Iterator<Item = &'static str> {
    WAYS.iter().map(|&(name, _, _)| name)
}

/// A file of the copies for so many pages, made in one of the ways; in half of
/// the cases as it is written.
pub fn doublewrite_file(rng: &mut Rng, lent: u64, copies: &[(u64, Vec<u8>)]) -> DoublewriteFile {
    let &(kind, number, make) = match rng.one_in(2) {
        true => &WAYS[0],
        false => rng.pick(WAYS),
    };
    let mut parts = Parts {
        name: b"AXMDBLWR".to_vec(),
        version: 1,
        more_slots: 0,
        slots: copies.to_vec(),
        lent,
        sum: 0,
        mark: 0,
    };
    let bytes = make(rng, &mut parts);
    DoublewriteFile {
        bytes,
        kind,
        number,
    }
}

/// Changes the body so that its checksum is wrong: from some byte on it is that
/// of another time, or one bit of it or of the checksum has changed.
fn tear(rng: &mut Rng, page: &mut [u8]) {
    let sum = page[12..16].to_vec();
    loop {
        match rng.below(3) {
            0 => {
                let from = PAGE_HEADER_BYTES.max(4_096 * rng.size(0, 3));
                rng.fill(&mut page[from..]);
            }
            1 => page[rng.size(PAGE_HEADER_BYTES, PAGE_BYTES - 1)] ^= 1 << rng.below(8),
            _ => page[rng.size(12, 15)] ^= 1 << rng.below(8),
        }
        if crc32c(&page[PAGE_HEADER_BYTES..]).to_le_bytes() != page[12..16] {
            return;
        }
        page[12..16].copy_from_slice(&sum);
    }
}

/// Gives a page a fault that its checksum does not show.
fn misname(rng: &mut Rng, page: &mut [u8]) {
    match rng.below(4) {
        0 => page[rng.size(0, 7)] ^= 1 << rng.below(8),
        1 => page[8] = 7,
        2 => put_u64(page, 16, rng.number()),
        _ => page[rng.size(32, 35)] ^= 1 << rng.below(8),
    }
}

/// Spoils a copy, so that it is not a good page with its id, though its file is
/// right.
fn spoil(rng: &mut Rng, copy: &mut [u8]) {
    match rng.one_in(2) {
        true => tear(rng, copy),
        false => misname(rng, copy),
    }
    if rng.one_in(8) {
        let sum = crc32c(&copy[PAGE_HEADER_BYTES..]);
        put_u32(copy, 12, sum);
    }
}

/// Tears some pages. A copy is the page, or in one of four times the page of an
/// earlier moment where there is one. With `mendable` every torn page has its
/// copy, and all else stays; without, copies may be missing or spoiled, and
/// pages at fault in another way.
pub fn torn(rng: &mut Rng, pages: &[u8], earlier: Option<&[u8]>, mendable: bool) -> Torn {
    let mut torn = Torn {
        pages: pages.to_vec(),
        copies: Vec::new(),
    };
    for (index, page) in torn.pages.chunks_exact_mut(PAGE_BYTES).enumerate() {
        let earlier = earlier.and_then(|it| it.chunks_exact(PAGE_BYTES).nth(index));
        let mut copy = match earlier {
            Some(earlier) if rng.one_in(4) => earlier.to_vec(),
            _ => page.to_vec(),
        };
        let copied = match rng.below(if mendable { 3 } else { 7 }) {
            0 => rng.one_in(2),
            1 | 2 => {
                tear(rng, page);
                true
            }
            3 => {
                tear(rng, page);
                false
            }
            4 => {
                tear(rng, page);
                spoil(rng, &mut copy);
                true
            }
            5 => {
                misname(rng, page);
                true
            }
            _ => {
                misname(rng, page);
                tear(rng, page);
                true
            }
        };
        if copied {
            torn.copies.push((index as u64, copy));
        }
    }
    torn
}

/// A list of pages to write, of so many: in most cases one that strictly rises
/// and names lent pages, else one that does not by one step.
pub fn page_list(rng: &mut Rng, lent: u64) -> Vec<u64> {
    let mut list: Vec<u64> = (0..lent).filter(|_| rng.one_in(2)).collect();
    match rng.below(8) {
        0 => list.push(lent),
        1 => list.push(rng.number()),
        2 if !list.is_empty() => {
            let at = rng.index(list.len());
            list.insert(at, list[at]);
        }
        3 if list.len() > 1 => {
            let at = rng.size(1, list.len() - 1);
            list.swap(at - 1, at);
        }
        4 => list = (0..lent).collect(),
        _ => (),
    }
    list
}
