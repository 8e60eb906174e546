//! Row summaries: whole ones, ones that are spoiled in a known way, and plain
//! nonsense.

use crate::mutate::Aim;
use crate::rng::Rng;

/// The bytes of a summary, and what they were made to be answered with, if they
/// were made for that.
#[derive(Clone, Debug)]
pub struct SummaryFile {
    pub kind: &'static str,
    pub bytes: Vec<u8>,
    pub aim: Option<Aim>,
}

/// The first page, slot and length that no row has, and the shortest tuple.
const PAGES: u64 = 4096;
const SLOTS: u64 = 4080;
const LENGTHS: u64 = 16_317;
const SHORTEST: u64 = 24;

/// The numbers before the first row, and those of a row.
const HEAD: usize = 3;
const ROW: usize = 3;

/// A summary that is not refused, of so many bytes or some more: a row has three
/// bytes at least.
pub fn long_summary(bytes: usize) -> Vec<u8> {
    let rows = bytes.div_ceil(3) as u64;
    let head = [1, 300, rows];
    let rows = (0..rows).flat_map(|row| [row / SLOTS, row % SLOTS, SHORTEST]);
    head.into_iter().chain(rows).flat_map(spelled).collect()
}

/// A number in groups of seven bits, lowest first.
fn spelled(mut number: u64) -> Vec<u8> {
    let mut groups = Vec::new();
    while number >= 128 {
        groups.push(128 | number as u8);
        number >>= 7;
    }
    groups.push(number as u8);
    groups
}

/// A summary as numbers, each with its bytes.
struct Draft {
    spelled: Vec<Vec<u8>>,
}

/// Every way to spoil a summary, with the number it is then refused with.
const SPOILED: &[(&str, u64, fn(&mut Rng, &mut Draft) -> u64)] = &[
    ("summary that is whole", 0, |_, _| 0),
    ("summary with the greatest LSN", 0, greatest_lsn),
    ("summary cut in a number", 28, cut),
    ("summary that promises a row more", 28, promises_more),
    ("number with a trailing zero group", 29, trailing_zero),
    ("number of 2^64 or more", 29, over_64_bits),
    ("number of eleven groups or more", 29, many_groups),
    ("another edition", 30, other_edition),
    ("page of 4,096 or more", 31, |rng, draft| {
        draft.outside(rng, 0, PAGES)
    }),
    ("slot of 4,080 or more", 31, |rng, draft| {
        draft.outside(rng, 1, SLOTS)
    }),
    ("length over 16,316", 31, |rng, draft| {
        draft.outside(rng, 2, LENGTHS)
    }),
    ("length under 24", 31, too_short),
    ("page that falls", 32, page_falls),
    ("slot that does not rise", 32, slot_stays),
    ("bytes left over", 33, left_over),
    ("summary that promises a row less", 33, promises_less),
];

const NONSENSE: &str = "summary of random bytes";

/// Every kind of summary that is made.
pub fn summary_kinds() -> impl Iterator<Item = &'static str> {
    let spoiled = SPOILED.iter().map(|(kind, _, _)| *kind);
    spoiled.chain([NONSENSE])
}

/// A summary of a known kind, some with a second fault, or nonsense.
pub fn summary_file(rng: &mut Rng) -> SummaryFile {
    if rng.one_in(8) {
        return nonsense(rng);
    }
    let mut draft = Draft::whole(rng);
    let (kind, number, apply) = *rng.pick(SPOILED);
    let place = apply(rng, &mut draft);
    let mut bytes = draft.bytes();
    let mut aim = Some(Aim { number, place });
    if rng.one_in(5) {
        // A second fault behind the number at fault changes nothing; anywhere else it may.
        let fault = bytes[place as usize..].iter().position(|byte| *byte < 128);
        let behind = fault.map_or(bytes.len(), |last| place as usize + last + 1);
        match number != 0 && bytes.len() > behind && rng.one_in(2) {
            true => {
                let at = rng.size(behind, bytes.len() - 1);
                bytes[at] ^= 1 << rng.below(8);
            }
            false => {
                aim = None;
                if let Some(byte) = bytes.get_mut(rng.size(0, 40)) {
                    *byte ^= 1 << rng.below(8);
                }
            }
        }
    }
    SummaryFile { kind, bytes, aim }
}

/// Random bytes, most of them numbers of few groups.
fn nonsense(rng: &mut Rng) -> SummaryFile {
    let length = rng.size(0, 60);
    let mut bytes = rng.bytes(length);
    for byte in &mut bytes {
        if !rng.one_in(4) {
            *byte &= 0x7F;
        }
    }
    if rng.one_in(2) {
        bytes.splice(0..0, [1]);
    }
    SummaryFile {
        kind: NONSENSE,
        bytes,
        aim: None,
    }
}

impl Draft {
    /// A row or more, strictly rising, many at the ends of their ranges. A page
    /// and a slot below the first row's are left for it to fall to.
    fn whole(rng: &mut Rng) -> Draft {
        let count = match rng.below(4) {
            0 => 1,
            _ => rng.size(2, 12),
        };
        let mut numbers = vec![1, rng.number(), count as u64];
        let (mut page, mut slot) = (rng.between(1, 3), rng.between(1, 3));
        for left in (0..count as u64).rev() {
            let length = match rng.below(4) {
                0 => SHORTEST,
                1 => LENGTHS - 1,
                _ => rng.between(SHORTEST, LENGTHS - 1),
            };
            numbers.extend([page, slot, length]);
            let last_page = PAGES - 1 - left;
            if page < last_page && (slot + left + 1 >= SLOTS || rng.one_in(2)) {
                page = match rng.below(3) {
                    0 => last_page,
                    _ => rng.between(page + 1, last_page),
                };
                slot = *rng.pick(&[0, 1, 127, 128, SLOTS - 1 - left]);
            } else {
                slot = rng.between(slot + 1, SLOTS - left);
            }
        }
        Draft {
            spelled: numbers.into_iter().map(spelled).collect(),
        }
    }

    fn bytes(&self) -> Vec<u8> {
        self.spelled.concat()
    }

    /// Where a number stands.
    fn place(&self, number: usize) -> u64 {
        self.spelled[..number].iter().map(Vec::len).sum::<usize>() as u64
    }

    fn rows(&self) -> usize {
        (self.spelled.len() - HEAD) / ROW
    }

    /// The index of a number of a row: 0 its page, 1 its slot, 2 its length.
    fn index(&self, row: usize, number: usize) -> usize {
        HEAD + ROW * row + number
    }

    fn value(&self, index: usize) -> u64 {
        let groups = self.spelled[index].iter().rev();
        groups.fold(0, |value, group| value << 7 | u64::from(group & 0x7F))
    }

    /// Puts a number in the place of another, and says where it stands.
    fn put(&mut self, index: usize, value: u64) -> u64 {
        self.spelled[index] = spelled(value);
        self.place(index)
    }

    /// A number of a row at or over a limit.
    fn outside(&mut self, rng: &mut Rng, number: usize, limit: u64) -> u64 {
        let row = rng.index(self.rows());
        let over = match rng.below(3) {
            0 => limit,
            1 => u64::MAX - rng.below(2),
            _ => limit.saturating_add(rng.number()),
        };
        self.put(self.index(row, number), over)
    }
}

fn greatest_lsn(rng: &mut Rng, draft: &mut Draft) -> u64 {
    draft.put(1, u64::MAX - rng.below(2));
    0
}

/// Any place before the end: the number that ends there, or lacks its last
/// groups, is at fault.
fn cut(rng: &mut Rng, draft: &mut Draft) -> u64 {
    let last = rng.index(draft.spelled.len());
    let place = draft.place(last);
    draft.spelled.truncate(last + 1);
    let groups = &mut draft.spelled[last];
    let keep = rng.index(groups.len());
    groups.truncate(keep);
    place
}

fn promises_more(rng: &mut Rng, draft: &mut Draft) -> u64 {
    let rows = draft.rows() as u64;
    let more = *rng.pick(&[rows + 1, rows + 1000, u64::MAX]);
    draft.put(2, more);
    draft.bytes().len() as u64
}

fn promises_less(rng: &mut Rng, draft: &mut Draft) -> u64 {
    let fewer = rng.index(draft.rows());
    draft.put(2, fewer as u64);
    draft.place(draft.index(fewer, 0))
}

fn trailing_zero(rng: &mut Rng, draft: &mut Draft) -> u64 {
    let index = rng.index(draft.spelled.len());
    let groups = &mut draft.spelled[index];
    let last = groups.len() - 1;
    groups[last] |= 128;
    let more = *rng.pick(&[0, 0, 1, 9, 1000]);
    groups.extend(vec![128; more]);
    groups.push(0);
    draft.place(index)
}

fn over_64_bits(rng: &mut Rng, draft: &mut Draft) -> u64 {
    let index = rng.index(draft.spelled.len());
    let mut groups: Vec<u8> = (0..9).map(|_| 128 | rng.byte()).collect();
    groups.push(*rng.pick(&[2, 3, 64, 127]));
    draft.spelled[index] = groups;
    draft.place(index)
}

fn many_groups(rng: &mut Rng, draft: &mut Draft) -> u64 {
    let index = rng.index(draft.spelled.len());
    let more = *rng.pick(&[10, 11, 20, 500]);
    let mut groups: Vec<u8> = (0..more).map(|_| 128 | rng.byte()).collect();
    groups.push(1 + rng.below(127) as u8);
    draft.spelled[index] = groups;
    draft.place(index)
}

fn other_edition(rng: &mut Rng, draft: &mut Draft) -> u64 {
    let other = *rng.pick(&[0, 2, 3, 129, u64::MAX]);
    draft.put(0, other)
}

fn too_short(rng: &mut Rng, draft: &mut Draft) -> u64 {
    let row = rng.index(draft.rows());
    let length = *rng.pick(&[0, 1, SHORTEST - 1]);
    draft.put(draft.index(row, 2), length)
}

/// A row behind another whose page falls, or the first one again.
fn page_falls(rng: &mut Rng, draft: &mut Draft) -> u64 {
    draft.with_two_rows();
    let row = rng.size(1, draft.rows() - 1);
    let before = draft.value(draft.index(row - 1, 0));
    let lower = *rng.pick(&[0, before - 1]);
    draft.put(draft.index(row, 0), lower)
}

/// A row on the page of the one before it, at its slot or below.
fn slot_stays(rng: &mut Rng, draft: &mut Draft) -> u64 {
    draft.with_two_rows();
    let row = rng.size(1, draft.rows() - 1);
    let page = draft.value(draft.index(row - 1, 0));
    let slot = draft.value(draft.index(row - 1, 1));
    draft.put(draft.index(row, 0), page);
    let lower = *rng.pick(&[slot, slot, slot.saturating_sub(1), 0]);
    draft.put(draft.index(row, 1), lower)
}

impl Draft {
    /// Gives a file of one row a second, which may be any.
    fn with_two_rows(&mut self) {
        if self.rows() == 1 {
            self.spelled
                .extend([PAGES - 1, SLOTS - 1, SHORTEST].map(spelled));
            self.put(2, 2);
        }
    }
}

fn left_over(rng: &mut Rng, draft: &mut Draft) -> u64 {
    let place = draft.bytes().len() as u64;
    let more = rng.size(1, 5);
    let bytes = rng.bytes(more);
    draft.spelled.push(bytes);
    place
}
