//! Double-write files: a reader, a writer, and the repair of torn pages.

use crate::bytes::{u32_at, u64_at};
use crate::crc::crc32c;
use crate::page::{check_page, check_page_bytes, PAGE_HEADER_BYTES};
use crate::{Refusal, Written, MAX_PAGES, PAGE_BYTES};

/// The header: the name, the version and the slot count.
const HEADER_BYTES: usize = 16;
const NAME: &[u8] = b"AXMDBLWR";
const VERSION: u32 = 1;

/// A slot: a page id and a page.
const SLOT_BYTES: usize = 8 + PAGE_BYTES;

/// The footer: the CRC and the mark.
const FOOTER_BYTES: usize = 8;
const MARK: u32 = 0xDEAD_BEEF;

/// How many slots a file has.
#[derive(Clone, Copy, Debug, PartialEq, Eq, Default)]
pub struct Contents {
    pub number: u64,
    pub place: u64,
    pub slots: u64,
}

/// How many pages were restored.
#[derive(Clone, Copy, Debug, PartialEq, Eq, Default)]
pub struct Repair {
    pub number: u64,
    pub place: u64,
    pub restored: u64,
}

/// The slots of a file, each with the page it names and the copy, where header
/// and size are right.
fn slots(file: &[u8]) -> Option<Vec<(u64, &[u8])>> {
    if file.len() < HEADER_BYTES + FOOTER_BYTES {
        return None;
    }
    let (header, rest) = file.split_at(HEADER_BYTES);
    let (slots, _) = rest.split_at(rest.len() - FOOTER_BYTES);
    let sized = slots.len() as u64 == u64::from(u32_at(header, 12)) * SLOT_BYTES as u64;
    if !header.starts_with(NAME) || u32_at(header, 8) != VERSION || !sized {
        return None;
    }
    let slot = |bytes| (u64_at(bytes, 0), &bytes[8..]);
    Some(slots.chunks_exact(SLOT_BYTES).map(slot).collect())
}

/// A wrong header or size is 22, then a wrong CRC 23, a wrong mark 24, and an id
/// that is not lent or named twice 25.
fn check_file(file: &[u8], pages: u64) -> Result<Vec<(u64, &[u8])>, Refusal> {
    let Some(slots) = slots(file) else {
        return Err(Refusal::new(22, 0));
    };
    let (summed, footer) = file.split_at(file.len() - FOOTER_BYTES);
    if u32_at(footer, 0) != crc32c(summed) {
        return Err(Refusal::new(23, 0));
    }
    if u32_at(footer, 4) != MARK {
        return Err(Refusal::new(24, 0));
    }
    let mut named = vec![false; pages as usize];
    for (id, _) in &slots {
        match named.get_mut(*id as usize) {
            Some(before) if !*before => *before = true,
            _ => return Err(Refusal::new(25, 0)),
        }
    }
    Ok(slots)
}

/// The slot count of a file for so many pages: 1 for too many pages, then what
/// the file is refused by.
pub fn doublewrite_read(file: &[u8], pages: u64) -> Contents {
    if pages > MAX_PAGES as u64 {
        return Contents {
            number: 1,
            ..Contents::default()
        };
    }
    match check_file(file, pages) {
        Ok(slots) => Contents {
            slots: slots.len() as u64,
            ..Contents::default()
        },
        Err(Refusal { number, place }) => Contents {
            number,
            place,
            slots: 0,
        },
    }
}

/// The page that a slot names, 0 where there is no such slot or header or size
/// are wrong.
pub fn doublewrite_id(file: &[u8], slot: u64) -> u64 {
    let slots = slots(file).unwrap_or_default();
    slots.get(slot as usize).map_or(0, |(id, _)| *id)
}

/// Takes a copy exactly where the lent page has a wrong body checksum and the
/// copy is itself a good page with that id.
pub fn repair(magic: u64, pages: &mut [u8], file: &[u8]) -> Repair {
    let checked =
        check_page_bytes(pages).and_then(|()| check_file(file, (pages.len() / PAGE_BYTES) as u64));
    let slots = match checked {
        Ok(slots) => slots,
        Err(Refusal { number, place }) => {
            return Repair {
                number,
                place,
                restored: 0,
            }
        }
    };
    let mut repair = Repair::default();
    for (id, copy) in slots {
        let page = &mut pages[id as usize * PAGE_BYTES..][..PAGE_BYTES];
        let torn = u32_at(page, 12) != crc32c(&page[PAGE_HEADER_BYTES..]);
        if torn && check_page(magic, id, copy).is_ok() {
            page.copy_from_slice(copy);
            repair.restored += 1;
        }
    }
    repair
}

/// 1; then 25 for a list that does not strictly rise or names a page not lent;
/// then 26 where the area is too short for the file.
fn check_list(pages: &[u8], list: &[u64], area: &[u8]) -> Result<(), Refusal> {
    check_page_bytes(pages)?;
    let count = (pages.len() / PAGE_BYTES) as u64;
    if !list.is_sorted_by(|a, b| a < b) || list.iter().any(|page| *page >= count) {
        return Err(Refusal::new(25, 0));
    }
    if area.len() < HEADER_BYTES + SLOT_BYTES * list.len() + FOOTER_BYTES {
        return Err(Refusal::new(26, 0));
    }
    Ok(())
}

/// Writes the file of a list of pages; the later bytes of the area stay.
pub fn doublewrite_write(pages: &[u8], list: &[u64], area: &mut [u8]) -> Written {
    if let Err(Refusal { number, place }) = check_list(pages, list, area) {
        return Written {
            number,
            place,
            length: 0,
        };
    }
    let mut file = NAME.to_vec();
    file.extend(VERSION.to_le_bytes());
    file.extend((list.len() as u32).to_le_bytes());
    for page in list {
        file.extend(page.to_le_bytes());
        file.extend(&pages[*page as usize * PAGE_BYTES..][..PAGE_BYTES]);
    }
    file.extend(crc32c(&file).to_le_bytes());
    file.extend(MARK.to_le_bytes());
    area[..file.len()].copy_from_slice(&file);
    Written {
        length: file.len() as u64,
        ..Written::default()
    }
}
