//! Double-write files: every refusal of one at its boundary, which copies are taken, and what the writer writes.

use oracle::{crc32c, doublewrite_id, doublewrite_read, doublewrite_write, repair, verify};
use oracle::{Contents, Repair, Written, PAGE_BYTES};

const MAGIC: u64 = 0x1122_3344_5566_7788;
const SLOT_BYTES: usize = 16_392;

/// A good page of type 2.
fn page(id: u64) -> Vec<u8> {
    let mut page = vec![id as u8 ^ 0x5A; PAGE_BYTES];
    page[0..8].copy_from_slice(&MAGIC.to_le_bytes());
    page[8] = 2;
    page[16..24].copy_from_slice(&id.to_le_bytes());
    seal_page(page)
}

fn seal_page(mut page: Vec<u8>) -> Vec<u8> {
    let sum = crc32c(&page[64..]);
    page[12..16].copy_from_slice(&sum.to_le_bytes());
    page
}

fn pages(count: u64) -> Vec<u8> {
    (0..count).flat_map(page).collect()
}

/// A file byte by byte, from the paper's words.
fn file_of(slots: &[(u64, Vec<u8>)]) -> Vec<u8> {
    let mut file = b"AXMDBLWR\x01\0\0\0".to_vec();
    file.extend((slots.len() as u32).to_le_bytes());
    for (id, page) in slots {
        file.extend(id.to_le_bytes());
        file.extend(page);
    }
    file.extend(crc32c(&file).to_le_bytes());
    file.extend([0xEF, 0xBE, 0xAD, 0xDE]);
    file
}

fn file(ids: &[u64]) -> Vec<u8> {
    let slots: Vec<_> = ids.iter().map(|id| (*id, page(*id))).collect();
    file_of(&slots)
}

/// The file with a byte changed and its checksum anew.
fn sealed(mut file: Vec<u8>, at: usize, byte: u8) -> Vec<u8> {
    file[at] = byte;
    let end = file.len() - 8;
    let sum = crc32c(&file[..end]);
    file[end..end + 4].copy_from_slice(&sum.to_le_bytes());
    file
}

fn refused(number: u64) -> Contents {
    Contents {
        number,
        place: 0,
        slots: 0,
    }
}

fn slots(slots: u64) -> Contents {
    Contents {
        slots,
        ..refused(0)
    }
}

#[test]
fn header_and_size() {
    let file = file(&[0, 1]);
    assert_eq!(file.len(), 16 + 2 * SLOT_BYTES + 8);
    assert_eq!(doublewrite_read(&file, 2), slots(2));
    assert_eq!(doublewrite_read(&file_of(&[]), 0), slots(0));
    let end = file.len();
    for short in [0, 1, 15, 16, 23, 24, end - SLOT_BYTES, end - 1] {
        assert_eq!(doublewrite_read(&file[..short], 2), refused(22), "{short}");
    }
    let mut long = file.clone();
    long.push(0);
    assert_eq!(doublewrite_read(&long, 2), refused(22));
    for (at, byte) in [
        (0, b'B'),
        (7, b'r'),
        (8, 2),
        (8, 0),
        (11, 1),
        (12, 1),
        (12, 3),
        (15, 1),
    ] {
        let wrong = sealed(file.clone(), at, byte);
        assert_eq!(doublewrite_read(&wrong, 2), refused(22), "byte {at}");
    }
}

#[test]
fn refusals_in_order() {
    let right = file(&[0, 1]);
    let end = right.len();
    let with = |changes: &[(usize, u8)]| {
        let mut file = right.clone();
        for (at, byte) in changes {
            file[*at] ^= byte;
        }
        doublewrite_read(&file, 2)
    };
    // CRC wrong with mark right, mark wrong with CRC right, both; a byte of a slot.
    assert_eq!(with(&[(end - 8, 1)]), refused(23));
    assert_eq!(with(&[(end - 1, 1)]), refused(24));
    assert_eq!(with(&[(end - 8, 1), (end - 1, 1)]), refused(23));
    assert_eq!(with(&[(5_000, 1)]), refused(23));
    assert_eq!(with(&[(0, 1), (5_000, 1)]), refused(22));
    // An id that is not lent, at its boundary; named twice; behind a wrong mark.
    assert_eq!(doublewrite_read(&file(&[0, 1]), 1), refused(25));
    assert_eq!(doublewrite_read(&file(&[1]), 1), refused(25));
    assert_eq!(doublewrite_read(&file(&[0]), 1), slots(1));
    assert_eq!(doublewrite_read(&file(&[1, 0, 1]), 9), refused(25));
    assert_eq!(doublewrite_read(&file(&[1, 0]), 9), slots(2));
    assert_eq!(doublewrite_read(&file(&[1 << 32]), 9), refused(25));
    let mut marked = file(&[1, 1]);
    *marked.last_mut().unwrap() = 0;
    assert_eq!(doublewrite_read(&marked, 9), refused(24));
    // After 1.
    assert_eq!(doublewrite_read(&right, 4_096), slots(2));
    assert_eq!(doublewrite_read(&right, 4_097), refused(1));
    assert_eq!(doublewrite_read(&[], u64::MAX), refused(1));
}

#[test]
fn ids_of_slots() {
    let file = file(&[3, 1]);
    let ids: Vec<u64> = (0..4).map(|slot| doublewrite_id(&file, slot)).collect();
    assert_eq!(ids, [3, 1, 0, 0]);
    assert_eq!(doublewrite_id(&file[1..], 0), 0);
    assert_eq!(doublewrite_id(&file[..file.len() - 1], 0), 0);
}

fn restored(restored: u64) -> Repair {
    Repair {
        number: 0,
        place: 0,
        restored,
    }
}

#[test]
fn copies() {
    let whole = pages(3);
    let torn = |page: usize| {
        let mut pages = whole.clone();
        pages[page * PAGE_BYTES + 9_000] ^= 1;
        pages
    };
    // A torn page gets its copy, in whatever slot it stands.
    let mut lent = torn(1);
    assert_eq!(repair(MAGIC, &mut lent, &file(&[2, 1])), restored(1));
    assert!(lent == whole);
    assert_eq!(repair(MAGIC, &mut lent, &file(&[2, 1])), restored(0));
    // Whatever else is wrong with it.
    let mut lent = torn(1);
    lent[PAGE_BYTES..PAGE_BYTES + 12].fill(0xFF);
    assert_eq!(repair(MAGIC, &mut lent, &file(&[1])), restored(1));
    assert!(lent == whole);
    // A page with a right checksum keeps its bytes, whatever else is wrong with it.
    for at in [0, 8, 16] {
        let mut lent = whole.clone();
        lent[PAGE_BYTES + at] ^= 0x40;
        let before = lent.clone();
        assert_eq!(repair(MAGIC, &mut lent, &file(&[1])), restored(0));
        assert!(lent == before && verify(MAGIC, &lent).number != 0);
    }
    // A copy that is not good, or not of this id, is not taken; nor is there one to take.
    let mut bad = [18, 11, 11, 17, 19].map(|number| (number, page(1)));
    bad[0].1[9_000] ^= 1;
    bad[1].1[8] = 7;
    bad[2].1[0] ^= 1;
    bad[3].1 = page(0);
    bad[4].1[8] = 1;
    for (number, copy) in bad {
        let mut lent = [&whole[..PAGE_BYTES], &copy, &whole[2 * PAGE_BYTES..]].concat();
        assert_eq!(verify(MAGIC, &lent).number, number);
        lent = torn(1);
        assert_eq!(
            repair(MAGIC, &mut lent, &file_of(&[(1, copy)])),
            restored(0)
        );
        assert!(lent == torn(1));
    }
    let mut lent = torn(1);
    assert_eq!(repair(MAGIC, &mut lent, &file(&[0, 2])), restored(0));
    assert!(lent == torn(1));
    // Refused, the pages are as lent.
    let mut lent = torn(1);
    let answer = repair(MAGIC, &mut lent, &file(&[1, 1]));
    assert_eq!((answer.number, answer.restored), (25, 0));
    let answer = repair(MAGIC, &mut lent[..PAGE_BYTES + 1], &file(&[1]));
    assert_eq!((answer.number, answer.restored), (1, 0));
    assert!(lent == torn(1));
}

fn written(number: u64, length: usize) -> Written {
    Written {
        number,
        place: 0,
        length: length as u64,
    }
}

#[test]
fn lists_and_areas() {
    let lent = pages(3);
    let need = 16 + 2 * SLOT_BYTES + 8;
    let mut area = vec![0x77; need + 5];
    assert_eq!(
        doublewrite_write(&lent, &[0, 2], &mut area),
        written(0, need)
    );
    assert!(area[..need] == file(&[0, 2]) && area[need..] == [0x77; 5]);
    assert_eq!(
        doublewrite_write(&lent, &[1], &mut area[..need]),
        written(0, need - SLOT_BYTES)
    );
    let before = area.clone();
    for (list, number) in [
        (&[1, 0][..], 25),
        (&[1, 1], 25),
        (&[0, 3], 25),
        (&[3], 25),
        (&[0, 1, 2], 26),
        (&[2, 1, 0], 25),
    ] {
        assert_eq!(
            doublewrite_write(&lent, list, &mut area),
            written(number, 0)
        );
    }
    assert_eq!(
        doublewrite_write(&lent, &[0, 2], &mut area[..need - 1]),
        written(26, 0)
    );
    assert_eq!(
        doublewrite_write(&lent, &[], &mut area[..23]),
        written(26, 0)
    );
    assert_eq!(
        doublewrite_write(&lent[1..], &[3], &mut area),
        written(1, 0)
    );
    assert!(area == before);
    assert_eq!(
        doublewrite_write(&lent, &[], &mut area[..24]),
        written(0, 24)
    );
    assert!(area[..24] == file_of(&[]));
}

#[test]
fn a_written_file_restores() {
    let whole = pages(4);
    let mut area = vec![0; 16 + 3 * SLOT_BYTES + 8];
    doublewrite_write(&whole, &[0, 1, 3], &mut area);
    let mut lent = whole.clone();
    for page in lent.chunks_mut(PAGE_BYTES) {
        page[100] ^= 1;
    }
    let page_2 = lent[2 * PAGE_BYTES..3 * PAGE_BYTES].to_vec();
    assert_eq!(repair(MAGIC, &mut lent, &area), restored(3));
    assert!(lent[..2 * PAGE_BYTES] == whole[..2 * PAGE_BYTES]);
    assert!(lent[2 * PAGE_BYTES..3 * PAGE_BYTES] == page_2);
    assert!(lent[3 * PAGE_BYTES..] == whole[3 * PAGE_BYTES..]);
}
