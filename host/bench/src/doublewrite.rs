//! A double-write file of 4,096 pages: written, read, and used for a repair with no page torn and with every page torn,
//! beside one checksum of the pages and the file.
use bench::best;
use generate::{live_tuple, DataPage, Slots};
use library::{doublewrite_bytes, doublewrite_read, doublewrite_write, repair, PAGE_BYTES};
use std::hint::black_box;

const MAGIC: u64 = 0x4C75_6D62_7261_7175;
const PAGES: usize = 4_096;
const ROWS: u16 = 80;
const PASSES: usize = 9;

/// What the time of a repair of every page, in terms of one checksum of pages and file, should stay under.
const TORN_BOUND: f64 = 2.5;

/// A byte of each body, between its slots and its tuples.
const GAP: usize = 1_000;

fn area() -> Vec<u8> {
    let page = |id| {
        let tuple = |slot: u16| live_tuple(id + 1, &[slot as u8; 120]);
        let slots: Slots = (0..ROWS).map(|slot| (slot, tuple(slot))).collect();
        DataPage::plain(MAGIC, id, 0, slots).packed()
    };
    (0..PAGES as u64).flat_map(page).collect()
}

/// Repairs the pages, and says how many it restored.
fn repaired(pages: &mut [u8], file: &[u8]) -> u64 {
    let answer = repair(MAGIC, black_box(pages), black_box(file));
    assert_eq!(answer.number, 0, "the file is refused");
    answer.restored
}

/// The same of pages that are all torn.
fn torn_and_repaired(pages: &mut [u8], file: &[u8]) -> u64 {
    for page in pages.chunks_mut(PAGE_BYTES) {
        page[GAP] ^= 1;
    }
    repaired(pages, file)
}

fn main() {
    let mut pages = area();
    let whole = pages.clone();
    let list: Vec<u64> = (0..PAGES as u64).collect();
    let mut file = vec![0; doublewrite_bytes(PAGES)];
    let written = doublewrite_write(&pages, &list, &mut file);
    assert_eq!(written.length, file.len() as u64);
    assert_eq!(doublewrite_read(&file, PAGES as u64).slots, PAGES as u64);
    assert_eq!(torn_and_repaired(&mut pages, &file), PAGES as u64);
    assert!(pages == whole, "the pages are not restored");

    let both = best(PASSES, || {
        library::crc32c(black_box(&pages)) ^ library::crc32c(black_box(&file))
    });
    println!("a double-write file of {PAGES} pages, best of {PASSES}, in terms of one checksum of pages and file");
    println!("{:>24}  {:>8.2} ms", "one checksum of both", both * 1e3);
    let tell = |name: &str, time: f64| {
        println!("{name:>24}  {:>8.2} ms  {:.2}x", time * 1e3, time / both);
    };
    let read = best(PASSES, || doublewrite_read(black_box(&file), PAGES as u64));
    tell("read", read);
    let mut area = file.clone();
    let write = best(PASSES, || {
        doublewrite_write(black_box(&pages), &list, &mut area)
    });
    tell("write", write);
    tell(
        "repair, nothing torn",
        best(PASSES, || repaired(&mut pages, &file)),
    );
    let torn = best(PASSES, || torn_and_repaired(&mut pages, &file));
    tell("repair, every page torn", torn);
    let met = if torn / both <= TORN_BOUND {
        "within"
    } else {
        "OVER"
    };
    println!("{:>24}  {met} {TORN_BOUND:.1}x", "");
}
