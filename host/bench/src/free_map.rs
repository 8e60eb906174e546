//! The count of free pages: page by page, as it was made before, beside the ones of the finished map, eight bytes at a time, in one run.
use bench::best;
use std::hint::black_box;

extern "C" {
    fn timed_free_pages(pages: *const u8, len: usize) -> u64;
    fn timed_ones(map: *const u8, len: usize) -> u64;
}

const PAGE: usize = 16_384;
/// Where a page's type stands, and the type of a free page.
const TYPE_AT: usize = 8;
const FREE: u8 = 4;

/// Today's most pages, and those whose map has 8,192 bytes.
const COUNTS: [usize; 2] = [4_096, 65_536];

/// Passes that are timed together, since one count of a map takes less than the clock shows.
const PASSES: u32 = 100;

/// Seconds for one count.
fn once(mut count: impl FnMut() -> u64) -> f64 {
    let all = best(5, || (0..PASSES).map(|_| black_box(count())).sum::<u64>());
    all / f64::from(PASSES)
}

fn main() {
    println!("count of free pages, all free, best of 5, µs");
    println!(
        "{:>8}  {:>10}  {:>14}  {:>12}  {:>8}",
        "pages", "map bytes", "page by page", "by the map", "ratio"
    );
    for count in COUNTS {
        let mut pages = vec![0u8; count * PAGE];
        for page in pages.chunks_exact_mut(PAGE) {
            page[TYPE_AT] = FREE;
        }
        let map = vec![0xFFu8; count / 8];
        let by_pages = || unsafe { timed_free_pages(black_box(pages.as_ptr()), pages.len()) };
        let by_map = || unsafe { timed_ones(black_box(map.as_ptr()), map.len()) };
        assert_eq!((by_pages(), by_map()), (count as u64, count as u64));
        let (old, new) = (once(by_pages), once(by_map));
        println!(
            "{count:>8}  {:>10}  {:>14.2}  {:>12.3}  {:>8.4}",
            map.len(),
            old * 1e6,
            new * 1e6,
            new / old
        );
    }
}
