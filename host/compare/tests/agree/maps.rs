//! Free maps of lengths around the steps of eight bytes: what is counted, and that later bytes of the lent map are not.

use generate::{plain_page, FREE};
use oracle::PAGE_BYTES;

const MAGIC: u64 = 7;

/// The type of a page that is neither free nor of data.
const OTHER: u8 = 2;

/// Bytes of a map: none, one, around one step of many, and around the longest.
const LENGTHS: [usize; 7] = [0, 1, 63, 64, 65, 511, 512];

/// How many pages fewer than a map's bits: so many bits of its last byte are spare.
const SPARE: usize = 3;

#[test]
fn maps_around_steps_of_eight_bytes() {
    let most = 8 * LENGTHS[LENGTHS.len() - 1];
    let pages: Vec<u8> = (0..most as u64)
        .flat_map(|id| plain_page(MAGIC, if id % 7 == 3 { OTHER } else { FREE }, id, 0))
        .collect();
    for length in LENGTHS {
        let whole = 8 * length;
        for count in [whole, whole.saturating_sub(SPARE)] {
            let lent = &pages[..count * PAGE_BYTES];
            let mut map = vec![0xFF; length + 9];
            let mut expected = map.clone();
            let answer = library::free_map(MAGIC, lent, &mut map);
            let second = oracle::free_map(MAGIC, lent, &mut expected);
            let free = (0..count).filter(|id| id % 7 != 3).count() as u64;
            assert_eq!(
                (answer.number, answer.free),
                (0, free),
                "{count} pages, a map of {length} bytes"
            );
            assert_eq!(second.free, free, "the second program, {count} pages");
            assert_eq!(map, expected, "{count} pages, a map of {length} bytes");
            assert!(map[count.div_ceil(8)..].iter().all(|&byte| byte == 0xFF));
        }
    }
}
