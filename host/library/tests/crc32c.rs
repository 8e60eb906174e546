//! The proved checksum against the second program's, at every length around its words and chunks.

#[test]
fn agrees_at_every_kind_of_length() {
    let mut x = 7u64;
    let data: Vec<u8> = (0..70_000)
        .map(|_| {
            x = x
                .wrapping_mul(6364136223846793005)
                .wrapping_add(1442695040888963407);
            (x >> 56) as u8
        })
        .collect();
    let lengths = (0..2_500)
        .chain(4_400..4_450)
        .chain(16_300..16_340)
        .chain([65_280, 65_281, 70_000]);
    for len in lengths {
        for start in [0, 1, 3] {
            let s = &data[start.min(70_000 - len)..][..len];
            assert_eq!(
                library::crc32c(s),
                oracle::crc32c(s),
                "length {len} from {start}"
            );
        }
    }
}
