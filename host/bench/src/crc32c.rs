//! The proved CRC32c beside one table, eight tables and the machine's crc32 instruction, in one run.
use bench::{best, bytewise, machine, sliced};
use std::hint::black_box;

extern "C" {
    fn timed_crc32c(s: *const u8, len: usize, piece: usize) -> u32;
}

/// Enough of them that some are not disturbed.
const PASSES: usize = 21;

/// The proved checksums of all whole pieces, mixed; the tables are made once, as inside the library.
fn proved_pieces(s: &[u8], piece: usize) -> u32 {
    unsafe { timed_crc32c(s.as_ptr(), s.len(), piece) }
}

fn pieces(s: &[u8], piece: usize, crc: impl Fn(&[u8]) -> u32) -> u32 {
    s.chunks_exact(piece).fold(0, |x, p| x ^ crc(p))
}

fn main() {
    let size = 16 << 20;
    let mut x = 1u64;
    let data: Vec<u8> = (0..size)
        .map(|_| {
            x = x
                .wrapping_mul(6364136223846793005)
                .wrapping_add(1442695040888963407);
            (x >> 56) as u8
        })
        .collect();
    println!("CRC32c over 16 MiB, best of {PASSES}, GB/s (ratio to eight tables)");
    println!(
        "{:>10}  {:>10}  {:>12}  {:>15}  {:>15}",
        "piece", "one table", "eight tables", "proved", "machine's crc32"
    );
    for piece in [43, 64, 120, 200, 400, 639, 640, 1_024, 4_096, 16_320, size] {
        let expected = pieces(&data, piece, machine);
        let found = proved_pieces(&data, piece);
        assert_eq!(
            found, expected,
            "the proved checksum differs at pieces of {piece}"
        );
        assert_eq!(pieces(&data, piece, bytewise), expected);
        assert_eq!(pieces(&data, piece, sliced), expected);
        let bytes = (size / piece * piece) as f64;
        let b = best(PASSES, || pieces(black_box(&data), piece, bytewise));
        let e = best(PASSES, || pieces(black_box(&data), piece, sliced));
        let p = best(PASSES, || proved_pieces(black_box(&data), piece));
        let m = best(PASSES, || pieces(black_box(&data), piece, machine));
        let rate = |t: f64| bytes / t / 1e9;
        let show = |t: f64| format!("{:.2} ({:.2}x)", rate(t), e / t);
        println!(
            "{piece:>10}  {:>10.2}  {:>12.2}  {:>15}  {:>15}",
            rate(b),
            rate(e),
            show(p),
            show(m)
        );
    }
    let none = best(PASSES, || proved_pieces(black_box(&[]), 1));
    println!("making the proved tables: {:.1} microseconds", none * 1e6);
}
