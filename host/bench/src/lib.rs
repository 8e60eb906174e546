//! Unproved checksums that the benchmarks measure the proved one beside, their way to take times, and the logs that recovery is measured on.
pub mod workload;

use std::hint::black_box;
use std::time::Instant;

const fn tables() -> [[u32; 256]; 8] {
    let mut t = [[0u32; 256]; 8];
    let mut k = 0;
    while k < 256 {
        let mut c = k as u32;
        let mut i = 0;
        while i < 8 {
            c = (c >> 1) ^ (0x82F6_3B78 * (c & 1));
            i += 1;
        }
        t[0][k] = c;
        k += 1;
    }
    let mut j = 1;
    while j < 8 {
        let mut k = 0;
        while k < 256 {
            let c = t[j - 1][k];
            t[j][k] = (c >> 8) ^ t[0][(c & 255) as usize];
            k += 1;
        }
        j += 1;
    }
    t
}

static TABLES: [[u32; 256]; 8] = tables();

fn byte(c: u32, b: u8) -> u32 {
    (c >> 8) ^ TABLES[0][((c ^ b as u32) & 255) as usize]
}

/// One table, byte by byte.
pub fn bytewise(s: &[u8]) -> u32 {
    !s.iter().fold(!0, |c, &b| byte(c, b))
}

/// Eight tables, eight bytes a step.
pub fn sliced(s: &[u8]) -> u32 {
    let mut c = !0u32;
    let mut words = s.chunks_exact(8);
    for w in &mut words {
        let x = u64::from_le_bytes(w.try_into().unwrap()) ^ c as u64;
        c = (0..8).fold(0, |r, i| r ^ TABLES[7 - i][((x >> (8 * i)) & 255) as usize]);
    }
    !words.remainder().iter().fold(c, |c, &b| byte(c, b))
}

#[cfg(target_arch = "x86_64")]
#[target_feature(enable = "sse4.2")]
unsafe fn machine_sse42(s: &[u8]) -> u32 {
    use std::arch::x86_64::{_mm_crc32_u64, _mm_crc32_u8};
    let mut c = !0u32 as u64;
    let mut words = s.chunks_exact(8);
    for w in &mut words {
        c = _mm_crc32_u64(c, u64::from_le_bytes(w.try_into().unwrap()));
    }
    let mut c = c as u32;
    for &b in words.remainder() {
        c = _mm_crc32_u8(c, b);
    }
    !c
}

/// Whether this machine has a crc32 instruction.
pub fn has_instruction() -> bool {
    #[cfg(target_arch = "x86_64")]
    {
        std::is_x86_feature_detected!("sse4.2")
    }
    #[cfg(not(target_arch = "x86_64"))]
    {
        false
    }
}

/// The machine's crc32 instruction, where there is one; else eight tables.
pub fn machine(s: &[u8]) -> u32 {
    #[cfg(target_arch = "x86_64")]
    if has_instruction() {
        return unsafe { machine_sse42(s) };
    }
    sliced(s)
}

/// Seconds for one pass, the best of so many.
pub fn best<T>(passes: usize, mut pass: impl FnMut() -> T) -> f64 {
    (0..passes)
        .map(|_| {
            let start = Instant::now();
            black_box(pass());
            start.elapsed().as_secs_f64()
        })
        .fold(f64::INFINITY, f64::min)
}

/// Seconds that a call takes.
pub fn seconds<T>(call: impl FnOnce() -> T) -> f64 {
    let start = Instant::now();
    black_box(call());
    start.elapsed().as_secs_f64()
}
