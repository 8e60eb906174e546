//! CRC32c, the Castagnoli checksum of RFC 3720, one byte at a time.

/// The reflected polynomial.
const POLYNOMIAL: u32 = 0x82F6_3B78;

/// What eight steps of one bit each make of every byte value.
const TABLE: [u32; 256] = table();

const fn table() -> [u32; 256] {
    let mut table = [0; 256];
    let mut byte = 0;
    while byte < 256 {
        let mut value = byte as u32;
        let mut bit = 0;
        while bit < 8 {
            value = if value & 1 == 1 {
                (value >> 1) ^ POLYNOMIAL
            } else {
                value >> 1
            };
            bit += 1;
        }
        table[byte] = value;
        byte += 1;
    }
    table
}

/// Reflected polynomial, start all ones, final inversion.
pub fn crc32c(bytes: &[u8]) -> u32 {
    let mut value = u32::MAX;
    for &byte in bytes {
        value = (value >> 8) ^ TABLE[((value ^ u32::from(byte)) & 0xFF) as usize];
    }
    !value
}
