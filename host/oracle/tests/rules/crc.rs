//! The checksum on the vectors of RFC 3720 and on the usual check word.

use oracle::crc32c;

#[test]
fn vectors_of_rfc_3720() {
    let rising: Vec<u8> = (0..32).collect();
    let falling: Vec<u8> = (0..32).rev().collect();
    assert_eq!(crc32c(&[0; 32]), 0x8A91_36AA);
    assert_eq!(crc32c(&[0xFF; 32]), 0x62A8_AB43);
    assert_eq!(crc32c(&rising), 0x46DD_794E);
    assert_eq!(crc32c(&falling), 0x113F_DB5C);
}

#[test]
fn check_word_and_empty_slice() {
    assert_eq!(crc32c(b"123456789"), 0xE306_9283);
    assert_eq!(crc32c(&[]), 0);
}
