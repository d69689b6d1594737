//! 02, W9: dials in packed decimal.

use crosscheck::number::narrowed;
use crosscheck::second::dial::{pack, pack_code, unpack, unpack_code};

const MAX: u32 = u32::MAX;

fn packed(reading: u32) -> [u8; 4] {
    let mut bytes = [0xEE; 4];
    assert_eq!(pack(reading, &mut bytes), Ok(()), "{reading}");
    bytes
}

#[test]
fn two_digits_a_byte_lowest_byte_first() {
    let cases = [
        (0, [0x00, 0x00, 0x00, 0x00]),
        (7, [0x07, 0x00, 0x00, 0x00]),
        (10, [0x10, 0x00, 0x00, 0x00]),
        (99, [0x99, 0x00, 0x00, 0x00]),
        (100, [0x00, 0x01, 0x00, 0x00]),
        (12_345_678, [0x78, 0x56, 0x34, 0x12]),
        (80_000_000, [0x00, 0x00, 0x00, 0x80]),
        (99_999_990, [0x90, 0x99, 0x99, 0x99]),
        (99_999_999, [0x99, 0x99, 0x99, 0x99]),
    ];
    for (reading, bytes) in cases {
        assert_eq!(packed(reading), bytes);
        assert_eq!(unpack(&bytes), Ok(reading));
    }
}

#[test]
fn there_and_back() {
    // Steps that share no factor with a power of ten.
    for reading in (0..100_000_000).step_by(997) {
        assert_eq!(unpack(&packed(reading)), Ok(reading));
    }
}

#[test]
fn every_byte_in_every_place() {
    for place in 0..4 {
        for byte in 0..=255_u8 {
            let mut bytes = [0x12; 4];
            bytes[place] = byte;
            let (upper, lower) = (u32::from(byte) / 16, u32::from(byte) % 16);
            let scale = 100_u32.pow(narrowed(place));
            let expected = if upper > 9 || lower > 9 {
                Err(16)
            } else {
                Ok(12_121_212 - 12 * scale + (10 * upper + lower) * scale)
            };
            assert_eq!(unpack(&bytes), expected, "{bytes:02x?}");
            if let Ok(reading) = expected {
                assert_eq!(packed(reading), bytes, "one form");
            }
        }
    }
}

#[test]
fn other_than_four_bytes_is_2_before_both() {
    for len in [0, 1, 2, 3, 5, 8, 9] {
        for reading in [0, 99_999_999, 100_000_000, MAX] {
            let mut bytes = vec![0xFF; len];
            assert_eq!(pack(reading, &mut bytes), Err(2));
            assert_eq!(bytes, vec![0xFF; len]);
        }
        assert_eq!(unpack(&vec![0xFF; len]), Err(2));
        assert_eq!(unpack(&vec![0; len]), Err(2));
    }
}

#[test]
fn a_reading_over_the_dial_is_6() {
    for reading in [100_000_000, 100_000_001, MAX] {
        let mut bytes = [1, 2, 3, 4];
        assert_eq!(pack(reading, &mut bytes), Err(6));
        assert_eq!(bytes, [1, 2, 3, 4]);
    }
}

#[test]
fn codes_for_the_chargers_host() {
    let mut bytes = [0; 4];
    assert_eq!(pack_code(99_999_999, &mut bytes), 0);
    assert_eq!(unpack_code(&bytes), 99_999_999);
    assert_eq!(pack_code(100_000_000, &mut bytes), 6);
    assert_eq!(pack_code(100_000_000, &mut bytes[..3]), 2);
    assert_eq!(unpack_code(&bytes[..3]), 100_000_002);
    assert_eq!(unpack_code(&[0, 0, 0, 0xA0]), 100_000_016);
    assert_eq!(unpack_code(&[0x0A, 0, 0, 0]), 100_000_016);
    assert_eq!(unpack_code(&[0; 4]), 0);
}
