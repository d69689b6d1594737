//! 02, W9: a dial as four bytes of packed decimal, and back.

use crate::second::head::DIAL;
use crate::second::refusal;

/// Two digits a byte, of eight digits.
pub const DIAL_BYTES: usize = 4;

/// Writes a reading as packed decimal, lowest byte first.
pub fn pack(reading: u32, bytes: &mut [u8]) -> Result<(), u8> {
    // Other than four bytes is 2, before both.
    if bytes.len() != DIAL_BYTES {
        return Err(refusal::LENGTH);
    }
    if reading >= DIAL {
        return Err(refusal::READING);
    }
    let mut left = reading;
    for byte in bytes {
        let digits = (left % 100) as u8;
        // The higher digit is in the upper half.
        *byte = (digits / 10) << 4 | (digits % 10);
        left /= 100;
    }
    Ok(())
}

/// The reading that four bytes of packed decimal stand for.
pub fn unpack(bytes: &[u8]) -> Result<u32, u8> {
    if bytes.len() != DIAL_BYTES {
        return Err(refusal::LENGTH);
    }
    let mut reading = 0;
    for &byte in bytes.iter().rev() {
        let (upper, lower) = (byte >> 4, byte & 15);
        if upper > 9 || lower > 9 {
            return Err(refusal::DIGIT);
        }
        reading = reading * 100 + u32::from(upper) * 10 + u32::from(lower);
    }
    Ok(reading)
}

/// As the chargers' host is answered: 0 or the refusal.
pub fn pack_code(reading: u32, bytes: &mut [u8]) -> u32 {
    match pack(reading, bytes) {
        Ok(()) => 0,
        Err(number) => number.into(),
    }
}

/// As the chargers' host is answered: the reading, or 100,000,000 plus the refusal.
pub fn unpack_code(bytes: &[u8]) -> u32 {
    match unpack(bytes) {
        Ok(reading) => reading,
        Err(number) => DIAL + u32::from(number),
    }
}
