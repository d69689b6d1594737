//! Numbers in fewer bits.

use std::fmt::Display;

/// The same number in fewer bits. What a book, a file or a log has in bounds fits where it goes; what
/// does not is a fault of the comparison, and ends it.
#[inline]
#[track_caller]
pub fn narrowed<T>(number: impl TryInto<T> + Copy + Display) -> T {
    let Ok(same) = number.try_into() else {
        panic!("{number} needs more bits than there are");
    };
    same
}

/// The low half of a word.
pub fn low_half(word: u32) -> u16 {
    let [a, b, ..] = word.to_le_bytes();
    u16::from_le_bytes([a, b])
}
