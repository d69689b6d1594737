//! The fields of a file's trailer.

use crate::second::file::TRAILER_BYTES;

/// Where a field begins, and how many bytes it has.
pub type Field = (usize, usize);

pub const FIRST_DAY: Field = (0, 2);
pub const DAYS: Field = (2, 2);
pub const INTERVAL: Field = (4, 1);
pub const LAYOUT: Field = (5, 1);
pub const SPANS: Field = (6, 2);
pub const ACTUAL: Field = (8, 4);
pub const SUBSTITUTED: Field = (12, 4);
pub const NONE: Field = (16, 4);
pub const SUM: Field = (20, 8);
/// The bytes of the span table.
pub const DISTANCE: Field = (28, 4);

/// A field of a file; none where the file is too short for a trailer.
pub fn get(file: &[u8], (at, len): Field) -> Option<u64> {
    let trailer = file.last_chunk::<TRAILER_BYTES>()?;
    let mut number = [0; 8];
    number[..len].copy_from_slice(&trailer[at..at + len]);
    Some(u64::from_le_bytes(number))
}

/// Writes as many low bytes of a number as the field has; nothing where the file is too short for a
/// trailer.
pub fn set(file: &mut [u8], (at, len): Field, number: u64) {
    if let Some(trailer) = file.last_chunk_mut::<TRAILER_BYTES>() {
        trailer[at..at + len].copy_from_slice(&number.to_le_bytes()[..len]);
    }
}
