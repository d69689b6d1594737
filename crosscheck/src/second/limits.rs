//! W5: the demand limits of a harbour's own table.

use crate::second::head::{DIAL, MOST_LIMIT};
use crate::second::refusal;

/// The longest table.
pub const MOST_PLACES: usize = 24;

/// The limit in W at a place of the table, counted from 1. A table that breaks W5's
/// bounds is refused, 13; a kind that is no place in it, 1.
pub fn limit(table: &[u32], kind: u32) -> Result<u32, u8> {
    check(table)?;
    let place = (kind as usize).checked_sub(1).ok_or(refusal::HEAD)?;
    table.get(place).copied().ok_or(refusal::HEAD)
}

/// As the chargers' host is answered: the limit, or 100,000,000 plus the refusal.
pub fn limit_code(table: &[u32], kind: u32) -> u32 {
    limit(table, kind).unwrap_or_else(|number| DIAL + u32::from(number))
}

/// 1 to 24 limits, the first at least 1, each above the one before, none over 1,000,000;
/// otherwise refused, 13.
pub fn check(table: &[u32]) -> Result<(), u8> {
    let good = table.len() <= MOST_PLACES
        && table.first().is_some_and(|&first| first >= 1)
        && table.is_sorted_by(|one, next| one < next)
        && table.iter().all(|&limit| limit <= MOST_LIMIT);
    if good { Ok(()) } else { Err(refusal::TABLE) }
}
