//! The slot that a date and a minute name, and the date of a day number.

use crate::second::head::{self, DIAL, Head, LAST_DAY};
use crate::second::refusal;

pub const DAY_MINUTES: u32 = 1440;

/// The slot of a book at a minute of a date. A bad head is refused, 1; a date that is none or
/// outside the book, or a minute that no day has, 3.
pub fn slot(head: Head, [year, month, day]: [u32; 3], minute: u32) -> Result<u32, u8> {
    let shape = head.shape()?;
    let number = head::day_number(year, month, day).ok_or(refusal::PLACE)?;
    let from_first = number.checked_sub(shape.first_day);
    let in_book = from_first.filter(|&day| day < head.days && minute < DAY_MINUTES);
    let slots_a_day = DAY_MINUTES / head.interval;
    in_book
        .map(|day| day * slots_a_day + minute / head.interval)
        .ok_or(refusal::PLACE)
}

/// As the host is answered: the slot, or 100,000,000 plus the refusal.
pub fn slot_code(head: Head, date: [u32; 3], minute: u32) -> u32 {
    slot(head, date, minute).unwrap_or_else(|number| DIAL + u32::from(number))
}

/// Year × 10,000 + month × 100 + day, or 100,000,000 plus 3.
pub fn date_code(number: u32) -> u32 {
    if number > LAST_DAY {
        return DIAL + u32::from(refusal::PLACE);
    }
    let (year, month, day) = head::date(number);
    10_000 * year + 100 * month + day
}
