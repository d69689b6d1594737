//! Dates and times of day. The library has the calendar: a date's day number is looked for in its dates.

use crate::calls;
use std::fmt;

/// How many day numbers have a date: 0 is 2000-01-01, the last 2099-12-31.
pub const DAYS: u32 = 36_525;

/// A year, a month and a day, which need not be a date of the calendar.
#[derive(Clone, Copy, Debug, PartialEq, Eq, PartialOrd, Ord, Hash)]
pub struct Date {
    /// All four digits.
    pub year: u32,
    /// 1 for January.
    pub month: u32,
    /// 1 for the first of the month.
    pub day: u32,
}

/// The day after the last, where a book's last boundary and a stay's end can lie.
const AFTER_LAST: Date = Date {
    year: 2100,
    month: 1,
    day: 1,
};

impl Date {
    /// Four, two and two digits with `-` between them.
    pub fn parse(text: &[u8]) -> Option<Date> {
        let [a, b, c, d, b'-', e, f, b'-', g, h] = text else {
            return None;
        };
        let year = number(&[*a, *b, *c, *d])?;
        Some(Date {
            year,
            month: number(&[*e, *f])?,
            day: number(&[*g, *h])?,
        })
    }

    /// The date of a day number, 2100-01-01 for the one after the last.
    pub fn of(day: u32) -> Option<Date> {
        if day == DAYS {
            return Some(AFTER_LAST);
        }
        let code = calls::date(day);
        let date = Date {
            year: code / 10_000,
            month: code / 100 % 100,
            day: code % 100,
        };
        (day < DAYS).then_some(date)
    }

    /// Its day number, where it is a date from 2000-01-01 to 2100-01-01.
    pub fn day_number(self) -> Option<u32> {
        let (mut low, mut high) = (0, DAYS);
        while low < high {
            let middle = low + (high - low) / 2;
            if Date::of(middle)? < self {
                low = middle + 1;
            } else {
                high = middle;
            }
        }
        (Date::of(low)? == self).then_some(low)
    }
}

impl fmt::Display for Date {
    fn fmt(&self, f: &mut fmt::Formatter<'_>) -> fmt::Result {
        write!(f, "{:04}-{:02}-{:02}", self.year, self.month, self.day)
    }
}

/// A number of 32 bits in decimal digits.
pub fn number(text: &[u8]) -> Option<u32> {
    if text.is_empty() {
        return None;
    }
    text.iter().try_fold(0_u32, |n, byte| {
        let digit = byte.is_ascii_digit().then(|| byte - b'0')?;
        n.checked_mul(10)?.checked_add(u32::from(digit))
    })
}

/// Hours and minutes of two digits each, in minutes from midnight.
pub fn minute(text: &[u8]) -> Option<u32> {
    let [a, b, b':', c, d] = text else {
        return None;
    };
    let (hour, minute) = (number(&[*a, *b])?, number(&[*c, *d])?);
    (hour < 24 && minute < 60).then_some(60 * hour + minute)
}

/// A minute of the day as hours and minutes.
pub struct Time(pub u32);

impl fmt::Display for Time {
    fn fmt(&self, f: &mut fmt::Formatter<'_>) -> fmt::Result {
        write!(f, "{:02}:{:02}", self.0 / 60, self.0 % 60)
    }
}
