//! The head of a book.

use crate::codes::READINGS;
use crate::{Date, Error, calls};

/// What every call of a book is given.
#[derive(Clone, Copy, Debug, Default, PartialEq, Eq)]
pub struct Head {
    /// The first day's year, 2000 to 2099.
    pub year: u32,
    /// The first day's month, 1 to 12.
    pub month: u32,
    /// The first day in its month, from 1.
    pub day: u32,
    /// D, 1 to 400.
    pub days: u32,
    /// L in minutes: 5, 15 or 30.
    pub interval: u32,
    /// The demand limit in W, 1 to 1,000,000.
    pub limit: u32,
    /// The tolerance in Wh, 0 to 1,000,000.
    pub tolerance: u32,
}

impl Head {
    /// n; 0 where the interval is 0.
    pub fn slots_per_day(&self) -> u32 {
        1440_u32.checked_div(self.interval).unwrap_or(0)
    }

    /// D, or 400 for a head of more, which every call refuses.
    pub fn day_count(&self) -> u32 {
        self.days.min(400)
    }

    /// N.
    pub fn slot_count(&self) -> u32 {
        self.slots_per_day() * self.day_count()
    }

    /// The first day.
    pub fn first(&self) -> Date {
        Date {
            year: self.year,
            month: self.month,
            day: self.day,
        }
    }

    /// The slot that a date and a minute of the day name: `Place` for one outside the book.
    pub fn slot_at(&self, date: Date, minute: u32) -> Result<u32, Error> {
        match calls::slot(*self, date.year, date.month, date.day, minute) {
            code @ READINGS.. => Err(Error::of(code - READINGS)),
            slot => Ok(slot),
        }
    }
}
