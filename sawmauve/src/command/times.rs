//! Days and slots of a book as dates and times.

use sawmauve::{Date, Figures, Time};

/// A day, counted from 0 from the day number of the first.
pub fn date(first: u32, day: u32) -> String {
    Date::of(first.saturating_add(day)).map_or_else(String::new, |date| date.to_string())
}

/// The days and slots of a file.
#[derive(Clone, Copy)]
pub struct Times {
    first: u32,
    interval: u32,
}

impl Times {
    pub fn of(figures: &Figures) -> Times {
        Times {
            first: figures.first,
            interval: figures.interval,
        }
    }

    /// The date of a day or a boundary.
    pub fn day(&self, day: u32) -> String {
        date(self.first, day)
    }

    /// The date and time at which a slot begins.
    pub fn slot(&self, slot: u32) -> String {
        let in_day = 1440_u32.checked_div(self.interval).unwrap_or(0).max(1);
        let time = Time(slot % in_day * self.interval);
        format!("{} {time}", self.day(slot / in_day))
    }
}
