//! The head of a book and the days it covers: 01, Opening.

use crate::number::narrowed;
use crate::second::refusal;

/// Day number of 2099-12-31; day 0 is 2000-01-01.
pub const LAST_DAY: u32 = 36_524;
/// The longest book.
pub const MOST_DAYS: u32 = 400;
/// The highest tolerance in Wh.
pub const MOST_TOLERANCE: u32 = 1_000_000;
/// The highest demand limit in W.
pub const MOST_LIMIT: u32 = 1_000_000;
/// An eight-digit dial shows 0 to `DIAL - 1`.
pub const DIAL: u32 = 100_000_000;

/// W4: the days before each month, of ordinary years and of leap years.
pub const DAYS_BEFORE: [[u32; 12]; 2] = [
    [0, 31, 59, 90, 120, 151, 181, 212, 243, 273, 304, 334],
    [0, 31, 60, 91, 121, 152, 182, 213, 244, 274, 305, 335],
];

const YEAR_DAYS: [u32; 2] = [365, 366];

/// The head, as every call is given it; any numbers, in bounds or not.
#[derive(Clone, Copy, Debug, PartialEq, Eq)]
pub struct Head {
    pub year: u32,
    pub month: u32,
    pub day: u32,
    pub days: u32,
    pub interval: u32,
    /// W5: a demand limit in W, in the connection kind's stead.
    pub limit: u32,
    pub tolerance: u32,
}

/// What a head within Opening's bounds amounts to.
#[derive(Clone, Copy, Debug, PartialEq, Eq)]
pub struct Shape {
    /// Day number of the first day.
    pub first_day: u32,
    /// D.
    pub days: usize,
    /// L in minutes.
    pub interval: u32,
    /// n = 1440 / L.
    pub slots_a_day: usize,
    /// N = n × D.
    pub slots: usize,
    /// Demand limit in W.
    pub limit: u32,
    /// t in Wh.
    pub tolerance: u32,
}

impl Head {
    /// The shape of a head in bounds; otherwise refused, 1.
    pub fn shape(&self) -> Result<Shape, u8> {
        let first_day = day_number(self.year, self.month, self.day).ok_or(refusal::HEAD)?;
        if !days_fit(first_day, self.days)
            || !interval_known(self.interval)
            || !(1..=MOST_LIMIT).contains(&self.limit)
            || self.tolerance > MOST_TOLERANCE
        {
            return Err(refusal::HEAD);
        }
        let slots_a_day = (1440 / self.interval) as usize;
        let days = self.days as usize;
        Ok(Shape {
            first_day,
            days,
            interval: self.interval,
            slots_a_day,
            slots: slots_a_day * days,
            limit: self.limit,
            tolerance: self.tolerance,
        })
    }
}

pub fn interval_known(interval: u32) -> bool {
    matches!(interval, 5 | 15 | 30)
}

/// D is 1 to 400, and the last day is not after 2099-12-31.
pub fn days_fit(first_day: u32, days: u32) -> bool {
    (1..=MOST_DAYS).contains(&days) && first_day <= LAST_DAY && first_day + (days - 1) <= LAST_DAY
}

fn is_leap(year: u32) -> bool {
    year.is_multiple_of(4) && (!year.is_multiple_of(100) || year.is_multiple_of(400))
}

/// The days before each month of a year.
fn before_months(year: u32) -> &'static [u32; 12] {
    &DAYS_BEFORE[usize::from(is_leap(year))]
}

fn year_days(year: u32) -> u32 {
    YEAR_DAYS[usize::from(is_leap(year))]
}

/// The number of a day from 2000-01-01 to 2099-12-31; none for any other.
pub fn day_number(year: u32, month: u32, day: u32) -> Option<u32> {
    if !(2000..=2099).contains(&year) || !(1..=12).contains(&month) {
        return None;
    }
    let before = before_months(year);
    let month = month as usize - 1;
    let after = before.get(month + 1).copied().unwrap_or(year_days(year));
    if !(1..=after - before[month]).contains(&day) {
        return None;
    }
    // From 2000 to 2099 every fourth year is a leap year, 2000 the first.
    let years = year - 2000;
    let leap_days = years.div_ceil(4);
    Some(365 * years + leap_days + before[month] + day - 1)
}

/// Year, month and day of a day number up to `LAST_DAY`.
pub fn date(number: u32) -> (u32, u32, u32) {
    let mut year = 2000;
    let mut left = number;
    while left >= year_days(year) {
        left -= year_days(year);
        year += 1;
    }
    // The last month that has begun; the first begins with no days before it.
    let before = before_months(year);
    let month = before.iter().filter(|&&days| days <= left).count();
    (year, narrowed(month), left - before[month - 1] + 1)
}

#[cfg(test)]
mod tests {
    use super::*;

    #[test]
    fn days_are_numbered_from_2000() {
        assert_eq!(day_number(2000, 1, 1), Some(0));
        assert_eq!(day_number(2000, 2, 29), Some(59));
        assert_eq!(day_number(2024, 5, 1), Some(0x22B7));
        assert_eq!(day_number(2099, 12, 31), Some(LAST_DAY));
        assert_eq!(day_number(2001, 2, 29), None);
        assert_eq!(day_number(1999, 12, 31), None);
        assert_eq!(day_number(2100, 1, 1), None);
        assert_eq!(day_number(u32::MAX, u32::MAX, u32::MAX), None);
    }

    #[test]
    fn date_is_the_inverse() {
        for number in 0..=LAST_DAY {
            let (year, month, day) = date(number);
            assert_eq!(day_number(year, month, day), Some(number));
        }
    }
}
