//! Compares every date's answer, W4, with a calendar that is walked day by day and
//! with another build.

use std::io::{self, Write};
use std::process::{Command, Stdio};

use crate::compare::side::{Answer, Second, Side};
use crate::guard;
use crate::second::file::TRAILER_BYTES;
use crate::second::head::{self, Head};
use crate::second::line;
use crate::second::lists::Lists;
use crate::tries::Tally;

/// Opening and publishing of one build.
#[derive(Clone, Copy)]
pub struct Books {
    pub open: fn(Head, &mut Lists) -> Answer,
    pub publish: fn(Head, &Lists, &mut [u8]) -> Answer,
}

pub const SECOND: Books = Books {
    open: |head, lists| Second.open(head, lists),
    publish: |head, lists, out| Second.publish(head, lists, out),
};

pub const CLASSES: &[&str] = &[
    "date, ordinary year",
    "date, leap year",
    "29 February",
    "2000-01-01",
    "2099-12-31",
    "2099-12-31 with 2 days refused",
    "1999-12-31 refused",
    "2100-01-01 refused",
    "another year refused",
    "month 0 refused, ordinary year",
    "month 0 refused, leap year",
    "month 13 refused, ordinary year",
    "month 13 refused, leap year",
    "another month refused",
    "day 0 refused, ordinary year",
    "day 0 refused, leap year",
    "day past month 1 refused, ordinary year",
    "day past month 2 refused, ordinary year",
    "day past month 3 refused, ordinary year",
    "day past month 4 refused, ordinary year",
    "day past month 5 refused, ordinary year",
    "day past month 6 refused, ordinary year",
    "day past month 7 refused, ordinary year",
    "day past month 8 refused, ordinary year",
    "day past month 9 refused, ordinary year",
    "day past month 10 refused, ordinary year",
    "day past month 11 refused, ordinary year",
    "day past month 12 refused, ordinary year",
    "day past month 1 refused, leap year",
    "day past month 2 refused, leap year",
    "day past month 3 refused, leap year",
    "day past month 4 refused, leap year",
    "day past month 5 refused, leap year",
    "day past month 6 refused, leap year",
    "day past month 7 refused, leap year",
    "day past month 8 refused, leap year",
    "day past month 9 refused, leap year",
    "day past month 10 refused, leap year",
    "day past month 11 refused, leap year",
    "day past month 12 refused, leap year",
    "another day refused",
];

/// L 30, so a day has this many slots.
const SLOTS: usize = 48;
const LENGTH: usize = 6 * SLOTS + TRAILER_BYTES;

pub type Date = (u32, u32, u32);

/// Goes through every date and the impossible ones, and stops at a difference.
pub fn all(other: Option<Books>, tally: &mut Tally) -> Result<(), String> {
    in_years(|_| true, other, tally)
}

/// The way back: runs a program on the file of each date's book, as the second build
/// writes it, and compares the date in its line.
pub fn shown(program: &str) -> Result<(), String> {
    for number in 0..36_525 {
        let date = head::date(number);
        let file = file(SECOND, date)?;
        let expected = line::line(&file) + "\n";
        let written = run(program, &file).map_err(|error| format!("{program}: {error}"))?;
        if written != expected.as_bytes() {
            let written = String::from_utf8_lossy(&written);
            return Err(format!("{date:?}: {program} wrote {written}"));
        }
    }
    Ok(())
}

/// What a program writes of a file on its standard input.
fn run(program: &str, file: &[u8]) -> io::Result<Vec<u8>> {
    let mut child = Command::new(program)
        .stdin(Stdio::piped())
        .stdout(Stdio::piped())
        .spawn()?;
    child.stdin.take().expect("piped").write_all(file)?;
    Ok(child.wait_with_output()?.stdout)
}

/// The same for some of the years, counting the days of the others.
fn in_years(
    tried: impl Fn(u32) -> bool,
    other: Option<Books>,
    tally: &mut Tally,
) -> Result<(), String> {
    let mut check = Check { other, tally };
    let mut date = (2000, 1, 1);
    let mut number = 0;
    while date.0 < 2100 {
        if tried(date.0) {
            guard::turn(number.into());
            check.known(date, number)?;
        }
        date = next(date);
        number += 1;
    }
    if number != 36_525 {
        return Err(format!("{number} days from 2000 to 2099"));
    }
    for year in (2000..2100).filter(|&year| tried(year)) {
        guard::turn(year.into());
        check.impossible_in(year)?;
    }
    check.outside()
}

/// 30 days hath September, ..
fn month_days(year: u32, month: u32) -> u32 {
    match month {
        4 | 6 | 9 | 11 => 30,
        2 if year.is_multiple_of(4) => 29,
        2 => 28,
        _ => 31,
    }
}

pub fn next((year, month, day): Date) -> Date {
    if day < month_days(year, month) {
        (year, month, day + 1)
    } else if month < 12 {
        (year, month + 1, 1)
    } else {
        (year + 1, 1, 1)
    }
}

/// How a class names the kind of a year.
fn sort(year: u32) -> &'static str {
    if year.is_multiple_of(4) {
        "leap year"
    } else {
        "ordinary year"
    }
}

/// A book of so many days from a date.
fn head((year, month, day): Date, days: u32) -> Head {
    Head {
        year,
        month,
        day,
        days,
        interval: 30,
        limit: 40_000,
        tolerance: 0,
    }
}

struct Check<'a> {
    other: Option<Books>,
    tally: &'a mut Tally,
}

impl Check<'_> {
    fn sides(&self) -> Vec<(&'static str, Books)> {
        let other = self.other.map(|other| ("other", other));
        [("second", SECOND)].into_iter().chain(other).collect()
    }

    /// A date with its day number.
    fn known(&mut self, date: Date, number: u32) -> Result<(), String> {
        let (there, back) = (head::day_number(date.0, date.1, date.2), head::date(number));
        if there != Some(number) || back != date {
            return Err(format!("{date:?}: day {there:?}, not {number}; {back:?}"));
        }
        for (name, side) in self.sides() {
            let first_day = published(side, date).map_err(|what| format!("{name}: {what}"))?;
            if first_day != number {
                return Err(format!("{date:?}: {name} {first_day}, not {number}"));
            }
        }
        let tally = &mut self.tally;
        tally.add(&format!("date, {}", sort(date.0)));
        tally.add_if(date.1 == 2 && date.2 == 29, "29 February");
        tally.add_if(date == (2000, 1, 1), "2000-01-01");
        tally.add_if(date == (2099, 12, 31), "2099-12-31");
        Ok(())
    }

    /// A head that is refused, 1, by opening and publishing; no cell and no byte changes.
    fn refused(&mut self, head: Head, class: &str) -> Result<(), String> {
        for (name, side) in self.sides() {
            let before = Lists::unopened(SLOTS * head.days as usize, head.days as usize);
            let mut lists = before.clone();
            let mut out = [0xA5; LENGTH];
            let opened = (side.open)(head, &mut lists);
            let published = (side.publish)(head, &lists, &mut out);
            let answers = [opened, published];
            if answers != [Answer::Refused(1); 2] || lists != before || out != [0xA5; LENGTH] {
                return Err(format!("{head:?}: {name} {answers:?}"));
            }
        }
        self.tally.add(class);
        Ok(())
    }

    fn impossible_in(&mut self, year: u32) -> Result<(), String> {
        let sort = sort(year);
        for month in [0, 13] {
            for day in 1..=31 {
                let class = format!("month {month} refused, {sort}");
                self.refused(head((year, month, day), 1), &class)?;
            }
        }
        for month in [14, 255, 256, u32::MAX] {
            self.refused(head((year, month, 1), 1), "another month refused")?;
        }
        for month in 1..=12 {
            let length = month_days(year, month);
            let class = format!("day 0 refused, {sort}");
            self.refused(head((year, month, 0), 1), &class)?;
            let class = format!("day past month {month} refused, {sort}");
            self.refused(head((year, month, length + 1), 1), &class)?;
            for day in [32, 33, 255, 256, 257, u32::MAX] {
                self.refused(head((year, month, day), 1), "another day refused")?;
            }
        }
        Ok(())
    }

    fn outside(&mut self) -> Result<(), String> {
        self.refused(head((1999, 12, 31), 1), "1999-12-31 refused")?;
        self.refused(head((2100, 1, 1), 1), "2100-01-01 refused")?;
        let class = "2099-12-31 with 2 days refused";
        self.refused(head((2099, 12, 31), 2), class)?;
        for year in [0, 1, 99, 1900, 1996, 1999, 2100, 2104, 2400, u32::MAX] {
            for (month, day) in [(1, 1), (2, 28), (2, 29), (7, 15), (12, 31)] {
                self.refused(head((year, month, day), 1), "another year refused")?;
            }
        }
        Ok(())
    }
}

/// The first day's number in the file of a book of this one day, with nothing delivered.
fn published(side: Books, date: Date) -> Result<u32, String> {
    let out = file(side, date)?;
    let trailer = LENGTH - TRAILER_BYTES;
    Ok(u32::from(u16::from_le_bytes([
        out[trailer],
        out[trailer + 1],
    ])))
}

/// The file of a date's book.
fn file(side: Books, date: Date) -> Result<[u8; LENGTH], String> {
    let head = head(date, 1);
    let mut lists = Lists::unopened(SLOTS, 1);
    let opened = (side.open)(head, &mut lists);
    if opened != Answer::Done || lists != Lists::zeroed(SLOTS, 1) {
        return Err(format!("{date:?} opened: {opened:?}"));
    }
    let mut out = [0xA5; LENGTH];
    let answer = (side.publish)(head, &lists, &mut out);
    if answer != Answer::Length(LENGTH as u64) {
        return Err(format!("{date:?} published: {answer:?}"));
    }
    Ok(out)
}

#[cfg(test)]
mod tests {
    use super::*;

    fn run(other: Books) -> Result<Tally, String> {
        let mut tally = Tally::new(CLASSES);
        let tried = |year: u32| [2000, 2001, 2024, 2096, 2099].contains(&year);
        in_years(tried, Some(other), &mut tally)?;
        Ok(tally)
    }

    #[test]
    fn every_class_occurs() {
        let tally = run(SECOND).expect("no difference");
        assert_eq!(tally.missing(), Vec::<&str>::new());
    }

    /// The second build with another head in an opening's and a publishing's stead.
    macro_rules! meddled {
        ($change:expr) => {
            Books {
                open: |head, lists| Second.open($change(head), lists),
                publish: |head, lists, out| Second.publish($change(head), lists, out),
            }
        };
    }

    const MEDDLED: [Books; 8] = [
        // Every year has a 29 February.
        meddled!(|head: Head| match (head.month, head.day) {
            (2, 29) => Head { day: 28, ..head },
            _ => head,
        }),
        // 2096 has none.
        meddled!(|head: Head| match (head.year, head.month, head.day) {
            (2096, 2, 29) => Head { day: 30, ..head },
            _ => head,
        }),
        // An entry of the table is one too few in leap years.
        meddled!(|head: Head| match (head.year % 4, head.month, head.day) {
            (0, 10, 1) => Head {
                month: 9,
                day: 30,
                ..head
            },
            (0, 10, day @ 2..) => Head {
                day: day - 1,
                ..head
            },
            _ => head,
        }),
        // Month 13 is the last.
        meddled!(|head: Head| Head {
            month: if head.month == 13 { 12 } else { head.month },
            ..head
        }),
        // Day 0 is the first.
        meddled!(|head: Head| Head {
            day: head.day.max(1),
            ..head
        }),
        // A day's number in a byte.
        meddled!(|head: Head| Head {
            day: head.day % 256,
            ..head
        }),
        // The year 2100 is like 2096.
        meddled!(|head: Head| Head {
            year: if head.year == 2100 { 2096 } else { head.year },
            ..head
        }),
        // The last day's book may have two days.
        meddled!(|head: Head| Head {
            days: if head.year == 2099 && head.month == 12 {
                1
            } else {
                head.days
            },
            ..head
        }),
    ];

    #[test]
    fn meddled_builds_are_found() {
        for (slip, other) in MEDDLED.into_iter().enumerate() {
            assert!(run(other).is_err(), "{slip}");
        }
    }
}
