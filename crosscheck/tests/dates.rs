//! 02, W4: month starts from a table; no date answer changes.

use crosscheck::second::head::{DAYS_BEFORE, Head, LAST_DAY, date, day_number};

mod common;
use common::*;

const MONTHS: [[u32; 12]; 2] = [
    [31, 28, 31, 30, 31, 30, 31, 31, 30, 31, 30, 31],
    [31, 29, 31, 30, 31, 30, 31, 31, 30, 31, 30, 31],
];

/// From 2000 to 2099 every fourth year.
fn months(year: u32) -> &'static [u32; 12] {
    &MONTHS[usize::from(year.is_multiple_of(4))]
}

#[test]
fn each_entry_is_the_sum_of_the_months_before() {
    for (before, months) in DAYS_BEFORE.iter().zip(MONTHS) {
        for month in 0..12 {
            assert_eq!(before[month], months[..month].iter().sum::<u32>());
        }
    }
}

#[test]
fn every_date_goes_there_and_back() {
    let mut number = 0;
    for year in 2000..=2099 {
        for (month, &length) in (1..).zip(months(year)) {
            for day in 1..=length {
                assert_eq!(day_number(year, month, day), Some(number));
                assert_eq!(date(number), (year, month, day));
                number += 1;
            }
        }
    }
    assert_eq!(number, LAST_DAY + 1);
    assert_eq!(number, 75 * 365 + 25 * 366);
}

#[test]
fn dates_worked_out_by_hand() {
    for (year, month, day, number) in [
        (2000, 1, 1, 0),
        (2000, 1, 31, 30),
        (2000, 2, 1, 31),
        (2000, 2, 29, 59),
        (2000, 3, 1, 60),
        (2000, 12, 31, 365),
        (2001, 1, 1, 366),
        (2001, 2, 28, 366 + 58),
        (2001, 3, 1, 366 + 59),
        (2004, 2, 29, 366 + 3 * 365 + 59),
        (2099, 12, 31, 36_524),
    ] {
        assert_eq!(day_number(year, month, day), Some(number));
        assert_eq!(date(number), (year, month, day));
    }
}

#[test]
fn impossible_dates_are_refused() {
    let refused = |year, month, day| {
        let head = Head {
            year,
            month,
            day,
            ..HEAD
        };
        assert_eq!(day_number(year, month, day), None);
        assert_eq!(head.shape(), Err(1), "{year}-{month}-{day}");
    };
    for year in [2000, 2001, 2023, 2024, 2096, 2099] {
        for (month, &length) in (1..).zip(months(year)) {
            for day in [0, length + 1, length + 2, 32, u32::MAX] {
                refused(year, month, day);
            }
        }
        for month in [0, 13, 14, u32::MAX] {
            for day in 0..=32 {
                refused(year, month, day);
            }
        }
    }
    for (year, month, day) in [
        (1999, 12, 31),
        (2100, 1, 1),
        (2100, 2, 29),
        (1996, 2, 29),
        (0, 1, 1),
        (u32::MAX, 1, 1),
    ] {
        refused(year, month, day);
    }
}
