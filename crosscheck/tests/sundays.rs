//! 02, W3: holidays look like Sundays.

use crosscheck::number::narrowed;
use crosscheck::second::head::{Head, day_number};
use crosscheck::second::rules::sunday_back;

mod common;
use common::*;

/// Slot 30 of a day, L 30.
fn at(day: usize) -> usize {
    day * 48 + 30
}

/// A book from a Sunday: 2024-05-05 (2024-05-01 was a Wednesday).
fn from_sunday(days: u32) -> Test {
    Test::new(Head {
        day: 5,
        days,
        ..HEAD
    })
}

fn back_from(year: u32, month: u32, day: u32) -> usize {
    sunday_back(day_number(year, month, day).unwrap() as usize)
}

#[test]
fn the_nearest_sunday_strictly_before() {
    // 2000-01-01 was a Saturday.
    for (day, back) in [
        (1, 6),
        (2, 7),
        (3, 1),
        (4, 2),
        (5, 3),
        (6, 4),
        (7, 5),
        (8, 6),
    ] {
        assert_eq!(back_from(2000, 1, day), back, "2000-01-{day:02}");
    }
    assert_eq!(back_from(2024, 5, 1), 3, "a Wednesday");
    assert_eq!(back_from(2024, 12, 25), 3, "a Wednesday");
    assert_eq!(back_from(2023, 1, 1), 7, "a Sunday");
    assert_eq!(back_from(2024, 2, 29), 4, "a Thursday");
    assert_eq!(back_from(2000, 2, 29), 2, "a Tuesday");
    assert_eq!(back_from(2099, 12, 31), 4, "a Thursday");
}

#[test]
fn a_holiday_on_each_weekday() {
    // Sundays are days 0, 7, 14, 21 and 28; each day gives its own number.
    for target in 29..=35 {
        let mut test = from_sunday(36);
        for day in 0..target {
            test.deliver(at(day), narrowed(day), 0);
        }
        let k = target - 28;
        let own: u32 = narrowed(4 * target - 7 - 14 - 21 - 28);
        assert_eq!(test.slot(at(target)), (own / 4, 'S', 3), "no holiday, {k}");
        test.holiday(narrowed(target));
        // 28, 21, 14 and 7, whatever the weekday: a mean of 17.5.
        assert_eq!(test.slot(at(target)), (17, 'S', 3), "{k} days back");
    }
    // The Sunday itself is no reference, delivered badly or not at all.
    let mut test = from_sunday(29);
    for day in [0, 7, 14, 21] {
        test.deliver(at(day), narrowed(day), 0);
    }
    test.deliver(at(28), 5000, 1);
    test.holiday(28);
    assert_eq!(test.slot(at(28)), (42 / 4, 'S', 3));
}

#[test]
fn its_own_weeks_are_no_references() {
    // Day 10 is a Wednesday, and so is day 3.
    let mut test = from_sunday(11);
    test.deliver(at(3), 50, 0);
    assert_eq!(test.slot(at(10)), (50, 'S', 3));
    test.holiday(10);
    assert_eq!(test.slot(at(10)), (0, 'N', 0));
    test.deliver(at(0), 70, 0);
    assert_eq!(test.slot(at(10)), (70, 'S', 3));
    test.deliver(at(7), 81, 0);
    assert_eq!(test.slot(at(10)), (75, 'S', 3));
}

#[test]
fn no_sunday_in_the_book() {
    // A book from Monday 2024-05-06: its days 0 to 5 have no Sunday before them.
    let mut test = Test::new(Head {
        day: 6,
        days: 14,
        ..HEAD
    });
    for day in 0..7 {
        test.holiday(day);
    }
    for day in 0..6 {
        assert_eq!(test.slot(at(day)), (0, 'N', 0));
    }
    test.deliver(at(7), 9, 0);
    assert_eq!(test.slot(at(6)), (0, 'N', 0), "nor has the Sunday itself");
    assert_eq!(test.slot(at(13)), (0, 'N', 0), "an ordinary Sunday");
}

#[test]
fn the_same_conditions() {
    // Tuesday, day 30; Sundays 28, 21, 14, 7, 0.
    let mut test = from_sunday(31);
    for (day, value) in [(28, 100), (21, 200), (14, 400), (7, 800), (0, 1600)] {
        test.deliver(at(day), value, 0);
    }
    test.holiday(30);
    let target = at(30);
    assert_eq!(test.slot(target), (375, 'S', 3), "four at most");
    test.holiday(28);
    assert_eq!(test.slot(target), (750, 'S', 3), "a Sunday and a holiday");
    test.redeliver(at(21), 200, 2);
    assert_eq!(test.slot(target), (2800 / 3, 'S', 3));
    test.redeliver(at(14), 400, 4);
    assert_eq!(test.slot(target), (1200, 'S', 3));
    test.redeliver(at(7), 20_001, 0);
    assert_eq!(test.slot(target), (1600, 'S', 3));
    test.redeliver(at(0), 1600, 1);
    assert_eq!(test.slot(target), (0, 'N', 0));
}

#[test]
fn only_the_targets_own_day_matters() {
    // Day 31 is a Wednesday; the holiday before it is passed over, no more.
    let mut test = from_sunday(32);
    for (day, value) in [(28, 5), (24, 10), (17, 20)] {
        test.deliver(at(day), value, 0);
    }
    test.holiday(24);
    test.holiday(30);
    assert_eq!(test.slot(at(31)), (20, 'S', 3));
    assert_eq!(test.slot(at(30)), (5, 'S', 3));
}

#[test]
fn a_line_goes_before_sundays() {
    let mut test = from_sunday(10);
    test.deliver(at(7), 500, 0);
    test.deliver(at(9) - 1, 10, 0);
    test.deliver(at(9) + 1, 20, 0);
    test.holiday(9);
    assert_eq!(test.slot(at(9)), (15, 'S', 2));
}

/// The only reference lies on day `first`, the target on holiday `last`.
fn alone(start: u32, first: usize, last: usize) -> (u32, char, u8) {
    let mut test = Test::new(Head {
        day: start,
        days: 400,
        ..HEAD
    });
    test.deliver(at(first), 77, 0);
    test.holiday(narrowed(last));
    test.slot(at(last))
}

#[test]
fn no_more_than_370_days_back() {
    // From Sunday 2024-05-05: the 53rd Sunday before Monday to Saturday of a year on.
    for back in 365..=370 {
        assert_eq!(alone(5, 0, back), (77, 'S', 3), "{back}");
    }
    assert_eq!(alone(5, 0, 364), (77, 'S', 3), "52 weeks, on a Sunday");
    assert_eq!(alone(5, 0, 371), (0, 'N', 0), "53 weeks, on a Sunday");
    assert_eq!(alone(5, 0, 372), (0, 'N', 0), "the 54th");
    assert_eq!(alone(5, 0, 377), (0, 'N', 0));
    // Day 7 is the next Sunday.
    assert_eq!(alone(5, 7, 372), (77, 'S', 3));
    assert_eq!(alone(5, 7, 377), (77, 'S', 3));
    assert_eq!(alone(5, 7, 378), (0, 'N', 0));
    // From a Saturday or a Monday, day 0 is no Sunday.
    for start in [4, 6] {
        for back in 364..=371 {
            assert_eq!(alone(start, 0, back), (0, 'N', 0), "{start} {back}");
        }
    }
}

#[test]
fn all_of_one_year() {
    // Saturday, day 370: of 53 Sundays the four farthest count when the others are holidays.
    let mut test = from_sunday(371);
    for day in 0..370 {
        test.deliver(
            at(day),
            if day % 7 == 0 { narrowed(day) } else { 20_000 },
            0,
        );
    }
    test.holiday(370);
    for day in (28..370).step_by(7) {
        test.holiday(day);
    }
    assert_eq!(test.slot(at(370)), (42 / 4, 'S', 3));
    test.holiday(21);
    assert_eq!(test.slot(at(370)), (21 / 3, 'S', 3));
}
