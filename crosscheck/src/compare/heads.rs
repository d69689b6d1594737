//! Random heads, in bounds and out of them.

use crate::compare::rng::Rng;
use crate::second::head::{Head, LAST_DAY, MOST_LIMIT, date};

/// D and L of the large books that every seed has, one in a hundred.
const LARGE: [(u32, u32); 10] = [
    (400, 5),
    (365, 30),
    (400, 30),
    (366, 15),
    (400, 15),
    (366, 30),
    (400, 30),
    (365, 5),
    (400, 30),
    (366, 5),
];

/// D and L of the `index`th book.
pub fn size(rng: &mut Rng, index: u64) -> (u32, u32) {
    if index % 100 == 7 {
        return LARGE[(index / 100) as usize % LARGE.len()];
    }
    let days = random_days(rng);
    (days, random_interval(rng, days))
}

fn random_days(rng: &mut Rng) -> u32 {
    match rng.below(1000) {
        0..250 => 1,
        250..370 => 2,
        370..450 => 7,
        450..580 => 8,
        580..700 => 29,
        700..750 => 31,
        750..780 => 64,
        780..784 => 365,
        784..788 => 366,
        788..804 => 400,
        // Four weeks before some days.
        804..900 => rng.between(30, 60),
        _ => rng.between(1, 60),
    }
}

fn random_interval(rng: &mut Rng, days: u32) -> u32 {
    match days {
        0..20 => rng.pick(&[5, 15, 30]),
        20..365 => rng.pick(&[30, 30, 30, 30, 30, 30, 30, 15, 15, 5]),
        _ => rng.pick(&[30, 30, 30, 15, 5]),
    }
}

/// A head in bounds.
pub fn random(rng: &mut Rng, days: u32, interval: u32) -> Head {
    // The last first day for which the book still ends by 2099-12-31.
    let latest = LAST_DAY + 1 - days;
    let (year, month, day) = match rng.below(8) {
        0 => (2000, 1, 1),
        1 => rng.pick(&[(2000, 2, 29), (2024, 2, 29), (2096, 2, 29)]),
        2 => rng.pick(&[(2001, 2, 28), (2023, 12, 31), (2024, 4, 30), (2000, 1, 31)]),
        3 => date(latest),
        4 => date(latest.saturating_sub(rng.between(0, 3))),
        _ => date(rng.between(0, latest)),
    };
    let small = rng.between(1, 100);
    let any = rng.between(0, 1_000_000);
    Head {
        year,
        month,
        day,
        days,
        interval,
        limit: random_limit(rng),
        tolerance: rng.pick(&[0, 0, small, small, small, 1_000_000, any]),
    }
}

/// A demand limit in bounds; the two that were built in most often.
fn random_limit(rng: &mut Rng) -> u32 {
    let small = rng.between(2, 1000);
    let any = rng.between(1, MOST_LIMIT);
    rng.pick(&[
        40_000, 40_000, 40_000, 70_000, 70_000, 1, MOST_LIMIT, small, any, any,
    ])
}

fn broken_limit(rng: &mut Rng) -> u32 {
    let any = rng.between(MOST_LIMIT + 1, u32::MAX);
    rng.pick(&[0, MOST_LIMIT + 1, u32::MAX, any])
}

/// Breaks one of the head's bounds.
pub fn broken(rng: &mut Rng, head: Head) -> Head {
    let mut bad = head;
    match rng.below(11) {
        0 => bad.year = rng.pick(&[0, 1999, 2100, u32::MAX]),
        1 => bad.month = rng.pick(&[0, 13, u32::MAX]),
        2 => bad.day = rng.pick(&[0, 32, u32::MAX]),
        3 => (bad.year, bad.month, bad.day) = rng.pick(&[(2001, 2, 29), (2024, 2, 30)]),
        4 => (bad.month, bad.day) = rng.pick(&[(4, 31), (6, 31), (9, 31), (11, 31)]),
        5 => bad.days = rng.pick(&[0, 401, 402, u32::MAX]),
        6 => bad.interval = rng.pick(&[0, 1, 4, 6, 10, 20, 60, 1440, u32::MAX]),
        7 => bad.limit = broken_limit(rng),
        8 => bad.tolerance = rng.pick(&[1_000_001, u32::MAX]),
        9 => {
            // One day too far.
            bad.days = bad.days.max(2);
            (bad.year, bad.month, bad.day) = date(LAST_DAY + 2 - bad.days);
        }
        _ => {
            bad.days = rng.word();
            bad.interval = rng.word();
            bad.year = rng.word();
        }
    }
    bad
}

/// A head in bounds, or nearly, that isn't the book's; often of another size.
pub fn other(rng: &mut Rng, head: Head) -> Head {
    let mut other = head;
    match rng.below(4) {
        0 => other.interval = rng.pick(&[5, 15, 30]),
        1 => other.days = rng.pick(&[head.days + 1, head.days - 1, 1, 400]),
        2 => other.limit = random_limit(rng),
        _ => other.tolerance = rng.between(0, 1_000_000),
    }
    other
}

#[cfg(test)]
mod tests {
    use super::*;

    #[test]
    fn broken_heads_are_refused() {
        let mut rng = Rng::new(1, 1);
        for _ in 0..2000 {
            let days = random_days(&mut rng);
            let interval = random_interval(&mut rng, days);
            let head = random(&mut rng, days, interval);
            assert!(head.shape().is_ok(), "{head:?}");
            let bad = broken(&mut rng, head);
            assert_eq!(bad.shape(), Err(1), "{bad:?}");
        }
    }
}
