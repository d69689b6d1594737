//! Compares the loading of a table of limits, W5, with a restatement and another build.

use crate::compare::rng::Rng;
use crate::number::narrowed;
use crate::second::head::MOST_LIMIT;
use crate::second::limits::{self, MOST_PLACES};
use crate::tries::Tally;

/// The loading call of one build: table and kind; the limit, or 100,000,000 plus the refusal.
pub type Limit = fn(&[u32], u32) -> u32;

pub const SECOND: Limit = limits::limit_code;

pub const CLASSES: &[&str] = &[
    "table of 0",
    "table of 1",
    "table of 24",
    "table of 25",
    "table of 2 to 23",
    "table of 26 or more",
    "first limit 1",
    "last limit 1,000,000",
    "table 40,000, 70,000",
    "kind 0, refused 1",
    "kind 1",
    "last kind",
    "kind between",
    "one past the last, refused 1",
    "kind of a longer table, refused 1",
    "kind 4,294,967,295, refused 1",
    "kind 1 or the last in its low byte, refused 1",
    "13 for a table of 0",
    "13 for 25 alone",
    "13 for 26 or more alone",
    "13 for equal neighbours alone",
    "13 for falling neighbours alone",
    "13 for a first limit 0 alone",
    "13 for a limit over 1,000,000 alone",
    "13 for a limit of 1,000,001 alone",
    "13 for the first two",
    "13 for the last two of 24",
    "13 though the kind's limit is good",
    "13 before 1, kind 0",
    "13 before 1, kind past the last",
    "13 for more than one reason",
];

/// One try: a table, and several kinds of it.
pub fn one(
    rng: &mut Rng,
    index: u64,
    other: Option<Limit>,
    tally: &mut Tally,
) -> Result<(), String> {
    let mut table = good_table(rng);
    for _ in 0..rng.pick(&[0, 0, 0, 1, 1, 2]) {
        spoil(rng, &mut table);
    }
    if index % 16 == 3 {
        table = vec![40_000, 70_000];
    }
    for kind in kinds(rng, narrowed(table.len())) {
        answered(&table, kind, other)?;
        count(&table, kind, tally);
    }
    Ok(())
}

// Tables and kinds

/// Rising limits, 1 to 24 of them.
fn good_table(rng: &mut Rng) -> Vec<u32> {
    let any = rng.below(MOST_PLACES) + 1;
    let places = rng.pick(&[1, 2, 23, 24, 24, any, any, any]);
    let mut table = Vec::new();
    while table.len() < places {
        // Close together, far apart, or at the ends.
        let near = rng.between(1, 30);
        let far = rng.between(1, MOST_LIMIT);
        let high = MOST_LIMIT - rng.between(0, 30);
        let limit = rng.pick(&[near, near, far, far, high, 1, MOST_LIMIT]);
        if !table.contains(&limit) {
            table.push(limit);
        }
    }
    table.sort();
    table
}

/// Breaks one of the table's bounds.
fn spoil(rng: &mut Rng, table: &mut Vec<u32>) {
    // The first of two neighbours: often the first two or the last two.
    let pairs = table.len().saturating_sub(1);
    let any = rng.below(pairs);
    let at = rng.pick(&[0, pairs.saturating_sub(1), any]);
    match rng.below(8) {
        0 => table.clear(),
        1 => {
            // One or more too many, rising still where there is room.
            let places = rng.pick(&[25, 25, 26, 48, 256 + 3]);
            let first = table.first().copied().unwrap_or(1).min(900_000);
            *table = (first..).take(places).collect();
        }
        2 | 3 if table.len() > 1 => table[at + 1] = table[at],
        4 if table.len() > 1 => table.swap(at, at + 1),
        5 if !table.is_empty() => table[0] = 0,
        6 => {
            if let Some(last) = table.last_mut() {
                let any = rng.between(MOST_LIMIT + 1, u32::MAX);
                *last = rng.pick(&[MOST_LIMIT + 1, MOST_LIMIT + 1, u32::MAX, any]);
            }
        }
        // Some of them equal, the first perhaps 0, or good still.
        _ => table.iter_mut().for_each(|limit| *limit /= 2),
    }
}

/// Places of a table of this length, and numbers that are none.
fn kinds(rng: &mut Rng, places: u32) -> Vec<u32> {
    let any = rng.between(0, 30);
    let word = rng.word();
    vec![
        0,
        1,
        places,
        places + 1,
        places / 2 + 1,
        256 + places,
        65_536 + 1,
        u32::MAX,
        any,
        word,
    ]
}

// Answers

fn answered(table: &[u32], kind: u32, other: Option<Limit>) -> Result<(), String> {
    let code = SECOND(table, kind);
    let other = other.map(|other| ("other", other));
    for (name, side) in [("restated", restated as Limit)].into_iter().chain(other) {
        let others_code = side(table, kind);
        if code != others_code {
            return Err(format!(
                "limit at {kind} of {table:?}: {code}, {name} {others_code}"
            ));
        }
    }
    Ok(())
}

/// W5's sentences again, limit by limit.
fn restated(table: &[u32], kind: u32) -> u32 {
    let mut least = 1;
    let mut answer = 100_000_001;
    for (place, &limit) in (1..).zip(table) {
        if place > 24 || limit < least || limit > 1_000_000 {
            return 100_000_013;
        }
        if place == kind {
            answer = limit;
        }
        least = limit + 1;
    }
    if table.is_empty() {
        100_000_013
    } else {
        answer
    }
}

// Classes

/// What is wrong with a table, each fault for itself.
fn faults(table: &[u32]) -> Vec<&'static str> {
    let equal = table.windows(2).any(|two| two[0] == two[1]);
    let falling = table.windows(2).any(|two| two[0] > two[1]);
    [
        (table.is_empty(), "13 for a table of 0"),
        (table.len() == 25, "13 for 25 alone"),
        (table.len() > 25, "13 for 26 or more alone"),
        (equal, "13 for equal neighbours alone"),
        (falling, "13 for falling neighbours alone"),
        (table.first() == Some(&0), "13 for a first limit 0 alone"),
        (
            table.iter().any(|&limit| limit > MOST_LIMIT),
            "13 for a limit over 1,000,000 alone",
        ),
    ]
    .into_iter()
    .filter_map(|(found, name)| found.then_some(name))
    .collect()
}

fn count(table: &[u32], kind: u32, tally: &mut Tally) {
    let places = narrowed(table.len());
    tally.add(match places {
        0 => "table of 0",
        1 => "table of 1",
        2..24 => "table of 2 to 23",
        24 => "table of 24",
        25 => "table of 25",
        _ => "table of 26 or more",
    });
    let faults = faults(table);
    if faults.is_empty() {
        count_good(table, kind, tally);
        return;
    }
    match faults[..] {
        [one] => tally.add(one),
        _ => tally.add("13 for more than one reason"),
    }
    let alone = faults.len() == 1;
    let last = table.last();
    let over = last == Some(&(MOST_LIMIT + 1));
    tally.add_if(alone && over, "13 for a limit of 1,000,001 alone");
    let not_rising = |at: usize| table[at] >= table[at + 1];
    let broken: Vec<usize> = (1..table.len())
        .map(|after| after - 1)
        .filter(|&at| not_rising(at))
        .collect();
    tally.add_if(alone && broken == [0], "13 for the first two");
    let last_two = places == 24 && broken == [22];
    tally.add_if(alone && last_two, "13 for the last two of 24");
    let place = (1..=places).contains(&kind);
    let good = place && (1..=MOST_LIMIT).contains(&table[kind as usize - 1]);
    tally.add_if(good, "13 though the kind's limit is good");
    tally.add_if(kind == 0, "13 before 1, kind 0");
    tally.add_if(kind > places, "13 before 1, kind past the last");
}

fn count_good(table: &[u32], kind: u32, tally: &mut Tally) {
    let places = narrowed(table.len());
    tally.add_if(table[0] == 1, "first limit 1");
    tally.add_if(table[table.len() - 1] == MOST_LIMIT, "last limit 1,000,000");
    tally.add_if(table == [40_000, 70_000], "table 40,000, 70,000");
    tally.add_if(kind == 0, "kind 0, refused 1");
    tally.add_if(kind == 1, "kind 1");
    tally.add_if(kind == places, "last kind");
    tally.add_if(1 < kind && kind < places, "kind between");
    let past = kind == places + 1;
    tally.add_if(past, "one past the last, refused 1");
    let longer = kind > places && kind <= narrowed(MOST_PLACES);
    tally.add_if(longer, "kind of a longer table, refused 1");
    let most = kind == u32::MAX;
    tally.add_if(most, "kind 4,294,967,295, refused 1");
    let low = kind > 255 && (1..=places).contains(&(kind % 256));
    tally.add_if(low, "kind 1 or the last in its low byte, refused 1");
}

#[cfg(test)]
mod tests {
    use super::*;

    fn run(other: Limit) -> Result<Tally, String> {
        let mut tally = Tally::new(CLASSES);
        for index in 0..4000 {
            one(&mut Rng::new(1, index), index, Some(other), &mut tally)?;
        }
        Ok(tally)
    }

    #[test]
    fn every_class_occurs() {
        let tally = run(SECOND).expect("no difference");
        assert_eq!(tally.missing(), Vec::<&str>::new());
    }

    /// The second build's answer, but of this table where the kind is a place.
    fn taken(table: &[u32], kind: u32) -> u32 {
        let place = (kind as usize).wrapping_sub(1);
        table.get(place).copied().unwrap_or(100_000_001)
    }

    const MEDDLED: [Limit; 10] = [
        // The table isn't looked at.
        taken,
        |_, _| 40_000,
        // Places are counted from 0.
        |table, kind| SECOND(table, kind.wrapping_add(1)),
        // 25 places.
        |table, kind| match table.len() {
            25 if SECOND(&table[..24], 1) < 100_000_000 => taken(table, kind),
            _ => SECOND(table, kind),
        },
        // Equal neighbours.
        |table, kind| {
            let mut other = table.to_vec();
            other.dedup();
            match SECOND(&other, 1) < 100_000_000 && table.len() <= 24 {
                true => taken(table, kind),
                false => SECOND(table, kind),
            }
        },
        // The last limit isn't looked at.
        |table, kind| match table.split_last() {
            Some((_, rest)) if SECOND(rest, 1) < 100_000_000 && table.len() <= 24 => {
                taken(table, kind)
            }
            _ => SECOND(table, kind),
        },
        // A first limit of 0.
        |table, kind| match table.first() {
            Some(0) if SECOND(&table[1..], 1) < 100_000_000 => taken(table, kind),
            _ => SECOND(table, kind),
        },
        // 1 before 13.
        |table, kind| match (1..=table.len()).contains(&(kind as usize)) {
            true => SECOND(table, kind),
            false => 100_000_001,
        },
        // 2 for a table of none.
        |table, kind| match table.is_empty() {
            true => 100_000_002,
            false => SECOND(table, kind),
        },
        // The kind in a byte.
        |table, kind| SECOND(table, kind % 256),
    ];

    #[test]
    fn meddled_builds_are_found() {
        for (slip, other) in MEDDLED.into_iter().enumerate() {
            assert!(run(other).is_err(), "{slip}");
        }
    }
}
