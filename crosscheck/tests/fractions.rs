//! 02, W7: the dropped fraction.

use crosscheck::number::narrowed;
use crosscheck::second::head::Head;
use crosscheck::second::reader;
use crosscheck::second::rules::{Mean, mean};

mod common;
use common::*;

/// The last day of a book of whole weeks and a day, all of it delivered as 0 but five
/// slots from position 10; their references are given for each position, one a week.
fn five_lost(references: [&[u32]; 5], advance: u32) -> Test {
    let weeks = references[0].len();
    let last = 7 * weeks;
    let mut test = Test::new(Head {
        days: narrowed::<u32>(last) + 1,
        ..HEAD
    });
    for (position, values) in (10..15).zip(references) {
        for (week, &value) in values.iter().enumerate() {
            test.deliver(7 * week * 48 + position, value, 0);
        }
    }
    for position in (0..48).filter(|position| !(10..15).contains(position)) {
        test.deliver(last * 48 + position, 0, 0);
    }
    test.register(narrowed(last), 50);
    test.register(narrowed::<u32>(last) + 1, 50 + advance);
    test
}

/// The five slots' values, all by references.
fn values(test: &Test, method: u8) -> Vec<u32> {
    let last = 48 * (test.head.days as usize - 1);
    let slots = (10..15).map(|position| test.slot(last + position));
    slots
        .map(|(value, letter, number)| {
            assert_eq!((letter, number), ('S', method));
            value
        })
        .collect()
}

fn fitted(references: [&[u32]; 5], advance: u32) -> Vec<u32> {
    let test = five_lost(references, advance);
    assert_eq!(test.spans()[0].3, 1);
    assert!(reader::read(&test.file()).is_ok());
    let values = values(&test, 19);
    assert_eq!(values.iter().sum::<u32>(), advance);
    values
}

#[test]
fn a_mean_comes_with_its_remainder_and_number() {
    let of = |mean, remainder, number| {
        Some(Mean {
            mean,
            remainder,
            number,
        })
    };
    assert_eq!(mean(&[]), None);
    assert_eq!(mean(&[7]), of(7, 0, 1));
    assert_eq!(mean(&[1045, 1089]), of(1067, 0, 2));
    assert_eq!(mean(&[2, 3]), of(2, 1, 2));
    assert_eq!(mean(&[2310, 1995, 2079]), of(2128, 0, 3));
    assert_eq!(mean(&[0, 0, 2]), of(0, 2, 3));
    assert_eq!(mean(&[5, 5, 5, 4]), of(4, 3, 4));
    assert_eq!(mean(&[u32::MAX; 4]), of(u32::MAX, 0, 4));
}

#[test]
fn a_shape_is_twelve_times_the_exact_mean() {
    for (values, shape) in [
        (&[7][..], 84),
        (&[2, 3], 30),
        (&[0, 1], 6),
        (&[0, 0, 1], 4),
        (&[0, 0, 2], 8),
        (&[10, 10, 11], 124),
        (&[0, 0, 0, 1], 3),
        (&[5, 5, 5, 4], 57),
        (&[0; 4], 0),
        (&[u32::MAX; 4], 12 * 4_294_967_295),
    ] {
        assert_eq!(mean(values).unwrap().shape(), shape, "{values:?}");
    }
}

#[test]
fn halves_thirds_and_quarters_are_fitted() {
    // 1.5 and four times 1: e 18, 12, 12, 12, 12. By rounded means: 2, 2, 3, 2, 3.
    let halves = [&[1, 2][..], &[1, 1], &[1, 1], &[1, 1], &[1, 1]];
    // C 18, 30, 42, 54, 66 of 66: 3.27, 5.45, 7.64, 9.82 and 12.
    assert_eq!(fitted(halves, 12), [3, 2, 2, 2, 3]);
    // 2/3, 1/3, 0, 1, 1: e 8, 4, 0, 12, 12 of 36.
    let thirds = [
        &[0, 1, 1][..],
        &[1, 0, 0],
        &[0, 0, 0],
        &[3, 0, 0],
        &[1, 1, 1],
    ];
    assert_eq!(fitted(thirds, 36), [8, 4, 0, 12, 12]);
    assert_eq!(fitted(thirds, 9), [2, 1, 0, 3, 3]);
    // 1/4, 2/4, 3/4, 1, 5/4: e 3, 6, 9, 12, 15 of 45.
    let quarters = [
        &[0, 0, 0, 1][..],
        &[1, 0, 0, 1],
        &[3, 0, 0, 0],
        &[1, 1, 1, 1],
        &[0, 5, 0, 0],
    ];
    assert_eq!(fitted(quarters, 15), [1, 2, 3, 4, 5]);
    assert_eq!(fitted(quarters, 0), [0; 5]);
}

#[test]
fn means_that_only_round_to_zero_have_shapes() {
    let references = [&[0, 1][..], &[0, 0], &[0, 0], &[0, 0], &[1, 0]];
    assert_eq!(fitted(references, 10), [5, 0, 0, 0, 5]);
    assert_eq!(fitted(references, 11), [5, 0, 0, 0, 6]);
}

#[test]
fn zero_references_count_as_one_each() {
    for weeks in 1..=4 {
        let zeros = vec![0; weeks];
        let references = [&zeros[..]; 5];
        assert_eq!(fitted(references, 10), [2; 5]);
        // 1.6, 3.2, 4.8, 6.4 and 8 so far.
        assert_eq!(fitted(references, 8), [1, 2, 1, 2, 2]);
        assert_eq!(fitted(references, 0), [0; 5]);
    }
}

#[test]
fn unscaled_values_keep_the_rounded_mean() {
    let references = [&[1, 2][..], &[0, 1], &[9, 8], &[0, 0], &[20_000, 19_999]];
    let mut test = five_lost(references, 5);
    let rounded = [1, 0, 8, 0, 19_999];
    // A slot of 6 makes V larger than R: the span disagrees.
    test.redeliver(14 * 48, 6, 0);
    assert_eq!(test.spans(), [(14, 15, 5, 3)]);
    assert_eq!(values(&test, 3), rounded);
    // And a slot of none, the last of the book, opens it.
    test.redeliver(15 * 48 - 1, 0, 1);
    assert_eq!(test.spans(), [(14, 15, 5, 2)]);
    assert_eq!(values(&test, 3), rounded);
    // Outside spans: no second read.
    let mut test = five_lost(references, 5);
    test.lists.read_versions[15] = 0;
    test.lists.readings[15] = 0;
    assert!(test.spans().is_empty());
    assert_eq!(values(&test, 3), rounded);
}

#[test]
fn a_line_weighs_twelve_times_its_value() {
    // 1.5 by references, and a line of 3 between 3 and 3: e 18, 12, 12, 12, 12 and 36.
    let halves = [&[1, 2][..], &[1, 1], &[1, 1], &[1, 1], &[1, 1]];
    let mut test = five_lost(halves, 6 + 17);
    let day = 14 * 48;
    test.redeliver(day + 20, 3, 0);
    test.redeliver(day + 21, 0, 1);
    test.redeliver(day + 22, 3, 0);
    assert_eq!(test.spans(), [(14, 15, 23, 1)]);
    // T is 17 and E 102, so six e are one Wh.
    assert_eq!(values(&test, 19), [3, 2, 2, 2, 2]);
    assert_eq!(test.slot(day + 21), (6, 'S', 18));
    // A line rounded down, from 3 to 4, weighs no more.
    test.redeliver(day + 23, 0, 0);
    test.lists.values[day + 22] = 4;
    test.lists.readings[15] += 1;
    assert_eq!(test.slot(day + 21), (6, 'S', 18));
    assert_eq!(values(&test, 19), [3, 2, 2, 2, 2]);
}

#[test]
fn a_span_of_lines_alone_is_fitted_as_before() {
    let mut test = Test::new(HEAD);
    // Lines of 1 and 3: e 12 and 36, so T = 10 is shared 2 and 8.
    for slot in (0..48).filter(|slot| ![1, 3].contains(slot)) {
        let value = match slot {
            0 | 2 => 1,
            4 => 5,
            _ => 0,
        };
        test.deliver(slot, value, 0);
    }
    test.register(0, 0);
    test.register(1, 17);
    assert_eq!(test.slot(1), (2, 'S', 18));
    assert_eq!(test.slot(3), (8, 'S', 18));
}

#[test]
fn the_largest_products_fit() {
    let mut test = Test::new(Head {
        days: 400,
        limit: 1_000_000,
        ..HEAD
    });
    for slot in 0..36 * 48 {
        test.deliver(slot, 500_000, 0);
    }
    test.register(36, 1);
    test.register(400, 0);
    let t = 99_999_999_u64;
    assert_eq!(test.spans(), [(36, 400, narrowed(t), 1)]);
    // All shapes alike, 6,000,000: E is 364 × 48 of them and T × E over 63 bits.
    let many = 364 * 48;
    assert!(u128::from(t) * 6_000_000 * u128::from(many) > i64::MAX as u128);
    let file = test.file();
    let records = file[6 * 36 * 48..].chunks(6).take(narrowed(many));
    for (at, record) in (0_u64..).zip(records) {
        let value = u32::from_le_bytes(record[..4].try_into().unwrap());
        let expected = t * (at + 1) / many - t * at / many;
        assert_eq!(u64::from(value), expected, "{at}");
        assert_eq!(record[4..], [b'S', 19]);
    }
}
