//! 02, W11: a season of stays.

use crosscheck::compare::damage::{Edit, edited};
use crosscheck::number::narrowed;
use crosscheck::second::head::Head;
use crosscheck::second::stays::{stays, stays_code};

mod common;
use common::*;

const UNWRITTEN: u64 = 0xA5A5;

/// Five days of 48 slots: each slot of day d is 10^d, but the last of day 4 is agreed.
fn five_days() -> Vec<u8> {
    let mut test = Test::new(Head { days: 5, ..HEAD });
    for slot in 0..5 * 48 - 1 {
        test.deliver(slot, 10_u32.pow(narrowed::<u32>(slot) / 48), 0);
    }
    test.agree(5 * 48 - 1, 99_999_999);
    test.file()
}

/// Days 0 to 4 by hand: 48, 480, 4,800, 48,000 and 47 × 10,000 + 99,999,999.
const DAYS: [u64; 5] = [48, 480, 4800, 48_000, 100_469_999];

fn totals(pairs: &[u32]) -> Result<Vec<u64>, u8> {
    let mut totals = vec![UNWRITTEN; pairs.len() / 2];
    let answer = stays(&five_days(), pairs, &mut totals);
    if answer.is_err() {
        assert!(
            totals.iter().all(|&total| total == UNWRITTEN),
            "no total changes"
        );
    }
    answer.map(|()| totals)
}

#[test]
fn days_and_runs_of_days() {
    for (day, total) in DAYS.into_iter().enumerate() {
        let day = narrowed(day);
        assert_eq!(totals(&[day, day + 1]), Ok(vec![total]));
    }
    assert_eq!(totals(&[0, 5]), Ok(vec![DAYS.iter().sum()]));
    assert_eq!(totals(&[1, 4]), Ok(vec![480 + 4800 + 48_000]));
}

#[test]
fn each_as_if_it_were_the_only_question() {
    // Overlapping, nested, equal and touching, in any order.
    let pairs = [1, 3, 2, 4, 0, 5, 1, 3, 3, 4, 0, 1];
    let expected = vec![5280, 52_800, 100_523_327, 5280, 48_000, 48];
    assert_eq!(totals(&pairs), Ok(expected));
}

#[test]
fn a_list_of_no_pairs_is_fine() {
    assert_eq!(totals(&[]), Ok(Vec::new()));
    assert_eq!(stays(&five_days(), &[], &mut [UNWRITTEN]), Err(18));
}

#[test]
fn sixty_four_pairs_and_no_more() {
    let pairs = |many: usize| [2, 3].repeat(many);
    assert_eq!(totals(&pairs(64)), Ok(vec![4800; 64]));
    assert_eq!(totals(&pairs(65)), Err(18));
    assert_eq!(totals(&pairs(4000)), Err(18));
}

#[test]
fn eighteen_is_the_lists() {
    let file = five_days();
    for (pairs, many) in [
        (&[0][..], 0),
        (&[0], 1),
        (&[0, 1, 2], 1),
        (&[0, 1, 2], 2),
        (&[0, 1], 0),
        (&[0, 1], 2),
        (&[0, 1, 1, 2], 1),
        // Before 19.
        (&[9, 1], 0),
    ] {
        let mut totals = vec![UNWRITTEN; many];
        assert_eq!(
            stays(&file, pairs, &mut totals),
            Err(18),
            "{pairs:?} {many}"
        );
        assert_eq!(totals, vec![UNWRITTEN; many]);
    }
    let mut totals = [UNWRITTEN; 64];
    assert_eq!(
        stays(&file, &[1; 129], &mut totals),
        Err(18),
        "odd, 64 pairs and one"
    );
}

#[test]
fn nineteen_is_a_pair() {
    for pair in [
        [0, 0],
        [5, 5],
        [1, 0],
        [3, 2],
        [0, 6],
        [5, 6],
        [6, 7],
        [0, u32::MAX],
    ] {
        assert_eq!(totals(&pair), Err(19), "{pair:?}");
        // Anywhere in the list.
        let list = [&[0, 1], &pair[..], &[1, 2]].concat();
        assert_eq!(totals(&list), Err(19));
        assert_eq!(totals(&[&list[..], &[0, 5]].concat()), Err(19));
    }
    assert_eq!(totals(&[u32::MAX, u32::MAX]), Err(19));
}

#[test]
fn eight_and_nine_go_first() {
    let file = five_days();
    let wrong = edited(&file, &[Edit::Byte { at: 4, value: b'X' }]);
    for (file, number) in [(&file[1..], 8), (&[][..], 8), (&wrong[..], 9)] {
        for (pairs, many) in [(&[0, 1][..], 1), (&[0], 0), (&[1, 0], 1), (&[], 0)] {
            let mut totals = vec![UNWRITTEN; many];
            assert_eq!(stays(file, pairs, &mut totals), Err(number));
            assert_eq!(stays_code(file, pairs, &mut totals), u32::from(number));
            assert_eq!(totals, vec![UNWRITTEN; many]);
        }
    }
    let mut totals = [0];
    assert_eq!(stays_code(&file, &[0, 1], &mut totals), 0);
    assert_eq!(stays_code(&file, &[1, 0], &mut totals), 19);
    assert_eq!(totals, [48]);
}

#[test]
fn substituted_and_scaled_slots_count() {
    let mut test = Test::new(HEAD);
    for slot in (0..48).filter(|&slot| slot != 20) {
        test.deliver(slot, 10, 0);
    }
    let mut totals = [0];
    assert_eq!(stays(&test.file(), &[0, 1], &mut totals), Ok(()));
    assert_eq!(totals, [480]);
    test.register(0, 0);
    test.register(1, 1000);
    assert_eq!(stays(&test.file(), &[0, 1], &mut totals), Ok(()));
    assert_eq!(totals, [1000], "a scaled span sums to R");
}

#[test]
fn totals_over_32_bits() {
    let mut test = Test::new(Head { days: 2, ..HEAD });
    for slot in 0..96 {
        test.agree(slot, 99_999_999);
    }
    let mut totals = [0; 2];
    assert_eq!(stays(&test.file(), &[0, 2, 1, 2], &mut totals), Ok(()));
    assert_eq!(totals, [96 * 99_999_999, 48 * 99_999_999]);
}
