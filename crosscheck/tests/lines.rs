//! 02, W2: two hours of straight line.

use crosscheck::number::narrowed;
use crosscheck::second::head::Head;
use crosscheck::second::rules::on_line;

mod common;
use common::*;

/// The slots after slot 9, of value l, up to the next good one, of value r.
fn run_of(interval: u32, l: u32, g: usize, r: u32) -> Vec<(u32, char, u8)> {
    let mut test = Test::new(Head { interval, ..HEAD });
    test.deliver(9, l, 0);
    test.deliver(10 + g, r, 0);
    (10..10 + g).map(|slot| test.slot(slot)).collect()
}

fn line(values: &[u32]) -> Vec<(u32, char, u8)> {
    values.iter().map(|&value| (value, 'S', 2)).collect()
}

fn nothing(g: usize) -> Vec<(u32, char, u8)> {
    vec![(0, 'N', 0); g]
}

#[test]
fn a_falling_line_is_as_good_as_a_rising_one() {
    assert_eq!(run_of(30, 10, 3, 4), line(&[8, 7, 5]));
    assert_eq!(run_of(30, 4, 3, 10), line(&[5, 7, 8]));
    // 1.8, 3.6, 5.4, 7.2 and the same from above.
    assert_eq!(run_of(30, 0, 4, 9), line(&[1, 3, 5, 7]));
    assert_eq!(run_of(30, 9, 4, 0), line(&[7, 5, 3, 1]));
    // Ninths of 4.
    assert_eq!(run_of(15, 0, 8, 4), line(&[0, 0, 1, 1, 2, 2, 3, 3]));
    assert_eq!(run_of(15, 4, 8, 0), line(&[3, 3, 2, 2, 1, 1, 0, 0]));
    assert_eq!(run_of(30, 7, 4, 7), line(&[7; 4]));
    assert_eq!(run_of(30, 0, 4, 0), line(&[0; 4]));
    // One Wh in many steps is lost on both ways.
    assert_eq!(run_of(5, 0, 24, 1), line(&[0; 24]));
    assert_eq!(run_of(5, 1, 24, 0), line(&[0; 24]));
    assert_eq!(
        run_of(30, 20_000, 4, 0),
        line(&[16_000, 12_000, 8_000, 4_000])
    );
}

#[test]
fn a_single_slot_fills_as_before() {
    for (l, r, half) in [(7, 10, 8), (10, 7, 8), (0, 1, 0), (1, 0, 0), (3, 3, 3)] {
        for interval in [5, 15, 30] {
            assert_eq!(run_of(interval, l, 1, r), line(&[half]));
        }
    }
}

#[test]
fn two_hours_and_no_more() {
    for (interval, longest) in [(5, 24), (15, 8), (30, 4)] {
        let step = 3;
        for g in 1..=longest {
            let rising: Vec<u32> = (1..=narrowed(g)).map(|j| 100 + step * j).collect();
            let falling: Vec<u32> = rising.iter().rev().copied().collect();
            let far = 100 + step * (narrowed::<u32>(g) + 1);
            assert_eq!(run_of(interval, 100, g, far), line(&rising));
            assert_eq!(run_of(interval, far, g, 100), line(&falling));
        }
        for g in [longest + 1, longest + 2, 2 * longest] {
            assert_eq!(run_of(interval, 100, g, 130), nothing(g));
        }
    }
}

#[test]
fn the_lines_floor_is_exact() {
    assert_eq!(on_line(10, 4, 1, 3), 8);
    assert_eq!(on_line(u32::MAX, 0, 1, 1), u32::MAX / 2);
    // 25 × 171,798,691 = 4,294,967,275, so 4,294,967,295 is 20 more: each step 171,798,691.8.
    assert_eq!(on_line(u32::MAX, 0, 24, 24), 171_798_691);
    assert_eq!(on_line(0, u32::MAX, 24, 24), u32::MAX - 171_798_692);
    assert_eq!(on_line(u32::MAX, u32::MAX, 7, 24), u32::MAX);
    assert_eq!(on_line(1, 0, 24, 24), 0);
}

#[test]
fn causes_may_be_mixed_in_a_run() {
    let mut test = Test::new(HEAD);
    test.deliver(9, 10, 0);
    test.deliver(11, 500, 1);
    test.deliver(12, 500, 4);
    test.deliver(13, 20_001, 0);
    test.deliver(14, 20, 0);
    // And 10 is a gap.
    for (slot, value) in [(10, 12), (11, 14), (12, 16), (13, 18)] {
        assert_eq!(test.slot(slot), (value, 'S', 2));
    }
}

#[test]
fn ends_with_the_outage_bit_are_good() {
    let mut test = Test::new(HEAD);
    test.deliver(9, 100, 2);
    test.deliver(10, 0, 1);
    test.deliver(11, 0, 4);
    test.deliver(12, 50, 2);
    // 83 1/3 and 66 2/3.
    assert_eq!(test.slot(10), (83, 'S', 2));
    assert_eq!(test.slot(11), (66, 'S', 2));
}

#[test]
fn an_agreed_slot_ends_a_run() {
    let mut test = Test::new(HEAD);
    test.deliver(9, 10, 0);
    test.deliver(13, 10, 0);
    for slot in [10, 11, 12] {
        assert_eq!(test.slot(slot), (10, 'S', 2));
    }
    test.agree(11, 10);
    assert_eq!(test.slot(10), (0, 'N', 0), "no r");
    assert_eq!(test.slot(11), (10, 'F', 5));
    assert_eq!(test.slot(12), (0, 'N', 0), "no l");
    // A good slot is an end with its delivered value, agreed or not.
    let mut test = Test::new(HEAD);
    test.deliver(9, 10, 0);
    test.deliver(12, 16, 0);
    test.agree(9, 5000);
    test.agree(12, 5000);
    assert_eq!(test.slot(10), (12, 'S', 2));
    assert_eq!(test.slot(11), (14, 'S', 2));
}

#[test]
fn a_zeroed_slot_ends_a_run() {
    // 10 and 11 are zeroed; 12 and 13 failed.
    let mut test = Test::new(HEAD);
    test.deliver(9, 10, 2);
    test.deliver(12, 10, 1);
    test.deliver(13, 10, 4);
    test.deliver(14, 10, 0);
    assert_eq!(test.slot(10), (0, 'A', 1));
    assert_eq!(test.slot(11), (0, 'A', 1));
    assert_eq!(test.slot(12), (0, 'N', 0));
    assert_eq!(test.slot(13), (0, 'N', 0));
    // 8 and 9 failed, 9 with the outage that zeroes 10 and 11.
    let mut test = Test::new(HEAD);
    test.deliver(7, 10, 0);
    test.deliver(8, 10, 1);
    test.deliver(9, 10, 3);
    test.deliver(12, 10, 0);
    assert_eq!(test.slot(8), (0, 'N', 0));
    assert_eq!(test.slot(9), (0, 'N', 0));
    assert_eq!(test.slot(10), (0, 'A', 1));
}

#[test]
fn a_run_at_either_end_of_the_book_has_no_line() {
    for g in 1..=4 {
        let mut test = Test::new(HEAD);
        test.deliver_all(10);
        for slot in (0..g).chain(48 - g..48) {
            test.redeliver(slot, 10, 1);
        }
        for slot in [0, g - 1, 48 - g, 47] {
            assert_eq!(test.slot(slot), (0, 'N', 0), "{g} {slot}");
        }
    }
}

/// Slots 46 to 49 are gaps between 0 and 9; every other slot is 0.
fn over_midnight() -> Test {
    let mut test = Test::new(Head { days: 2, ..HEAD });
    for slot in (0..96).filter(|slot| !(46..50).contains(slot)) {
        test.deliver(slot, if slot == 50 { 9 } else { 0 }, 0);
    }
    test
}

#[test]
fn a_line_goes_over_a_days_end() {
    let mut test = over_midnight();
    test.holiday(1);
    for (slot, value) in [(46, 1), (47, 3), (48, 5), (49, 7)] {
        assert_eq!(test.slot(slot), (value, 'S', 2));
    }
}

#[test]
fn a_line_goes_over_a_spans_end() {
    let mut test = over_midnight();
    test.register(0, 0);
    test.register(1, 8);
    test.register(2, 8 + 9 + 24);
    // T is 8 and 24; each span shares it out by its own part of the line.
    assert_eq!(test.spans(), [(0, 1, 8, 1), (1, 2, 33, 1)]);
    for (slot, value) in [(46, 2), (47, 6), (48, 10), (49, 14)] {
        assert_eq!(test.slot(slot), (value, 'S', 18));
    }
    // Only the first part is scaled.
    let mut test = over_midnight();
    test.register(0, 0);
    test.register(1, 8);
    test.register(2, 8 + 8);
    assert_eq!(test.spans(), [(0, 1, 8, 1), (1, 2, 8, 3)]);
    for (slot, value, method) in [(46, 2, 18), (47, 6, 18), (48, 5, 2), (49, 7, 2)] {
        assert_eq!(test.slot(slot), (value, 'S', method));
    }
}

#[test]
fn a_longer_run_goes_on_to_the_same_day_slot_by_slot() {
    let mut test = Test::new(Head { days: 8, ..HEAD });
    let at = |position: usize| 7 * 48 + position;
    test.deliver(10, 30, 0);
    test.deliver(12, 60, 0);
    test.deliver(at(9), 10, 0);
    test.deliver(at(15), 10, 0);
    let expected = [
        (30, 'S', 3),
        (0, 'N', 0),
        (60, 'S', 3),
        (0, 'N', 0),
        (0, 'N', 0),
    ];
    for (slot, outcome) in (10..15).zip(expected) {
        assert_eq!(test.slot(at(slot)), outcome, "{slot}");
    }
    // A slot fewer, and the line goes before the references.
    test.deliver(at(14), 10, 0);
    for slot in 10..14 {
        assert_eq!(test.slot(at(slot)), (10, 'S', 2), "{slot}");
    }
}

#[test]
fn a_run_without_a_line_may_have_references() {
    let mut test = Test::new(Head { days: 8, ..HEAD });
    let at = |position: usize| 7 * 48 + position;
    test.deliver(10, 30, 0);
    test.deliver(at(9), 10, 0);
    test.agree(at(11), 10);
    assert_eq!(test.slot(at(10)), (30, 'S', 3));
}
