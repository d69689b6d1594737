//! 01, Tests of a slot and Filling.

use crosscheck::second::head::Head;

mod common;
use common::*;

/// Slot `position` of day `day`, L 30.
fn at(day: usize, position: usize) -> usize {
    day * 48 + position
}

fn days(days: u32) -> Head {
    Head { days, ..HEAD }
}

#[test]
fn a_good_slot_keeps_its_value() {
    let mut test = Test::new(HEAD);
    test.deliver(3, 250, 0);
    test.deliver(4, 251, 2);
    test.deliver(5, 20_000, 0);
    assert_eq!(test.slot(3), (250, 'A', 0));
    assert_eq!(
        test.slot(4),
        (251, 'A', 0),
        "an outage bit alone leaves it good"
    );
    assert_eq!(test.slot(5), (20_000, 'A', 0));
}

#[test]
fn each_cause_is_filled() {
    for (value, status) in [(9, 1), (9, 4), (9, 3), (9, 7), (20_001, 0), (u32::MAX, 0)] {
        let mut test = Test::new(HEAD);
        test.deliver(3, 100, 0);
        test.deliver(4, value, status);
        test.deliver(5, 101, 0);
        assert_eq!(test.slot(4), (100, 'S', 2), "{value} {status}");
    }
}

#[test]
fn linear_only_between_good_neighbours() {
    let mut test = Test::new(HEAD);
    test.deliver_all(10);
    // A run of five is longer than two hours.
    for slot in 20..25 {
        test.redeliver(slot, 10, if slot == 22 { 4 } else { 1 });
    }
    for slot in 20..25 {
        assert_eq!(
            test.slot(slot),
            (0, 'N', 0),
            "no fill from a failed neighbour"
        );
    }
    test.redeliver(0, 10, 1);
    test.redeliver(47, 10, 1);
    assert_eq!(test.slot(0), (0, 'N', 0), "no neighbour before the book");
    assert_eq!(test.slot(47), (0, 'N', 0), "no neighbour after the book");
    assert_eq!(test.slot(1), (10, 'A', 0));
}

#[test]
fn no_linear_from_a_filled_neighbour() {
    // 10 to 13 can be filled from references, 14 cannot lean on them.
    let mut test = Test::new(days(8));
    test.deliver_all(10);
    for position in 10..15 {
        test.redeliver(at(7, position), 0, 1);
        test.redeliver(at(0, position), 30, if position == 14 { 2 } else { 0 });
    }
    for position in 10..14 {
        assert_eq!(test.slot(at(7, position)), (30, 'S', 3));
    }
    assert_eq!(test.slot(at(7, 14)), (0, 'N', 0));
}

#[test]
fn linear_beside_an_outage_delivery() {
    let mut test = Test::new(HEAD);
    test.deliver(3, 100, 2);
    test.deliver(4, 7, 1);
    test.deliver(5, 50, 2);
    // Slot 4 is no gap, so it is no outage zero; its neighbours are good.
    assert_eq!(test.slot(4), (75, 'S', 2));
}

/// Slots 10, 11, 12 are gaps; slots 9 and 13 have these statuses.
fn run_between(before: u8, after: u8) -> [(u32, char, u8); 3] {
    let mut test = Test::new(HEAD);
    for slot in (0..48).filter(|slot| !(10..13).contains(slot)) {
        test.deliver(slot, 5, 0);
    }
    test.redeliver(9, 5, before);
    test.redeliver(13, 5, after);
    [test.slot(10), test.slot(11), test.slot(12)]
}

#[test]
fn outage_before_or_after_a_run() {
    assert_eq!(run_between(2, 0), [(0, 'A', 1); 3]);
    assert_eq!(run_between(0, 2), [(0, 'A', 1); 3]);
    assert_eq!(run_between(2, 2), [(0, 'A', 1); 3]);
    assert_eq!(run_between(0, 0), [(5, 'S', 2); 3]);
    assert_eq!(run_between(5, 1), [(0, 'N', 0); 3], "a run of five");
    assert_eq!(
        run_between(3, 0),
        [(0, 'A', 1); 3],
        "it may itself have failed"
    );
}

#[test]
fn outage_goes_before_linear() {
    let mut test = Test::new(HEAD);
    test.deliver(3, 100, 2);
    test.deliver(5, 50, 0);
    assert_eq!(test.slot(4), (0, 'A', 1));
}

#[test]
fn outage_runs_at_the_ends_of_the_book() {
    let mut test = Test::new(HEAD);
    test.deliver(2, 5, 2);
    test.deliver(3, 5, 0);
    test.deliver(44, 5, 0);
    test.deliver(45, 5, 2);
    assert_eq!(test.slot(0), (0, 'A', 1));
    assert_eq!(test.slot(1), (0, 'A', 1));
    assert_eq!(test.slot(46), (0, 'A', 1));
    assert_eq!(test.slot(47), (0, 'A', 1));
    assert_eq!(test.slot(4), (0, 'N', 0), "runs end at any delivered slot");
    assert_eq!(test.slot(43), (0, 'N', 0));
}

#[test]
fn an_all_gap_book_has_nothing() {
    let test = Test::new(days(9));
    for slot in [0, 47, 48, 9 * 48 - 1] {
        assert_eq!(test.slot(slot), (0, 'N', 0));
    }
}

#[test]
fn a_run_over_midnight_is_one_run() {
    let mut test = Test::new(days(2));
    test.deliver(46, 5, 2);
    test.deliver(50, 5, 0);
    for slot in [47, 48, 49] {
        assert_eq!(test.slot(slot), (0, 'A', 1));
    }
    assert_eq!(test.slot(51), (0, 'N', 0));
}

#[test]
fn references_stop_at_four() {
    let mut test = Test::new(days(43));
    // Nearest first: 10, 20, 30, 40, then 1000 and 1000.
    for (week, value) in [10, 20, 30, 40, 1000, 1000].into_iter().enumerate() {
        test.deliver(at(42 - 7 * (week + 1), 30), value, 0);
    }
    assert_eq!(test.slot(at(42, 30)), (25, 'S', 3));
    // A week that doesn't count makes room for an older one.
    test.redeliver(at(35, 30), 10, 1);
    assert_eq!(test.slot(at(42, 30)), ((20 + 30 + 40 + 1000) / 4, 'S', 3));
}

#[test]
fn references_skip_holidays_outages_and_failed_weeks() {
    let mut test = Test::new(days(29));
    for (week, value) in [100, 200, 400, 800].into_iter().enumerate() {
        test.deliver(at(28 - 7 * (week + 1), 30), value, 0);
    }
    let target = at(28, 30);
    assert_eq!(test.slot(target), (375, 'S', 3));
    test.holiday(21);
    assert_eq!(test.slot(target), (1400 / 3, 'S', 3));
    test.redeliver(at(14, 30), 200, 2);
    assert_eq!(test.slot(target), (600, 'S', 3));
    test.redeliver(at(7, 30), 20_001, 0);
    assert_eq!(test.slot(target), (800, 'S', 3));
    test.redeliver(at(0, 30), 800, 4);
    assert_eq!(test.slot(target), (0, 'N', 0));
}

#[test]
fn references_are_earlier_days_of_the_same_position() {
    let mut test = Test::new(days(15));
    test.deliver(at(14, 30), 9, 0);
    test.deliver(at(0, 29), 9, 0);
    test.deliver(at(1, 30), 9, 0);
    assert_eq!(
        test.slot(at(7, 30)),
        (0, 'N', 0),
        "no later day, no other day"
    );
    test.deliver(at(0, 30), 77, 0);
    assert_eq!(test.slot(at(7, 30)), (77, 'S', 3));
}

#[test]
fn references_reach_back_52_weeks() {
    let mut test = Test::new(days(400));
    test.deliver(at(0, 30), 77, 0);
    assert_eq!(test.slot(at(364, 30)), (77, 'S', 3));
    assert_eq!(test.slot(at(371, 30)), (0, 'N', 0));
}

#[test]
fn filled_values_are_no_references() {
    let mut test = Test::new(days(15));
    test.deliver(at(7, 29), 50, 0);
    test.deliver(at(7, 31), 50, 0);
    assert_eq!(test.slot(at(7, 30)), (50, 'S', 2));
    assert_eq!(test.slot(at(14, 30)), (0, 'N', 0));
}

#[test]
fn a_reference_of_zero_is_a_reference() {
    let mut test = Test::new(days(8));
    test.deliver(at(0, 30), 0, 0);
    assert_eq!(test.slot(at(7, 30)), (0, 'S', 3));
}
