//! 01, Spans.

use crosscheck::second::head::Head;

mod common;
use common::*;

fn complete(tolerance: u32) -> Test {
    let mut test = Test::new(Head { tolerance, ..HEAD });
    test.deliver_all(10);
    test.register(0, 1000);
    test
}

#[test]
fn state_0_within_the_tolerance() {
    for (tolerance, later, state) in [
        (0, 1480, 0),
        (0, 1481, 3),
        (0, 1479, 3),
        (5, 1485, 0),
        (5, 1475, 0),
        (5, 1486, 3),
        (5, 1474, 3),
        (1_000_000, 1000, 0),
    ] {
        let mut test = complete(tolerance);
        test.register(1, later);
        assert_eq!(test.spans(), [(0, 1, later - 1000, state)]);
        assert_eq!(test.slot(0), (10, 'A', 0));
    }
}

/// Every slot but 20 delivered as 10: V is 470 and e is 10.
fn one_substituted(advance: u32) -> Test {
    let mut test = Test::new(Head {
        tolerance: 1000,
        ..HEAD
    });
    for slot in (0..48).filter(|&slot| slot != 20) {
        test.deliver(slot, 10, 0);
    }
    test.register(0, 99_999_999);
    test.register(1, (99_999_999 + advance) % 100_000_000);
    test
}

#[test]
fn states_1_and_3_with_a_substituted_slot() {
    let test = one_substituted(500);
    assert_eq!(test.spans(), [(0, 1, 500, 1)]);
    assert_eq!(test.slot(20), (30, 'S', 18));
    let test = one_substituted(470);
    assert_eq!(test.spans(), [(0, 1, 470, 1)]);
    assert_eq!(test.slot(20), (0, 'S', 18));
    // Below V the tolerance doesn't help.
    let test = one_substituted(469);
    assert_eq!(test.spans(), [(0, 1, 469, 3)]);
    assert_eq!(test.slot(20), (10, 'S', 2));
}

#[test]
fn the_demand_limit_does_not_bind_new_values() {
    let test = one_substituted(90_000_000);
    assert_eq!(test.slot(20), (90_000_000 - 470, 'S', 18));
}

#[test]
fn state_2_with_a_slot_of_none() {
    let mut test = complete(1_000_000);
    test.redeliver(0, 10, 1);
    test.redeliver(20, 10, 1);
    test.register(1, 1480);
    assert_eq!(test.slot(0), (0, 'N', 0));
    assert_eq!(test.spans(), [(0, 1, 480, 2)]);
    assert_eq!(test.slot(20), (10, 'S', 2), "an open span isn't scaled");
}

#[test]
fn method_19_after_references() {
    let mut test = Test::new(Head { days: 8, ..HEAD });
    // A run of five has no line.
    let lost = 7 * 48 + 10..7 * 48 + 15;
    for slot in (0..8 * 48).filter(|slot| !lost.contains(slot)) {
        test.deliver(slot, 5, 0);
    }
    test.register(7, 0);
    test.register(8, 43 * 5 + 27);
    assert_eq!(test.spans(), [(7, 8, 242, 1)]);
    // 5.4, 10.8, 16.2, 21.6 and 27 so far.
    for (slot, value) in lost.zip([5, 5, 6, 5, 6]) {
        assert_eq!(test.slot(slot), (value, 'S', 19));
    }
}

#[test]
fn shares_follow_the_estimates() {
    let mut test = Test::new(HEAD);
    // Estimates 1 and 3 at slots 1 and 3, so T = 10 is shared 2 and 8.
    for slot in (0..48).filter(|slot| ![1, 3].contains(slot)) {
        let value = match slot {
            0 | 2 => 1,
            4 => 5,
            _ => 0,
        };
        test.deliver(slot, value, 0);
    }
    test.register(0, 0);
    test.register(1, 7 + 10);
    assert_eq!(test.slot(1), (2, 'S', 18));
    assert_eq!(test.slot(3), (8, 'S', 18));
}

#[test]
fn spans_lie_between_neighbouring_reads() {
    let mut test = Test::new(Head { days: 10, ..HEAD });
    for (boundary, reading) in [(1, 5), (4, 5), (5, 9), (10, 8)] {
        test.register(boundary, reading);
    }
    let expected = [(1, 4, 0, 2), (4, 5, 4, 2), (5, 10, 99_999_999, 2)];
    assert_eq!(test.spans(), expected);
    let mut test = Test::new(HEAD);
    assert!(test.spans().is_empty());
    test.register(1, 5);
    assert!(test.spans().is_empty(), "one read makes no span");
}

#[test]
fn an_outage_zero_counts_as_actual() {
    let mut test = Test::new(HEAD);
    for slot in (0..48).filter(|slot| !(10..20).contains(slot)) {
        test.deliver(slot, 10, if slot == 9 { 2 } else { 0 });
    }
    test.register(0, 0);
    test.register(1, 380);
    assert_eq!(test.spans(), [(0, 1, 380, 0)]);
    assert_eq!(test.slot(15), (0, 'A', 1));
}
