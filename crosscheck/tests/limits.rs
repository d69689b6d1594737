//! 02, W5: marinas with their own connections.

use crosscheck::number::narrowed;
use crosscheck::second::head::Head;
use crosscheck::second::limits::{limit, limit_code};
use crosscheck::second::lists::Lists;
use crosscheck::second::rules::{self, Cause};

mod common;
use common::*;

const OLD: [u32; 2] = [40_000, 70_000];
const MAX: u32 = u32::MAX;

/// 1 to `places`.
fn counted(places: u32) -> Vec<u32> {
    (1..=places).collect()
}

#[test]
fn the_old_two_kinds() {
    assert_eq!(limit(&OLD, 1), Ok(40_000));
    assert_eq!(limit(&OLD, 2), Ok(70_000));
    for kind in [0, 3, 4, MAX] {
        assert_eq!(limit(&OLD, kind), Err(1));
    }
}

#[test]
fn a_place_is_counted_from_1() {
    let table: Vec<u32> = (1..=24).map(|place| place * 1000).collect();
    for kind in 1..=24 {
        assert_eq!(limit(&table, kind), Ok(kind * 1000));
    }
    for kind in [0, 25, 26, 256 + 1, 65_536 + 1, MAX] {
        assert_eq!(limit(&table, kind), Err(1), "{kind}");
    }
    assert_eq!(limit(&[1], 1), Ok(1));
    assert_eq!(limit(&[1_000_000], 1), Ok(1_000_000));
    assert_eq!(limit(&[1], 0), Err(1));
    assert_eq!(limit(&[1], 2), Err(1));
}

#[test]
fn tables_of_1_to_24() {
    for places in 1..=24 {
        assert_eq!(limit(&counted(places), places), Ok(places));
        assert_eq!(limit(&counted(places), places + 1), Err(1));
    }
    for places in [0, 25, 26, 100] {
        // 13 goes before 1.
        for kind in [0, 1, 24, 25, 101, MAX] {
            assert_eq!(limit(&counted(places), kind), Err(13), "{places} {kind}");
        }
    }
}

#[test]
fn each_limit_is_above_the_one_before() {
    for table in [
        &[5, 5][..],
        &[5, 4],
        &[1, 2, 3, 3],
        &[1, 2, 3, 2],
        &[2, 1, 3, 4],
        &[40_000, 40_000, 70_000],
        &[70_000, 40_000],
    ] {
        for kind in [0, 1, 2, 9, MAX] {
            assert_eq!(limit(table, kind), Err(13), "{table:?} {kind}");
        }
    }
    assert_eq!(limit(&[5, 6], 2), Ok(6));
}

#[test]
fn limits_lie_from_1_to_1_000_000() {
    for table in [
        &[0][..],
        &[0, 1],
        &[0, 40_000, 70_000],
        &[1_000_001],
        &[1, 1_000_001],
        &[40_000, MAX],
        &[1_000_001, 1_000_002, 5],
    ] {
        for kind in [0, 1, 2, 9] {
            assert_eq!(limit(table, kind), Err(13), "{table:?} {kind}");
        }
    }
    let both = [1, 1_000_000];
    assert_eq!((limit(&both, 1), limit(&both, 2)), (Ok(1), Ok(1_000_000)));
    let mut most: Vec<u32> = (999_977..=1_000_000).collect();
    assert_eq!(limit(&most, 24), Ok(1_000_000));
    most[23] = 1_000_001;
    assert_eq!(limit(&most, 1), Err(13), "though its first 23 are good");
}

#[test]
fn codes_for_the_chargers_host() {
    assert_eq!(limit_code(&OLD, 2), 70_000);
    assert_eq!(limit_code(&OLD, 3), 100_000_001);
    assert_eq!(limit_code(&[], 1), 100_000_013);
    assert_eq!(limit_code(&[0], 0), 100_000_013);
}

fn with_limit(limit: u32, interval: u32) -> Head {
    Head {
        limit,
        interval,
        ..HEAD
    }
}

#[test]
fn a_head_is_good_with_a_limit_of_1_to_1_000_000() {
    for limit in [1, 2, 3, 39_999, 40_000, 70_000, 999_999, 1_000_000] {
        assert_eq!(with_limit(limit, 30).shape().unwrap().limit, limit);
        assert_eq!(
            open(with_limit(limit, 30), &mut Lists::unopened(48, 1)),
            Ok(())
        );
    }
    for limit in [0, 1_000_001, 1_000_002, MAX] {
        let head = with_limit(limit, 30);
        let mut lists = Lists::unopened(48, 1);
        assert_eq!(head.shape(), Err(1));
        assert_eq!(open(head, &mut lists), Err(1));
        assert_eq!(publish(head, &lists, &mut [0; 400]), Err(1));
        assert_eq!(lists, Lists::unopened(48, 1));
    }
}

#[test]
fn values_around_each_limit() {
    // value × 60 > limit × L.
    for (limit, interval, most) in [
        (1, 5, 0),
        (1, 15, 0),
        (1, 30, 0),
        (2, 30, 1),
        (3, 30, 1),
        (4, 15, 1),
        (11, 5, 0),
        (12, 5, 1),
        (40_000, 5, 3_333),
        (40_000, 15, 10_000),
        (40_000, 30, 20_000),
        (70_000, 5, 5_833),
        (70_000, 15, 17_500),
        (70_000, 30, 35_000),
        (1_000_000, 5, 83_333),
        (1_000_000, 15, 250_000),
        (1_000_000, 30, 500_000),
    ] {
        let shape = with_limit(limit, interval).shape().unwrap();
        let cause = |value| rules::cause(&shape, value, 1, 0);
        assert_eq!(cause(0), None);
        assert_eq!(cause(most), None, "{limit} W, L {interval}");
        assert_eq!(cause(most + 1), Some(Cause::Demand));
        assert_eq!(cause(MAX), Some(Cause::Demand));
        assert_eq!(cause(MAX / 60 + 1), Some(Cause::Demand));
        let mut test = Test::new(with_limit(limit, interval));
        test.deliver(9, 0, 0);
        test.deliver(10, most, 0);
        test.deliver(11, 0, 0);
        assert_eq!(test.slot(10), (most, 'A', 0));
        test.redeliver(10, most + 1, 0);
        assert_eq!(test.slot(10), (0, 'S', 2));
    }
}

#[test]
fn a_file_does_not_tell_the_limit() {
    let file = |limit| {
        let mut test = Test::new(with_limit(limit, 30));
        for slot in (0..48).filter(|slot| slot % 7 != 3) {
            test.deliver(slot, 300 * narrowed::<u32>(slot), 0);
        }
        test.register(0, 0);
        test.register(1, 300_000);
        test.file()
    };
    // 47 × 300 is 14,100, good from 28,200 W on.
    assert_eq!(file(28_200), file(40_000));
    assert_eq!(file(70_000), file(40_000));
    assert_eq!(file(1_000_000), file(40_000));
    assert_ne!(file(28_199), file(40_000), "slot 47 fails");
}
