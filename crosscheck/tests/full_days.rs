//! 02, W6: full days on the office screen.

use crosscheck::compare::plain::Plain;
use crosscheck::number::narrowed;
use crosscheck::second::book::{self, Filed};
use crosscheck::second::head::Head;
use crosscheck::second::lists::{List, Lists};

mod common;
use common::*;

const THREE: Head = Head { days: 3, ..HEAD };

fn three_days() -> Lists {
    Lists::zeroed(3 * 48, 3)
}

#[test]
fn opening_clears_the_counts() {
    let mut lists = Lists::unopened(3 * 48, 3);
    assert!(lists.counts.iter().all(|&count| count != 0));
    assert_eq!(open(THREE, &mut lists), Ok(()));
    assert_eq!(lists.counts, [0, 0, 0]);
}

#[test]
fn the_first_stored_delivery_of_a_slot_raises_its_days_count() {
    let mut lists = three_days();
    for (delivery, answer, counts) in [
        ((0, 5, 9, 0), Ok(Filed::Stored), [1, 0, 0]),
        ((0, 5, 9, 0), Ok(Filed::Repeat), [1, 0, 0]),
        ((0, 4, 9, 0), Ok(Filed::Late), [1, 0, 0]),
        ((0, 5, 8, 0), Err(10), [1, 0, 0]),
        ((0, 6, 8, 0), Ok(Filed::Stored), [1, 0, 0]),
        // A failed slot is delivered too, and one of value 0.
        ((47, 1, 0, 7), Ok(Filed::Stored), [2, 0, 0]),
        ((48, 1, u32::MAX, 0), Ok(Filed::Stored), [2, 1, 0]),
        ((95, u32::MAX, 0, 0), Ok(Filed::Stored), [2, 2, 0]),
        ((96, 1, 0, 0), Ok(Filed::Stored), [2, 2, 1]),
        ((143, 1, 0, 0), Ok(Filed::Stored), [2, 2, 2]),
        ((144, 1, 0, 0), Err(3), [2, 2, 2]),
        ((142, 0, 0, 0), Err(4), [2, 2, 2]),
        ((142, 1, 0, 8), Err(5), [2, 2, 2]),
    ] {
        assert_eq!(deliver(THREE, &mut lists, delivery), answer, "{delivery:?}");
        assert_eq!(lists.counts, counts, "{delivery:?}");
    }
}

#[test]
fn no_other_call_touches_a_count() {
    let mut lists = three_days();
    lists.counts = vec![5, 6, 7].into();
    book::holiday(THREE, &mut lists.holidays, 1).unwrap();
    register(THREE, &mut lists, (1, 1, 5)).unwrap();
    agree(THREE, &mut lists, (50, 1, 5)).unwrap();
    publish(THREE, &lists, &mut [0; 2000]).unwrap_err();
    assert_eq!(lists.counts, [5, 6, 7]);
}

#[test]
fn a_full_day_of_each_interval() {
    for (interval, n) in [(5, 288), (15, 96), (30, 48)] {
        let mut test = Test::new(Head {
            interval,
            days: 2,
            ..HEAD
        });
        for slot in n..2 * n {
            assert_eq!(usize::from(test.lists.counts[1]), slot - n);
            test.deliver(slot, 1, 0);
        }
        assert_eq!(test.lists.counts, [0, narrowed(n)]);
        // Later versions on a full day are stored.
        test.redeliver(n, 2, 0);
        assert_eq!(test.lists.counts, [0, narrowed(n)]);
        assert_eq!(test.file().len(), 12 * n + 32);
    }
}

/// Counts beside 30, 1 and 48, which would be right.
const WRONG: [[u16; 3]; 13] = [
    [29, 1, 48],
    [31, 1, 48],
    [30, 0, 48],
    [30, 2, 48],
    [30, 1, 47],
    [30, 1, 49],
    // Right in sum, or in the low byte.
    [31, 0, 48],
    [30, 2, 47],
    [48, 1, 30],
    [30 + 256, 1, 48],
    [30, 1, 48 + 256],
    [30, u16::MAX, 48],
    [0, 0, 0],
];

#[test]
fn publishing_wants_each_count() {
    let mut test = Test::new(THREE);
    for slot in (0..30).chain(48..49).chain(96..144) {
        test.deliver(slot, 1, 0);
    }
    assert_eq!(test.lists.counts, [30, 1, 48]);
    let length = 6 * 144 + 32;
    let mut out = vec![0xA5; length];
    for counts in WRONG {
        let mut lists = test.lists.clone();
        lists.counts = counts[..].into();
        // 11 goes before 7.
        assert_eq!(publish(THREE, &lists, &mut []), Err(11), "{counts:?}");
        assert_eq!(publish(THREE, &lists, &mut out), Err(11), "{counts:?}");
        assert!(out.iter().all(|&byte| byte == 0xA5));
    }
    assert_eq!(publish(THREE, &test.lists, &mut out), Ok(length));
    // A version written or cleared behind the book's back counts too.
    let mut lists = test.lists.clone();
    lists.write(List::Versions, 40, 1);
    assert_eq!(publish(THREE, &lists, &mut out), Err(11));
    lists.write(List::Counts, 0, 31);
    assert_eq!(publish(THREE, &lists, &mut out), Ok(length));
    // An agreed slot has not come.
    test.agree(60, 5);
    assert_eq!(publish(THREE, &test.lists, &mut out), Ok(length));
}

#[test]
fn a_first_delivery_wants_room_in_its_day() {
    for (interval, n) in [(5, 288), (15, 96), (30, 48)] {
        let head = Head { interval, ..THREE };
        let slot = n + 7;
        for count in [n, n + 1, 255 + n, 256 + n, 65_535] {
            let mut lists = Lists::zeroed(3 * n, 3);
            lists.counts[1] = narrowed(count);
            let before = lists.clone();
            let delivery = (narrowed(slot), 1, 5, 0);
            assert_eq!(deliver(head, &mut lists, delivery), Err(11), "{count}");
            assert_eq!(deliver(head, &mut lists, (narrowed(n), 1, 0, 0)), Err(11));
            // 4 and 5 go first.
            assert_eq!(deliver(head, &mut lists, (narrowed(slot), 0, 5, 8)), Err(4));
            assert_eq!(deliver(head, &mut lists, (narrowed(slot), 1, 5, 8)), Err(5));
            assert_eq!(lists, before);
            // The other days have room.
            for other in [narrowed::<u32>(n) - 1, 2 * narrowed::<u32>(n)] {
                let stored = deliver(head, &mut lists, (other, 1, 5, 0));
                assert_eq!(stored, Ok(Filed::Stored));
            }
            assert_eq!(lists.counts, [1, narrowed(count), 1]);
        }
        // One less is room for one.
        let mut lists = Lists::zeroed(3 * n, 3);
        lists.counts[1] = narrowed::<u16>(n) - 1;
        let first = deliver(head, &mut lists, (narrowed(slot), 1, 5, 0));
        assert_eq!(first, Ok(Filed::Stored));
        assert_eq!(usize::from(lists.counts[1]), n);
        assert_eq!(
            deliver(head, &mut lists, (narrowed::<u32>(slot) + 1, 1, 5, 0)),
            Err(11)
        );
    }
}

#[test]
fn a_delivered_slot_looks_at_no_count() {
    for count in [0, 1, 47, 48, 49, 65_535] {
        let mut lists = three_days();
        deliver(THREE, &mut lists, (50, 3, 5, 0)).unwrap();
        lists.counts[1] = count;
        for (delivery, answer) in [
            ((50, 2, 5, 0), Ok(Filed::Late)),
            ((50, 3, 5, 0), Ok(Filed::Repeat)),
            ((50, 3, 6, 0), Err(10)),
            ((50, 4, 6, 0), Ok(Filed::Stored)),
        ] {
            assert_eq!(deliver(THREE, &mut lists, delivery), answer, "{count}");
            assert_eq!(lists.counts, [0, count, 0]);
        }
    }
}

#[test]
fn an_impossible_cell_raises_nothing() {
    let mut lists = three_days();
    lists.values[50] = 1;
    let before = lists.clone();
    assert_eq!(deliver(THREE, &mut lists, (50, 1, 5, 0)), Err(11));
    assert_eq!(lists, before);
}

#[test]
fn two_is_a_list_of_other_than_d_counts() {
    for len in [0, 1, 2, 4, 143, 144] {
        let mut lists = three_days();
        lists.counts.resize(len, 0);
        let before = lists.clone();
        assert_eq!(open(THREE, &mut lists), Err(2));
        assert_eq!(deliver(THREE, &mut lists, (144, 0, 0, 8)), Err(2));
        assert_eq!(publish(THREE, &lists, &mut []), Err(2));
        assert_eq!(lists, before);
    }
}

#[test]
fn the_plain_book_counts_kept_deliveries() {
    let mut plain = Plain::default();
    plain.open(THREE).unwrap();
    for (slot, version) in [(47, 1), (48, 1), (48, 2), (48, 1), (95, 1)] {
        plain.deliver(THREE, [slot, version, 5, 0].into()).unwrap();
    }
    plain.deliver(THREE, [48, 2, 6, 0].into()).unwrap_err();
    plain.agree(THREE, [50, 1, 5].into()).unwrap();
    let counts = [0, 1, 2].map(|day| plain.count(day, 48));
    assert_eq!(counts, [1, 2, 0]);
    plain.open(THREE).unwrap();
    assert_eq!(plain.count(1, 48), 0);
}
