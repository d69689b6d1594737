//! 01, Numbers of a refusal: each number, their order, and that nothing changes.

use crosscheck::second::book::{self, Filed};
use crosscheck::second::head::Head;
use crosscheck::second::lists::{List, Lists};

mod common;
use common::*;

const MAX: u32 = u32::MAX;

fn bad_heads() -> Vec<Head> {
    vec![
        Head { year: 1999, ..HEAD },
        Head { year: 2100, ..HEAD },
        Head { month: 0, ..HEAD },
        Head { month: 13, ..HEAD },
        Head { day: 0, ..HEAD },
        Head { day: 32, ..HEAD },
        Head { days: 0, ..HEAD },
        Head { days: 401, ..HEAD },
        Head {
            interval: 0,
            ..HEAD
        },
        Head {
            interval: 10,
            ..HEAD
        },
        Head { limit: 0, ..HEAD },
        Head {
            limit: 1_000_001,
            ..HEAD
        },
        Head { limit: MAX, ..HEAD },
        Head {
            tolerance: 1_000_001,
            ..HEAD
        },
        Head {
            year: MAX,
            month: MAX,
            day: MAX,
            days: MAX,
            interval: MAX,
            limit: MAX,
            tolerance: MAX,
        },
    ]
}

#[test]
fn one_is_a_head_out_of_bounds() {
    for head in bad_heads() {
        // Empty lists and wild arguments: 1 goes before all others.
        let mut lists = Lists::default();
        assert_eq!(open(head, &mut lists), Err(1));
        assert_eq!(deliver(head, &mut lists, (MAX, 0, 0, 255)), Err(1));
        assert_eq!(book::holiday(head, &mut [], MAX), Err(1));
        assert_eq!(register(head, &mut lists, (MAX, 0, MAX)), Err(1));
        assert_eq!(agree(head, &mut lists, (MAX, 0, MAX)), Err(1));
        assert_eq!(publish(head, &lists, &mut []), Err(1));
    }
    let bounds = Head {
        days: 400,
        tolerance: 1_000_000,
        interval: 5,
        limit: 1_000_000,
        ..HEAD
    };
    assert!(bounds.shape().is_ok());
}

#[test]
fn two_is_a_list_of_a_wrong_length() {
    for list in List::ALL {
        for len in [0, 1, 47, 49, 3] {
            let mut lists = Lists::zeroed(48, 1);
            if lists.len_of(list) == len {
                continue;
            }
            lists.resize(list, len);
            lists.write(list, 0, 200);
            let before = lists.clone();
            assert_eq!(open(HEAD, &mut lists), Err(2), "{list:?} {len}");
            assert_eq!(publish(HEAD, &lists, &mut []), Err(2));
            let delivered = deliver(HEAD, &mut lists, (MAX, 0, 0, 255));
            let registered = register(HEAD, &mut lists, (MAX, 0, MAX));
            let holiday = book::holiday(HEAD, &mut lists.holidays, MAX);
            let agreed = agree(HEAD, &mut lists, (MAX, 0, MAX));
            // Each call is lent its own lists only, and 2 is about those.
            let numbers = match list {
                List::Values | List::Versions | List::Statuses | List::Counts => (2, 3, 3, 3),
                List::Readings | List::ReadVersions | List::Widths => (3, 2, 3, 3),
                List::Holidays => (3, 3, 2, 3),
                List::Agreed | List::AgreedVersions => (3, 3, 3, 2),
            };
            assert_eq!(delivered, Err(numbers.0));
            assert_eq!(registered, Err(numbers.1));
            assert_eq!(holiday, Err(numbers.2));
            assert_eq!(agreed, Err(numbers.3));
            assert_eq!(lists, before);
        }
    }
}

#[test]
fn three_to_six_are_arguments() {
    let mut lists = Lists::zeroed(48, 1);
    assert_eq!(deliver(HEAD, &mut lists, (48, 0, 1, 8)), Err(3));
    assert_eq!(deliver(HEAD, &mut lists, (47, 0, 1, 8)), Err(4));
    assert_eq!(deliver(HEAD, &mut lists, (47, 1, 1, 8)), Err(5));
    assert_eq!(book::holiday(HEAD, &mut lists.holidays, 1), Err(3));
    assert_eq!(register(HEAD, &mut lists, (2, 0, 100_000_000)), Err(3));
    assert_eq!(register(HEAD, &mut lists, (1, 0, 100_000_000)), Err(4));
    assert_eq!(register(HEAD, &mut lists, (1, 1, 100_000_000)), Err(6));
    assert_eq!(lists, Lists::zeroed(48, 1));
    assert_eq!(
        deliver(HEAD, &mut lists, (47, MAX, MAX, 7)),
        Ok(Filed::Stored)
    );
    assert_eq!(
        register(HEAD, &mut lists, (1, MAX, 99_999_999)),
        Ok(Filed::Stored)
    );
}

#[test]
fn arguments_go_before_the_cell() {
    let mut lists = Lists::zeroed(48, 1);
    lists.statuses[47] = 8;
    lists.readings[1] = 100_000_000;
    lists.holidays[0] = 2;
    assert_eq!(deliver(HEAD, &mut lists, (47, 0, 1, 0)), Err(4));
    assert_eq!(deliver(HEAD, &mut lists, (47, 1, 1, 8)), Err(5));
    assert_eq!(deliver(HEAD, &mut lists, (47, 1, 1, 0)), Err(11));
    assert_eq!(register(HEAD, &mut lists, (1, 1, 100_000_000)), Err(6));
    assert_eq!(register(HEAD, &mut lists, (1, 1, 0)), Err(11));
    assert_eq!(book::holiday(HEAD, &mut lists.holidays, 1), Err(3));
    assert_eq!(book::holiday(HEAD, &mut lists.holidays, 0), Err(11));
}

#[test]
fn seven_is_a_short_buffer() {
    let mut test = Test::new(Head { days: 2, ..HEAD });
    for boundary in 0..3 {
        test.register(boundary, 0);
    }
    let length = 6 * 96 + 14 * 2 + 32;
    for room in [0, 1, 31, 32, length - 1] {
        let mut out = vec![0xA5; room];
        assert_eq!(publish(test.head, &test.lists, &mut out), Err(7));
        assert!(out.iter().all(|&byte| byte == 0xA5));
    }
    let mut out = vec![0xA5; length + 7];
    assert_eq!(publish(test.head, &test.lists, &mut out), Ok(length));
    assert_eq!(out[length..], [0xA5; 7]);
    let mut out = vec![0xA5; length];
    assert_eq!(publish(test.head, &test.lists, &mut out), Ok(length));
}

#[test]
fn ten_is_a_conflict() {
    let mut lists = Lists::zeroed(48, 1);
    assert_eq!(deliver(HEAD, &mut lists, (5, 3, 100, 2)), Ok(Filed::Stored));
    assert_eq!(register(HEAD, &mut lists, (0, 3, 100)), Ok(Filed::Stored));
    let before = lists.clone();
    assert_eq!(deliver(HEAD, &mut lists, (5, 3, 101, 2)), Err(10));
    assert_eq!(deliver(HEAD, &mut lists, (5, 3, 100, 0)), Err(10));
    assert_eq!(deliver(HEAD, &mut lists, (5, 3, 100, 2)), Ok(Filed::Repeat));
    assert_eq!(deliver(HEAD, &mut lists, (5, 2, 7, 0)), Ok(Filed::Late));
    assert_eq!(register(HEAD, &mut lists, (0, 3, 101)), Err(10));
    assert_eq!(register(HEAD, &mut lists, (0, 3, 100)), Ok(Filed::Repeat));
    assert_eq!(register(HEAD, &mut lists, (0, 2, 7)), Ok(Filed::Late));
    assert_eq!(lists, before);
    assert_eq!(deliver(HEAD, &mut lists, (5, 4, 7, 0)), Ok(Filed::Stored));
    assert_eq!(register(HEAD, &mut lists, (0, 4, 7)), Ok(Filed::Stored));
    assert_eq!(
        (lists.values[5], lists.versions[5], lists.statuses[5]),
        (7, 4, 0)
    );
    assert_eq!((lists.readings[0], lists.read_versions[0]), (7, 4));
    assert_eq!(
        book::holiday(HEAD, &mut lists.holidays, 0),
        Ok(Filed::Stored)
    );
    assert_eq!(
        book::holiday(HEAD, &mut lists.holidays, 0),
        Ok(Filed::Repeat)
    );
    assert_eq!(lists.holidays, [1]);
}

#[test]
fn eleven_is_a_cell_no_calls_could_leave() {
    let writes = [
        (List::Statuses, 8),
        (List::Statuses, 1),
        (List::Values, 1),
        (List::Holidays, 2),
        (List::Holidays, 255),
        (List::Readings, 1),
        (List::Readings, 100_000_000),
    ];
    for (list, value) in writes {
        let mut lists = Lists::zeroed(48, 1);
        lists.write(list, 0, value);
        let before = lists.clone();
        // 11 goes before 10 and, in publishing, before 7.
        assert_eq!(publish(HEAD, &lists, &mut []), Err(11));
        assert_eq!(publish(HEAD, &lists, &mut [0; 400]), Err(11));
        match list {
            List::Holidays => {
                assert_eq!(book::holiday(HEAD, &mut lists.holidays, 0), Err(11));
            }
            List::Readings => {
                assert_eq!(register(HEAD, &mut lists, (0, 1, 0)), Err(11));
            }
            _ => assert_eq!(deliver(HEAD, &mut lists, (0, 1, 0, 0)), Err(11)),
        }
        assert_eq!(lists, before);
        // Filling calls look in their own cell only.
        assert_eq!(deliver(HEAD, &mut lists, (1, 1, 0, 0)), Ok(Filed::Stored));
        assert_eq!(register(HEAD, &mut lists, (1, 1, 0)), Ok(Filed::Stored));
    }
}

#[test]
fn eleven_goes_before_ten_and_late() {
    let mut lists = Lists::zeroed(48, 1);
    (lists.versions[0], lists.statuses[0]) = (5, 9);
    (lists.read_versions[0], lists.readings[0]) = (5, u32::MAX);
    for version in [4, 5, 6] {
        assert_eq!(deliver(HEAD, &mut lists, (0, version, 1, 0)), Err(11));
        assert_eq!(register(HEAD, &mut lists, (0, version, 1)), Err(11));
    }
}

#[test]
fn opening_clears_any_cells() {
    let mut lists = Lists::unopened(48, 1);
    assert_eq!(open(HEAD, &mut lists), Ok(()));
    assert_eq!(lists, Lists::zeroed(48, 1));
}
