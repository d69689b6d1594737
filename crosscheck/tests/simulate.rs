//! 02, W12: a berth on paper.

use crosscheck::second::head::Head;
use crosscheck::second::lists::{List, Lists};
use crosscheck::second::reader::read;
use crosscheck::second::simulate::{Report, draw, simulate, simulate_code};

mod common;
use common::*;

/// The first ten draws, worked out elsewhere.
const DRAWS: [(u32, [u32; 10]); 3] = [
    (
        1,
        [
            270369, 67634689, 2647435461, 307599695, 2398689233, 745495504, 632435482, 435756210,
            2005365029, 2916098932,
        ],
    ),
    (
        2,
        [
            540738, 134253570, 697882754, 1670953222, 3819972634, 818967331, 3895821145,
            1401905590, 1216754474, 1384496955,
        ],
    ),
    (
        4_294_967_295,
        [
            253983, 4228382207, 1958451267, 4056713434, 2049502865, 2560970988, 1705115568,
            279806459, 2999224306, 1700793103,
        ],
    ),
];

/// 6N + 14 + 32.
const LENGTH: usize = 6 * 48 + 14 + 32;

fn lists() -> Lists {
    Lists::unopened(48, 1)
}

#[test]
fn the_first_ten_draws() {
    for (seed, draws) in DRAWS {
        let mut x = seed;
        for expected in draws {
            x = draw(x);
            assert_eq!(x, expected, "seed {seed}");
        }
    }
    assert_eq!(draw(0), 0, "so a seed of 0 is refused");
}

#[test]
fn two_draws_for_each_slot() {
    // Up to floor(40,000 × 30 / 60) = 20,000 Wh.
    for (seed, draws) in DRAWS {
        for loss in [0, 250, 500, 750, 1000] {
            let mut lists = lists();
            simulate(HEAD, seed, loss, &mut lists, &mut [0; LENGTH]).unwrap();
            for (slot, pair) in draws.chunks(2).enumerate() {
                let cell = (lists.values[slot], lists.versions[slot]);
                if pair[0] % 1000 < loss {
                    assert_eq!(cell, (0, 0), "seed {seed}, loss {loss}, slot {slot}");
                } else {
                    assert_eq!(cell, (pair[1] % 20_001, 1), "seed {seed}, slot {slot}");
                }
                assert_eq!(lists.statuses[slot], 0);
            }
        }
    }
    // The first draws of seed 1 are 369 and 461 in 1000.
    for (loss, sent) in [(369, [1, 1]), (370, [0, 1]), (461, [0, 1]), (462, [0, 0])] {
        let mut lists = lists();
        simulate(HEAD, 1, loss, &mut lists, &mut [0; LENGTH]).unwrap();
        assert_eq!(lists.versions[..2], sent, "loss {loss}");
    }
}

/// The true total of a head and a seed: all is sent at loss 0.
fn total(head: Head, seed: u32) -> u64 {
    let shape = head.shape().unwrap();
    let mut lists = Lists::unopened(shape.slots, shape.days);
    let mut out = vec![0; 6 * shape.slots + 46];
    simulate(head, seed, 0, &mut lists, &mut out).unwrap();
    lists.values.iter().map(|&value| u64::from(value)).sum()
}

#[test]
fn nothing_is_lost_at_loss_0() {
    let mut lists = lists();
    let mut out = [0; LENGTH];
    let report = simulate(HEAD, 1, 0, &mut lists, &mut out);
    let agrees = Report {
        state: 0,
        difference: 0,
    };
    assert_eq!(report, Ok(agrees));
    assert_eq!(lists.versions, [1; 48]);
    assert_eq!(lists.counts, [48]);
    assert_eq!(lists.read_versions, [1, 1]);
    assert_eq!(lists.widths, [0, 0]);
    assert_eq!(lists.readings[0], 0);
    assert_eq!(u64::from(lists.readings[1]), total(HEAD, 1));
    let figures = read(&out).unwrap();
    assert_eq!((figures.actual, figures.spans, figures.layout), (48, 1, 3));
    assert_eq!(figures.sum, total(HEAD, 1));
}

#[test]
fn all_is_lost_at_loss_1000() {
    let mut lists = lists();
    let mut out = [0; LENGTH];
    let report = simulate(HEAD, 7, 1000, &mut lists, &mut out);
    let open = Report {
        state: 2,
        difference: -(total(HEAD, 7) as i64),
    };
    assert_eq!(report, Ok(open));
    assert_eq!(lists.versions, [0; 48]);
    assert_eq!(lists.counts, [0]);
    assert_eq!(read(&out).unwrap().none, 48);
}

#[test]
fn a_few_lost_slots_are_fitted_to_the_dial() {
    let fitted = (1..200).filter(|&seed| {
        let report = simulate(HEAD, seed, 30, &mut lists(), &mut [0; LENGTH]).unwrap();
        // Scaled to R, which is the true total.
        assert!(report.state != 1 || report.difference == 0, "{seed}");
        report.state == 1
    });
    assert!(fitted.count() > 20);
}

#[test]
fn the_dial_is_the_total_modulo_100_000_000() {
    let head = Head {
        days: 20,
        limit: 1_000_000,
        ..HEAD
    };
    let true_total = total(head, 3);
    assert!(true_total > 200_000_000);
    let mut lists = Lists::unopened(960, 20);
    let mut out = vec![0; 6 * 960 + 46];
    let report = simulate(head, 3, 0, &mut lists, &mut out).unwrap();
    assert_eq!(u64::from(lists.readings[20]), true_total % 100_000_000);
    // All came, and the dial went round: the span disagrees, the total is right.
    assert_eq!((report.state, report.difference), (3, 0));
}

fn asked(head: Head, seed: u32, loss: u32, lists: &mut Lists, room: usize, of: usize) -> u32 {
    let before = lists.clone();
    let mut out = vec![0xA5; room];
    let mut report = vec![77; of];
    let code = simulate_code(head, seed, loss, lists, &mut out, &mut report);
    if code != 0 {
        assert_eq!(lists, &before);
        assert!(out.iter().all(|&byte| byte == 0xA5));
        assert!(report.iter().all(|&number| number == 77));
    }
    code
}

#[test]
fn refusals_in_their_order() {
    let bad = Head { days: 0, ..HEAD };
    let mut short = lists();
    short.resize(List::Widths, 1);
    assert_eq!(asked(bad, 0, 1001, &mut short, 0, 0), 1);
    assert_eq!(asked(HEAD, 0, 1001, &mut short, 0, 2), 2);
    assert_eq!(asked(HEAD, 0, 1001, &mut lists(), 0, 2), 7);
    assert_eq!(asked(HEAD, 0, 1001, &mut lists(), LENGTH - 1, 2), 7);
    assert_eq!(asked(HEAD, 0, 1001, &mut lists(), LENGTH, 2), 20);
    assert_eq!(asked(HEAD, 0, 5, &mut lists(), LENGTH, 2), 20);
    assert_eq!(asked(HEAD, 1, 1001, &mut lists(), LENGTH, 2), 21);
    assert_eq!(asked(HEAD, 1, u32::MAX, &mut lists(), LENGTH, 2), 21);
    assert_eq!(asked(HEAD, 1, 1000, &mut lists(), LENGTH, 2), 0);
    for of in [0, 1, 3] {
        assert_eq!(asked(bad, 1, 5, &mut lists(), LENGTH, of), 1);
        assert_eq!(asked(HEAD, 0, 1001, &mut lists(), 0, of), 2);
    }
}

#[test]
fn each_list_has_its_length() {
    for list in List::ALL {
        for more in [0, 2] {
            let mut lists = lists();
            let len = lists.len_of(list);
            lists.resize(list, len - 1 + more);
            assert_eq!(asked(HEAD, 1, 5, &mut lists, LENGTH, 2), 2, "{list:?}");
        }
    }
}

#[test]
fn bytes_after_the_file_are_unchanged() {
    let mut out = vec![0xA5; LENGTH + 9];
    simulate(HEAD, 1, 100, &mut lists(), &mut out).unwrap();
    assert_eq!(out[LENGTH..], [0xA5; 9]);
    assert!(read(&out[..LENGTH]).is_ok());
}
