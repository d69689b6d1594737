//! 01, Cases.

use crosscheck::second::book;
use crosscheck::second::contents;
use crosscheck::second::head::{Head, day_number};
use crosscheck::second::line::line;
use crosscheck::second::lists::Lists;
use crosscheck::second::reader::{self, Figures};
use crosscheck::second::rules::{self, Cause};

mod common;
use common::*;

fn cause_of(limit: u32, interval: u32, value: u32) -> Option<Cause> {
    let shape = Head {
        limit,
        interval,
        ..HEAD
    }
    .shape()
    .unwrap();
    rules::cause(&shape, value, 1, 0)
}

#[test]
fn demand_limits() {
    assert_eq!(cause_of(40_000, 30, 20_000), None);
    assert_eq!(cause_of(40_000, 30, 20_001), Some(Cause::Demand));
    assert_eq!(cause_of(40_000, 5, 3_333), None);
    assert_eq!(cause_of(40_000, 5, 3_334), Some(Cause::Demand));
    assert_eq!(cause_of(70_000, 30, 30_000), None);
    assert_eq!(cause_of(70_000, 30, 40_000), Some(Cause::Demand));
    assert_eq!(cause_of(40_000, 15, u32::MAX), Some(Cause::Demand));
}

#[test]
fn linear_between_7_and_10() {
    let mut test = Test::new(HEAD);
    test.deliver(9, 7, 0);
    test.deliver(11, 10, 0);
    assert_eq!(test.slot(10), (8, 'S', 2));
}

/// Values in 000's table: last week, then two, three and four weeks earlier.
fn mean_of_weeks(weeks: [(u32, u8); 4]) -> (u32, char, u8) {
    let mut test = Test::new(Head { days: 29, ..HEAD });
    for (back, (value, status)) in weeks.into_iter().enumerate() {
        test.deliver((28 - 7 * (back + 1)) * 48 + 20, value, status);
    }
    test.slot(28 * 48 + 20)
}

#[test]
fn means_of_000s_table() {
    // Its failed and outage weeks don't count.
    let failed = |value| (value, 1);
    let outage = (0, 2);
    let five = [failed(1078), outage, (1045, 0), (1089, 0)];
    assert_eq!(mean_of_weeks(five), (1067, 'S', 3));
    let four = [failed(2058), (2310, 0), (1995, 0), (2079, 0)];
    assert_eq!(mean_of_weeks(four), (2128, 'S', 3));
    let mean = |values: &[u32]| rules::mean(values).map(|mean| mean.mean);
    assert_eq!(mean(&[1045, 1089]), Some(1067));
    assert_eq!(mean(&[2310, 1995, 2079]), Some(2128));
    assert_eq!(rules::mean(&[]), None);
}

#[test]
fn a_dial_wraps() {
    assert_eq!(rules::advance(99_999_990, 15), 25);
    let mut test = Test::new(HEAD);
    test.register(0, 99_999_990);
    test.register(1, 15);
    assert_eq!(test.spans(), [(0, 1, 25, 2)]);
}

/// R 110, V 100 and three S slots whose estimates are all `e`.
fn scaled(e: u32) -> [(u32, char, u8); 3] {
    let mut test = Test::new(HEAD);
    // Slots 1, 3 and 5 are gaps between good slots of value e.
    for slot in (0..48).filter(|slot| ![1, 3, 5].contains(slot)) {
        test.deliver(slot, if slot < 7 { e } else { 0 }, 0);
    }
    test.redeliver(20, 100 - 4 * e, 0);
    test.register(0, 0);
    test.register(1, 110);
    assert_eq!(test.spans(), [(0, 1, 110, 1)]);
    [test.slot(1), test.slot(3), test.slot(5)]
}

#[test]
fn scaling_loses_nothing() {
    // Slot 6 is good too, so four slots of value e.
    let expected = [(3, 'S', 18), (3, 'S', 18), (4, 'S', 18)];
    assert_eq!(scaled(1), expected);
    assert_eq!(scaled(0), expected);
}

#[test]
fn days_and_heads() {
    assert_eq!(day_number(2000, 2, 29), Some(59));
    let on = |year, month, day, days| Head {
        year,
        month,
        day,
        days,
        ..HEAD
    };
    assert_eq!(on(2001, 2, 29, 1).shape(), Err(1));
    assert!(on(2099, 12, 31, 1).shape().is_ok());
    assert_eq!(on(2099, 12, 31, 2).shape(), Err(1));
    let mut lists = Lists::unopened(96, 2);
    assert_eq!(open(on(2099, 12, 31, 2), &mut lists), Err(1));
    let mut lists = Lists::unopened(48, 1);
    assert_eq!(open(on(2099, 12, 31, 1), &mut lists), Ok(()));
    assert_eq!(lists, Lists::zeroed(48, 1));
}

/// As 01 has it but for the layout, which is 3 since W10.
const WHOLE_TRAILER: [u8; 32] = [
    0xB7, 0x22, 0x01, 0x00, 0x1E, 0x03, 0x00, 0x00, 0x2F, 0x00, 0x00, 0x00, 0x01, 0x00, 0x00, 0x00,
    0x00, 0x00, 0x00, 0x00, 0xC0, 0x12, 0x00, 0x00, 0x00, 0x00, 0x00, 0x00, 0x00, 0x00, 0x00, 0x00,
];

#[test]
fn whole() {
    let mut test = Test::new(HEAD);
    for slot in (0..48).filter(|&slot| slot != 10) {
        test.deliver(slot, 100, 0);
    }
    let file = test.file();
    assert_eq!(file.len(), 6 * 48 + 32);
    assert_eq!(file[6 * 48..], WHOLE_TRAILER);
    assert_eq!(file[60..66], [100, 0, 0, 0, b'S', 2]);
    assert_eq!(file[66..72], [100, 0, 0, 0, b'A', 0]);
    assert_eq!(line(&file), "2024-05-01 1 30 47 1 0 4800");
    assert_eq!(reader::tables(&file), &file[..288]);
    let figures = Figures {
        first_day: 8887,
        days: 1,
        interval: 30,
        spans: 0,
        actual: 47,
        substituted: 1,
        none: 0,
        sum: 4800,
        layout: 3,
    };
    assert_eq!(reader::read(&file), Ok(figures));
    // The file as it was published before W10 is still read.
    let mut old = file.clone();
    old[6 * 48 + 5] = 1;
    assert_eq!(contents::before(&file), Ok(old.clone()));
    assert_eq!(
        reader::read(&old),
        Ok(Figures {
            layout: 1,
            ..figures
        })
    );
    assert_eq!(line(&old), line(&file));
}

#[test]
fn lines_of_other_files() {
    assert_eq!(line(&[]), "refused 8");
    assert_eq!(line(&[0; 65_536]), "refused 8");
    assert_eq!(line(&[0; 65_537]), "too long");
    let mut file = Test::new(HEAD).file();
    file[4] = b'X';
    assert_eq!(line(&file), "refused 9");
}

#[test]
fn late_is_no_refusal() {
    let mut lists = Lists::zeroed(48, 1);
    let mut deliver = |version| {
        book::deliver(
            HEAD,
            &mut lists.values,
            &mut lists.versions,
            &mut lists.statuses,
            &mut lists.counts,
            3,
            version,
            9,
            0,
        )
    };
    assert_eq!(deliver(5), Ok(book::Filed::Stored));
    assert_eq!(deliver(4), Ok(book::Filed::Late));
    assert_eq!(deliver(5), Ok(book::Filed::Repeat));
}
