//! 02, W1: values agreed with the skipper.

use crosscheck::compare::damage::{Edit, edited, layout};
use crosscheck::compare::plain::Plain;
use crosscheck::second::book::Filed;
use crosscheck::second::contents;
use crosscheck::second::head::Head;
use crosscheck::second::line::line;
use crosscheck::second::lists::{List, Lists};
use crosscheck::second::reader::{Fault, check, read, tables};
use crosscheck::second::trailer;

mod common;
use common::*;

const MOST: u32 = 99_999_999;
const MAX: u32 = u32::MAX;

/// The file as W1 had it, in layout 1 or 2.
fn before(test: &Test) -> Vec<u8> {
    contents::before(&test.file()).unwrap()
}

/// The trailer's counts of A, of S and F, and of N slots.
fn counts(test: &Test) -> (u64, u64, u64) {
    let figures = read(&test.file()).unwrap();
    (figures.actual, figures.substituted, figures.none)
}

#[test]
fn each_cause_takes_the_agreed_value() {
    for (value, status) in [(9, 1), (9, 4), (20_001, 0), (MAX, 0), (9, 7)] {
        let mut test = Test::new(HEAD);
        test.deliver_all(100);
        test.redeliver(4, value, status);
        assert_eq!(test.slot(4), (100, 'S', 2));
        assert_eq!(layout(&before(&test)), 1);
        test.agree(4, MOST);
        assert_eq!(test.slot(4), (MOST, 'F', 5), "{value} {status}");
        assert_eq!(layout(&before(&test)), 2);
        assert_eq!(layout(&test.file()), 3);
        assert_eq!(counts(&test), (47, 1, 0));
    }
    let mut test = Test::new(HEAD);
    test.agree(4, 7);
    assert_eq!(test.slot(4), (7, 'F', 5), "a gap");
    assert_eq!(counts(&test), (0, 1, 47));
    // An agreed 0 is a value like any other.
    test.agree(5, 0);
    assert_eq!(test.slot(5), (0, 'F', 5));
    assert_eq!(counts(&test), (0, 2, 46));
}

#[test]
fn a_good_slot_keeps_its_delivered_value() {
    let mut test = Test::new(HEAD);
    test.deliver_all(100);
    test.agree(4, 7);
    test.redeliver(5, 100, 2);
    test.agree(5, 8);
    assert_eq!(test.slot(4), (100, 'A', 0));
    assert_eq!(test.slot(5), (100, 'A', 0), "an outage bit leaves it good");
    assert_eq!(layout(&before(&test)), 1, "no F slot");
    assert_eq!(line(&test.file()), "2024-05-01 1 30 48 0 0 4800");
}

#[test]
fn agreed_goes_before_the_outage_rule_and_lengthens_its_runs() {
    // 10 to 14 are gaps, the outage is at 9; 12 is agreed.
    let mut test = Test::new(HEAD);
    for slot in (0..48).filter(|slot| !(10..15).contains(slot)) {
        test.deliver(slot, 5, if slot == 9 { 2 } else { 0 });
    }
    test.agree(12, 50);
    for slot in [10, 11, 13, 14] {
        assert_eq!(test.slot(slot), (0, 'A', 1), "{slot}");
    }
    assert_eq!(test.slot(12), (50, 'F', 5));
    // All of the run but its far end agreed: it is still one run.
    for slot in [10, 11, 13] {
        test.agree(slot, 50);
    }
    assert_eq!(test.slot(14), (0, 'A', 1));
    assert_eq!(counts(&test), (44, 4, 0));
}

#[test]
fn an_agreed_slot_is_no_neighbour_of_a_line() {
    let mut test = Test::new(HEAD);
    test.deliver_all(10);
    test.redeliver(20, 10, 1);
    test.redeliver(21, 10, 1);
    test.agree(21, 10);
    assert_eq!(test.slot(20), (0, 'N', 0));
    test.redeliver(19, 10, 4);
    test.agree(19, 10);
    assert_eq!(test.slot(20), (0, 'N', 0));
}

#[test]
fn an_agreed_slot_is_no_reference() {
    let mut test = Test::new(Head { days: 15, ..HEAD });
    let at = |day: usize| day * 48 + 30;
    test.deliver(at(0), 77, 0);
    test.agree(at(7), 5000);
    assert_eq!(test.slot(at(7)), (5000, 'F', 5));
    assert_eq!(test.slot(at(14)), (77, 'S', 3));
}

/// Every slot delivered as 10 but 20, agreed as 30: V is 500.
fn one_agreed(advance: u32) -> Test {
    let mut test = Test::new(Head {
        tolerance: 5,
        ..HEAD
    });
    for slot in (0..48).filter(|&slot| slot != 20) {
        test.deliver(slot, 10, 0);
    }
    test.agree(20, 30);
    test.register(0, 0);
    test.register(1, advance);
    test
}

#[test]
fn v_sums_a_and_f() {
    for (advance, state) in [(500, 0), (495, 0), (505, 0), (494, 3), (506, 3)] {
        let test = one_agreed(advance);
        assert_eq!(test.spans(), [(0, 1, advance, state)]);
        assert_eq!(test.slot(20), (30, 'F', 5));
        assert!(read(&test.file()).is_ok());
    }
}

#[test]
fn only_s_slots_are_scaled() {
    for (advance, state, value, method) in [(600, 1, 110, 18), (490, 1, 0, 18), (489, 3, 10, 2)] {
        let mut test = one_agreed(advance);
        test.redeliver(30, 10, 1);
        // V is 490 now and e of slot 30 is 10.
        assert_eq!(test.spans(), [(0, 1, advance, state)]);
        assert_eq!(test.slot(20), (30, 'F', 5));
        assert_eq!(test.slot(30), (value, 'S', method));
        assert_eq!(counts(&test), (46, 2, 0));
        assert!(read(&test.file()).is_ok());
    }
}

#[test]
fn an_n_beside_an_f_is_open() {
    let mut test = one_agreed(500);
    test.redeliver(0, 10, 1);
    assert_eq!(test.spans(), [(0, 1, 500, 2)]);
    assert_eq!(counts(&test), (46, 1, 1));
}

#[test]
fn the_largest_sums_fit() {
    let mut test = Test::new(Head {
        days: 400,
        interval: 5,
        ..HEAD
    });
    for slot in 0..115_200 {
        test.agree(slot, MOST);
    }
    test.register(0, 0);
    test.register(400, 5);
    assert_eq!(test.spans(), [(0, 400, 5, 3)]);
    let figures = read(&test.file()).unwrap();
    assert_eq!(figures.substituted, 115_200);
    assert_eq!(figures.sum, 115_200 * u64::from(MOST));
    assert_eq!(figures.layout, 3);
    assert_eq!(read(&before(&test)).unwrap().layout, 2);
}

#[test]
fn the_version_rule_of_a_delivery() {
    let mut lists = Lists::zeroed(48, 1);
    assert_eq!(agree(HEAD, &mut lists, (5, 3, 100)), Ok(Filed::Stored));
    let before = lists.clone();
    assert_eq!(agree(HEAD, &mut lists, (5, 3, 100)), Ok(Filed::Repeat));
    assert_eq!(agree(HEAD, &mut lists, (5, 2, 100)), Ok(Filed::Late));
    assert_eq!(agree(HEAD, &mut lists, (5, 3, 101)), Err(10));
    assert_eq!(lists, before);
    // A version of its own: deliveries don't move it.
    assert_eq!(deliver(HEAD, &mut lists, (5, 1, 9, 0)), Ok(Filed::Stored));
    assert_eq!(agree(HEAD, &mut lists, (5, MAX, 0)), Ok(Filed::Stored));
    assert_eq!((lists.agreed[5], lists.agreed_versions[5]), (0, MAX));
    assert_eq!((lists.values[5], lists.versions[5]), (9, 1));
}

#[test]
fn refusals_in_their_order() {
    let mut lists = Lists::zeroed(48, 1);
    lists.agreed[47] = 100_000_000;
    let before = lists.clone();
    assert_eq!(agree(HEAD, &mut lists, (48, 0, MAX)), Err(3));
    assert_eq!(agree(HEAD, &mut lists, (47, 0, MAX)), Err(4));
    assert_eq!(agree(HEAD, &mut lists, (47, 1, 100_000_000)), Err(12));
    assert_eq!(agree(HEAD, &mut lists, (47, 1, MOST)), Err(11));
    assert_eq!(agree(HEAD, &mut lists, (46, 1, MAX)), Err(12));
    assert_eq!(lists, before);
    assert_eq!(agree(HEAD, &mut lists, (46, 1, MOST)), Ok(Filed::Stored));
    assert_eq!(deliver(HEAD, &mut lists, (47, 1, 0, 0)), Ok(Filed::Stored));
}

#[test]
fn eleven_in_the_two_lists() {
    for (value, version) in [
        (100_000_000, 1),
        (MAX, 7),
        (1, 0),
        (MOST, 0),
        (100_000_000, 0),
    ] {
        let mut lists = Lists::zeroed(48, 1);
        lists.write(List::Agreed, 3, value);
        lists.write(List::AgreedVersions, 3, version);
        let before = lists.clone();
        // 11 goes before late, repeat and 10, and before 7.
        for version in [1, 7, MAX] {
            assert_eq!(agree(HEAD, &mut lists, (3, version, 0)), Err(11));
        }
        assert_eq!(publish(HEAD, &lists, &mut []), Err(11));
        assert_eq!(publish(HEAD, &lists, &mut [0; 400]), Err(11));
        assert_eq!(lists, before);
        assert_eq!(agree(HEAD, &mut lists, (4, 1, 0)), Ok(Filed::Stored));
    }
    let mut lists = Lists::zeroed(48, 1);
    lists.agreed_versions[3] = 1;
    assert_eq!(publish(HEAD, &lists, &mut [0; 400]), Ok(320), "an agreed 0");
}

#[test]
fn the_plain_book_keeps_agreed_calls_apart() {
    let mut plain = Plain::default();
    plain.open(HEAD).unwrap();
    assert_eq!(plain.agree(HEAD, [5, 2, 9].into()), Ok(Filed::Stored));
    assert_eq!(plain.deliver(HEAD, [5, 1, 9, 0].into()), Ok(Filed::Stored));
    assert_eq!(plain.agree(HEAD, [5, 1, 8].into()), Ok(Filed::Late));
    assert_eq!(plain.agree(HEAD, [5, 2, 9].into()), Ok(Filed::Repeat));
    assert_eq!(plain.agree(HEAD, [5, 2, 8].into()), Err(10));
    assert_eq!(plain.agree(HEAD, [48, 0, MAX].into()), Err(3));
    assert_eq!(plain.agree(HEAD, [5, 0, MAX].into()), Err(4));
    assert_eq!(plain.agree(HEAD, [5, 3, MOST + 1].into()), Err(12));
    assert_eq!(plain.agreed(5), (9, 2));
    assert_eq!(plain.slot(5), (9, 1, 0));
}

/// What the reader finds in a file of layout 2 and state 0 with an F at slot 20, after
/// these edits.
fn after(edits: &[Edit]) -> Result<(), Fault> {
    let file = edited(&before(&one_agreed(500)), edits);
    let checked = check(&file).map(|_| ());
    assert_eq!(read(&file).err(), checked.err().map(Fault::number));
    assert_eq!(tables(&file).is_empty(), checked.is_err());
    checked
}

fn slot(at: usize, value: u32, letter: u8, method: u8) -> Edit {
    Edit::Slot {
        at,
        value,
        letter,
        method,
    }
}

fn layout_byte(value: u64) -> Edit {
    Edit::TrailerField {
        field: trailer::LAYOUT,
        value,
    }
}

#[test]
fn the_reader_knows_both_layouts() {
    assert_eq!(after(&[]), Ok(()));
    assert_eq!(after(&[layout_byte(1)]), Err(Fault::AgreedInLayout1));
    for value in [0, 4, 255] {
        assert_eq!(after(&[layout_byte(value)]), Err(Fault::Layout));
    }
    // Layout 3 wants a longer record.
    assert_eq!(after(&[layout_byte(3)]), Err(Fault::Distance));
    assert_eq!(after(&[Edit::Relayout(3)]), Ok(()));
    let plain = slot(20, 30, b'A', 0);
    assert_eq!(
        after(&[plain.clone(), Edit::Mend]),
        Err(Fault::NoneAgreedInLayout2)
    );
    assert_eq!(after(&[plain, Edit::Mend, layout_byte(1)]), Ok(()));
    assert_eq!(Fault::AgreedInLayout1.number(), 9);
    assert_eq!(Fault::NoneAgreedInLayout2.number(), 9);
    assert_eq!(Fault::Layout.number(), 8);
}

#[test]
fn agreed_records() {
    for value in [0, 1, MOST] {
        assert_eq!(after(&[slot(20, value, b'F', 5), Edit::Mend]), Ok(()));
    }
    for (value, letter, method) in [
        (100_000_000, b'F', 5),
        (MAX, b'F', 5),
        (0, b'F', 0),
        (0, b'F', 2),
        (0, b'F', 21),
        (0, b'A', 5),
        (0, b'S', 5),
        (0, b'N', 5),
        (0, b'f', 5),
    ] {
        let edit = slot(21, value, letter, method);
        assert_eq!(
            after(&[edit.clone(), Edit::Mend]),
            Err(Fault::Record),
            "{edit:?}"
        );
    }
    // F is counted with S, and is no S in a span of state 0.
    assert_eq!(after(&[slot(21, 10, b'F', 5), Edit::Mend]), Ok(()));
    assert_eq!(after(&[slot(21, 10, b'F', 5)]), Err(Fault::Counts));
}
