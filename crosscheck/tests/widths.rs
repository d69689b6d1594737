//! 02, W10: dials read through salt.

use crosscheck::compare::plain::Plain;
use crosscheck::second::book::Filed;
use crosscheck::second::contents::{self, Contents};
use crosscheck::second::head::Head;
use crosscheck::second::line::line;
use crosscheck::second::lists::Lists;
use crosscheck::second::reader::read;
use crosscheck::second::rules::Advances;

mod common;
use common::*;

const DIAL: u32 = 100_000_000;
const MAX: u32 = u32::MAX;

#[test]
fn opening_clears_the_widths() {
    let mut lists = Lists::unopened(48, 1);
    assert!(lists.widths.iter().all(|&width| width != 0));
    assert_eq!(open(HEAD, &mut lists), Ok(()));
    assert_eq!(lists.widths, [0, 0]);
}

#[test]
fn the_width_is_part_of_the_content() {
    let mut lists = Lists::zeroed(48, 1);
    for (read, answer, width) in [
        ((1, 3, 100, 9_999), Ok(Filed::Stored), 9_999),
        ((1, 3, 100, 9_999), Ok(Filed::Repeat), 9_999),
        ((1, 3, 100, 9_998), Err(10), 9_999),
        ((1, 3, 100, 0), Err(10), 9_999),
        ((1, 3, 101, 9_999), Err(10), 9_999),
        ((1, 2, 100, 0), Ok(Filed::Late), 9_999),
        ((1, 4, 100, 0), Ok(Filed::Stored), 0),
        ((1, 4, 100, 1), Err(10), 0),
        ((1, 5, 100, 7), Ok(Filed::Stored), 7),
    ] {
        assert_eq!(register_wide(HEAD, &mut lists, read), answer, "{read:?}");
        assert_eq!(lists.widths, [0, width], "{read:?}");
    }
    assert_eq!((lists.readings[1], lists.read_versions[1]), (100, 5));
}

#[test]
fn refusals_in_their_order() {
    let mut lists = Lists::zeroed(48, 1);
    lists.widths[1] = 10_000;
    let before = lists.clone();
    for (read, number) in [
        ((2, 0, DIAL, MAX), 3),
        ((1, 0, DIAL, MAX), 4),
        ((1, 1, DIAL, MAX), 6),
        ((1, 1, 5, MAX), 17),
        ((1, 1, 5, 10_000), 17),
        // Over 16 bits, and 0 or 1 in 16.
        ((1, 1, 5, 65_536), 17),
        ((1, 1, 5, 65_537), 17),
        ((1, 1, 5, 9_999), 11),
        ((0, 1, 5, 10_000), 17),
    ] {
        assert_eq!(
            register_wide(HEAD, &mut lists, read),
            Err(number),
            "{read:?}"
        );
    }
    assert_eq!(lists, before);
    let stored = register_wide(HEAD, &mut lists, (0, 1, 5, 9_999));
    assert_eq!(stored, Ok(Filed::Stored));
}

#[test]
fn eleven_in_the_widths() {
    for (width, version) in [(10_000, 1), (65_535, 7), (1, 0), (9_999, 0), (10_000, 0)] {
        let mut lists = Lists::zeroed(48, 1);
        lists.widths[1] = width;
        lists.read_versions[1] = version;
        let before = lists.clone();
        // 11 goes before late, repeat and 10, and before 7.
        for version in [1, 7, MAX] {
            let read = (1, version, 0, 0);
            assert_eq!(register_wide(HEAD, &mut lists, read), Err(11));
        }
        assert_eq!(publish(HEAD, &lists, &mut []), Err(11));
        assert_eq!(publish(HEAD, &lists, &mut [0; 400]), Err(11));
        assert_eq!(lists, before);
        // A read looks in its own cell only.
        let other = register_wide(HEAD, &mut lists, (0, 1, 0, 0));
        assert_eq!(other, Ok(Filed::Stored));
    }
    let mut lists = Lists::zeroed(48, 1);
    (lists.widths[1], lists.read_versions[1]) = (9_999, 1);
    assert_eq!(publish(HEAD, &lists, &mut [0; 400]), Ok(320));
}

#[test]
fn two_is_a_list_of_other_than_d_and_one_widths() {
    for len in [0, 1, 3, 48] {
        let mut lists = Lists::zeroed(48, 1);
        lists.widths.resize(len, 0);
        let before = lists.clone();
        assert_eq!(open(HEAD, &mut lists), Err(2));
        let read = (MAX, 0, MAX, MAX);
        assert_eq!(register_wide(HEAD, &mut lists, read), Err(2));
        assert_eq!(publish(HEAD, &lists, &mut []), Err(2));
        assert_eq!(lists, before);
        // The other calls are not lent them.
        assert_eq!(deliver(HEAD, &mut lists, (0, 1, 0, 0)), Ok(Filed::Stored));
    }
}

/// The ends of the range between two reads, each a reading and a width.
fn ends(earlier: (u32, u32), later: (u32, u32)) -> (u32, u32) {
    let mut test = Test::new(HEAD);
    test.register_wide(0, earlier.0, earlier.1);
    test.register_wide(1, later.0, later.1);
    let [(0, 1, lowest, highest, 2)] = test.ranges()[..] else {
        panic!("one open span");
    };
    (lowest, highest)
}

#[test]
fn ranges() {
    // G is 500: from G − u to G + v.
    assert_eq!(ends((100, 0), (600, 0)), (500, 500));
    assert_eq!(ends((100, 30), (600, 0)), (470, 500));
    assert_eq!(ends((100, 0), (600, 20)), (500, 520));
    assert_eq!(ends((100, 30), (600, 20)), (470, 520));
    // Not below 0.
    assert_eq!(ends((100, 499), (600, 0)), (1, 500));
    assert_eq!(ends((100, 500), (600, 0)), (0, 500));
    assert_eq!(ends((100, 501), (600, 0)), (0, 500));
    assert_eq!(ends((100, 9_999), (100, 9_999)), (0, 9_999));
    // G of a dial that wrapped: 25.
    assert_eq!(ends((DIAL - 10, 5), (15, 5)), (20, 30));
}

#[test]
fn ranges_over_the_dials_end() {
    // G is 99,999,995.
    assert_eq!(ends((50, 7), (45, 4)), (99_999_988, 99_999_999));
    assert_eq!(ends((50, 7), (45, 5)), (0, 0));
    assert_eq!(ends((50, 7), (45, 6)), (0, 1));
    assert_eq!(ends((50, 0), (45, 6)), (0, 1));
    assert_eq!(ends((50, 9_999), (45, 9_999)), (0, 9_994));
    // Without a width at the later read it never gets there.
    assert_eq!(ends((50, 9_999), (49, 0)), (99_990_000, 99_999_999));
    assert_eq!(ends((50, 0), (49, 9_999)), (0, 9_998));
}

#[test]
fn r_is_the_least_advance_that_is_at_least_v() {
    let range = Advances {
        lowest: 10,
        highest: 20,
    };
    for (v, r) in [
        (0, 10),
        (9, 10),
        (10, 10),
        (11, 11),
        (19, 19),
        (20, 20),
        (21, 20),
        (u64::MAX, 20),
    ] {
        assert_eq!(range.fitted(v), r, "{v}");
    }
    assert_eq!(Advances::one(7).fitted(3), 7);
    assert_eq!(Advances::one(7).fitted(8), 7);
}

/// Every slot but 20 delivered as 10: V is 470 and e is 120. The range is 30 wide.
fn one_substituted(lowest: u32) -> Test {
    let mut test = Test::new(Head {
        tolerance: 1000,
        ..HEAD
    });
    for slot in (0..48).filter(|&slot| slot != 20) {
        test.deliver(slot, 10, 0);
    }
    test.register_wide(0, 99_999_999, 10);
    test.register_wide(1, (99_999_999 + lowest + 10) % DIAL, 20);
    test
}

#[test]
fn a_substituted_slot_takes_what_the_range_asks_for() {
    // Lowest, state, and the slot: from V to R.
    for (lowest, state, slot) in [
        (500, 1, (30, 'S', 18)),
        (471, 1, (1, 'S', 18)),
        (470, 1, (0, 'S', 18)),
        (469, 1, (0, 'S', 18)),
        (440, 1, (0, 'S', 18)),
        // The tolerance doesn't help.
        (439, 3, (10, 'S', 2)),
        (100, 3, (10, 'S', 2)),
    ] {
        let test = one_substituted(lowest);
        let expected = [(0, 1, lowest, lowest + 30, state)];
        assert_eq!(test.ranges(), expected);
        assert_eq!(test.slot(20), slot, "{lowest}");
        assert!(read(&test.file()).is_ok());
    }
}

#[test]
fn an_n_is_open_whatever_the_range() {
    let mut test = one_substituted(470);
    test.redeliver(0, 10, 1);
    assert_eq!(test.ranges(), [(0, 1, 470, 500, 2)]);
    assert_eq!(test.slot(20), (10, 'S', 2));
}

/// Delivered as 10 all day, V 480, with a range 30 wide.
fn complete(tolerance: u32, lowest: u32) -> Test {
    let mut test = Test::new(Head { tolerance, ..HEAD });
    test.deliver_all(10);
    test.register_wide(0, 7, 20);
    test.register_wide(1, 27 + lowest, 10);
    test
}

#[test]
fn state_0_where_some_advance_is_within_t() {
    for (tolerance, lowest, state) in [
        (0, 480, 0),
        (0, 481, 3),
        (0, 465, 0),
        (0, 450, 0),
        (0, 449, 3),
        (5, 485, 0),
        (5, 486, 3),
        (5, 445, 0),
        (5, 444, 3),
        (1_000_000, 0, 0),
        (1_000_000, 1_000_480, 0),
        (1_000_000, 1_000_481, 3),
    ] {
        let test = complete(tolerance, lowest);
        let expected = [(0, 1, lowest, lowest + 30, state)];
        assert_eq!(test.ranges(), expected, "t {tolerance}");
        assert_eq!(test.slot(5), (10, 'A', 0));
    }
}

#[test]
fn a_read_counts_for_both_its_spans() {
    let mut test = Test::new(Head { days: 2, ..HEAD });
    test.register_wide(0, 0, 1);
    test.register_wide(1, 100, 20);
    test.register_wide(2, 300, 3);
    let expected = [(0, 1, 99, 120, 2), (1, 2, 180, 203, 2)];
    assert_eq!(test.ranges(), expected);
}

#[test]
fn a_file_of_layout_3() {
    let test = complete(0, 470);
    let file = test.file();
    assert_eq!(file.len(), 6 * 48 + 14 + 32);
    let record = [0, 0, 1, 0, 0xD6, 1, 0, 0, 0xF4, 1, 0, 0, 0, 0];
    assert_eq!(file[288..302], record);
    let trailer = &file[302..];
    assert_eq!(trailer[5..8], [3, 1, 0]);
    assert_eq!(trailer[28..], [14, 0, 0, 0]);
    assert_eq!(line(&file), "2024-05-01 1 30 48 0 0 480");
    let figures = read(&file).unwrap();
    assert_eq!((figures.layout, figures.spans), (3, 1));
}

#[test]
fn files_of_layouts_1_and_2_are_written_as_they_were() {
    let mut agreed = one_substituted(500);
    agreed.redeliver(30, 0, 1);
    agreed.agree(30, 10);
    for (test, layout) in [(one_substituted(500), 1), (agreed, 2)] {
        let file = test.file();
        let old = contents::before(&file).unwrap();
        assert_eq!(old.len(), file.len() - 4);
        assert_eq!(old[288..298], [0, 0, 1, 0, 0xF4, 1, 0, 0, 1, 0]);
        let gives = Contents::of(&old).unwrap();
        assert_eq!(gives.frame.layout, layout);
        assert_eq!(gives.spans[0].advances, Advances::one(500));
        assert_eq!(gives.file(), old);
        // Layout 3 takes an F or none.
        let whole = Contents::of(&file).unwrap();
        assert_eq!(whole.frame.layout, 3);
        assert_eq!(whole.slots, gives.slots);
        assert_eq!(whole.file(), file);
    }
}

#[test]
fn what_a_refused_file_gives() {
    let mut file = complete(0, 470).file();
    assert_eq!(Contents::of(&file[1..]), Err(8));
    file[4] = b'X';
    assert_eq!(Contents::of(&file), Err(9));
}

#[test]
fn the_plain_book_keeps_widths() {
    let mut plain = Plain::default();
    plain.open(HEAD).unwrap();
    assert_eq!(
        plain.register(HEAD, [1, 2, 9, 30].into()),
        Ok(Filed::Stored)
    );
    assert_eq!(
        plain.register(HEAD, [1, 2, 9, 30].into()),
        Ok(Filed::Repeat)
    );
    assert_eq!(plain.register(HEAD, [1, 2, 9, 31].into()), Err(10));
    assert_eq!(plain.register(HEAD, [1, 1, 9, 31].into()), Ok(Filed::Late));
    assert_eq!(plain.register(HEAD, [1, 3, DIAL, 10_000].into()), Err(6));
    assert_eq!(plain.register(HEAD, [1, 3, 9, 10_000].into()), Err(17));
    assert_eq!(plain.register(HEAD, [1, 3, 9, 65_536].into()), Err(17));
    assert_eq!(plain.boundary(1), (9, 2, 30));
}
