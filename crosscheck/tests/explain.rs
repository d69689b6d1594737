//! How one slot came to its outcome: figures of 01 and 02, field by field.

use crosscheck::number::narrowed;
use crosscheck::second::explain::{
    DAYS, FIELDS, FILLED, Fields, LINE, NUMBER, OUTCOME, RULE, SCALED, SPAN, VALUES, explain,
    explain_code,
};
use crosscheck::second::head::Head;
use crosscheck::second::lists::List;

mod common;
use common::*;

const A: u64 = 65;
const F: u64 = 70;
const N: u64 = 78;
const S: u64 = 83;

/// What `fields` holds before a call.
const UNWRITTEN: u64 = 77;

fn fields(test: &Test, slot: usize) -> Fields {
    let fields = explain(test.head, &test.lists, narrowed(slot)).unwrap();
    let (value, letter, method) = test.slot(slot);
    let published = [value.into(), letter as u64, method.into()];
    assert_eq!(fields[OUTCOME..], published, "slot {slot}");
    fields
}

fn days(days: u32) -> Test {
    Test::new(Head { days, ..HEAD })
}

/// A day of 100 Wh a slot, but for these slots, which don't come.
fn day_without(lost: &[usize]) -> Test {
    let mut test = days(1);
    for slot in (0..48).filter(|slot| !lost.contains(slot)) {
        test.deliver(slot, 100, 0);
    }
    test
}

#[test]
fn a_good_slot() {
    let test = day_without(&[]);
    let mut expected = [0; FIELDS];
    expected[FILLED..LINE].copy_from_slice(&[100, A, 0]);
    expected[OUTCOME..].copy_from_slice(&[100, A, 0]);
    assert_eq!(fields(&test, 10), expected);
}

#[test]
fn the_causes_and_the_rules() {
    let mut test = day_without(&[5, 10, 20, 30, 40, 41, 42, 43, 44]);
    test.redeliver(6, 100, 2);
    test.deliver(10, 100, 1 + 4);
    test.deliver(20, 100, 4);
    test.deliver(30, 20_001, 0);
    test.agree(30, 99_999_999);
    for (slot, expected) in [
        (5, [1, 1, 0, A, 1]),
        (6, [0, 0, 100, A, 0]),
        (10, [2, 2, 100, S, 2]),
        (20, [3, 2, 100, S, 2]),
        (30, [4, 5, 99_999_999, F, 5]),
        (42, [1, 4, 0, N, 0]),
    ] {
        assert_eq!(fields(&test, slot)[..LINE], expected, "slot {slot}");
    }
}

#[test]
fn a_falling_line() {
    // 10, then three slots, then 4 gives 8, 7, 5.
    let mut test = day_without(&[20, 21, 22]);
    test.redeliver(19, 10, 0);
    test.redeliver(23, 4, 0);
    for (slot, j, value) in [(20, 1, 8), (21, 2, 7), (22, 3, 5)] {
        let mut expected = [0; FIELDS];
        expected[..LINE].copy_from_slice(&[1, 2, value, S, 2]);
        expected[LINE..NUMBER].copy_from_slice(&[10, 4, j, 3]);
        expected[OUTCOME..].copy_from_slice(&[value, S, 2]);
        assert_eq!(fields(&test, slot), expected, "slot {slot}");
    }
}

#[test]
fn an_agreed_slot_ends_a_run() {
    // So slot 20 has no good r, and no line.
    let mut test = day_without(&[20, 21]);
    test.agree(21, 7);
    let left = fields(&test, 20);
    assert_eq!((left[RULE], &left[LINE..NUMBER]), (4, &[0; 4][..]));
    test.lists.agreed_versions[21] = 0;
    test.lists.agreed[21] = 0;
    assert_eq!(fields(&test, 20)[LINE..NUMBER], [100, 100, 1, 2]);
}

/// Position 10 of the last day by references of these weeks before it, the nearest first;
/// none where that week's slot is lost.
fn weeks(references: &[Option<u32>]) -> (Test, usize) {
    let last = 7 * references.len();
    let mut test = days(narrowed::<u32>(last) + 1);
    for (back, value) in references.iter().enumerate() {
        if let &Some(value) = value {
            test.deliver((last - 7 * (back + 1)) * 48 + 10, value, 0);
        }
    }
    (test, last * 48 + 10)
}

#[test]
fn references_with_days_and_values() {
    // 01's table: 1045, 1089 give 1067.
    let (test, slot) = weeks(&[Some(1089), None, Some(1045)]);
    let found = fields(&test, slot);
    assert_eq!(found[..LINE], [1, 3, 1067, S, 3]);
    assert_eq!(found[LINE..NUMBER], [0; 4]);
    assert_eq!(found[NUMBER], 2);
    assert_eq!(found[DAYS..VALUES], [14, 0, 0, 0]);
    assert_eq!(found[VALUES..SPAN], [1089, 1045, 0, 0]);
    assert_eq!(found[SPAN..OUTCOME], [0; OUTCOME - SPAN]);

    let (test, slot) = weeks(&[Some(2079), Some(1995), Some(2310)]);
    let found = fields(&test, slot);
    assert_eq!((found[FILLED], found[NUMBER]), (2128, 3));
    assert_eq!(found[DAYS..VALUES], [14, 7, 0, 0]);
}

#[test]
fn the_search_stops_at_the_fourth() {
    let (test, slot) = weeks(&[Some(1), Some(2), None, Some(3), Some(4), Some(5)]);
    let found = fields(&test, slot);
    assert_eq!((found[FILLED], found[NUMBER]), (2, 4));
    assert_eq!(found[DAYS..VALUES], [35, 28, 14, 7]);
    assert_eq!(found[VALUES..SPAN], [1, 2, 3, 4]);
}

#[test]
fn a_holiday_refers_to_sundays() {
    // 2024-05-01 was a Wednesday, so days 4 and 11 are Sundays, and day 14 is a Wednesday.
    let mut test = days(15);
    for (day, value) in [(4, 40), (7, 70), (11, 110)] {
        test.deliver(day * 48 + 10, value, 0);
    }
    test.holiday(14);
    let found = fields(&test, 14 * 48 + 10);
    assert_eq!((found[FILLED], found[NUMBER]), (75, 2));
    assert_eq!(found[DAYS..VALUES], [11, 4, 0, 0]);
    assert_eq!(found[VALUES..SPAN], [110, 40, 0, 0]);
}

/// Three slots of the last day by one reference each, V 100, and an advance of 110.
fn three_lost(reference: u32) -> Test {
    let mut test = days(8);
    let last = 7 * 48;
    for position in 10..13 {
        test.deliver(position, reference, 0);
    }
    for position in (0..48).filter(|position| !(10..13).contains(position)) {
        test.deliver(last + position, 0, 0);
    }
    // Beside a slot that failed and was agreed there is no line.
    test.redeliver(last + 9, 0, 1);
    test.agree(last + 9, 100);
    test.register(7, 99_999_990);
    test.register(8, 100);
    test
}

#[test]
fn a_scaled_span() {
    // R 110, V 100, e 1, 1, 1 or 0, 0, 0: 3, 3, 4. W7 has shapes of 12 for 1.
    for (reference, e) in [(1, 12), (0, 1)] {
        let test = three_lost(reference);
        let slots = [(10, 0, 3), (11, 1, 3), (12, 2, 4)];
        for (position, before, value) in slots {
            let found = fields(&test, 7 * 48 + position);
            assert_eq!(found[..LINE], [1, 3, reference.into(), S, 3]);
            assert_eq!(found[SPAN..SCALED], [1, 7, 8, 110, 110, 110, 100, 1]);
            let sums = [1, 10, 3 * e, before * e, (before + 1) * e];
            assert_eq!(found[SCALED..OUTCOME], sums, "position {position}");
            assert_eq!(found[OUTCOME..], [value, S, 19]);
        }
        // Of the same span, but not scaled.
        let agreed = fields(&test, 7 * 48 + 9);
        assert_eq!(agreed[..LINE], [2, 5, 100, F, 5]);
        assert_eq!(agreed[SPAN..SCALED], [1, 7, 8, 110, 110, 110, 100, 1]);
        assert_eq!(agreed[SCALED..OUTCOME], [0; 5]);
    }
}

#[test]
fn shapes_keep_the_fraction() {
    // A line's shape is 12 × its value; means of 1/2 have 6 though their value is 0.
    let (mut test, slot) = weeks(&[Some(0), Some(1)]);
    for position in (0..48).filter(|&position| position != 10 && position != 30) {
        test.deliver(14 * 48 + position, 4, 0);
    }
    test.redeliver(14 * 48 + 9, 0, 1);
    test.agree(14 * 48 + 9, 0);
    test.register(14, 0);
    test.register(15, 45 * 4 + 9);
    let mean = fields(&test, slot);
    assert_eq!((mean[RULE], mean[FILLED]), (3, 0));
    assert_eq!(mean[SCALED..OUTCOME], [1, 9, 54, 0, 6]);
    assert_eq!(mean[OUTCOME..], [1, S, 19]);
    let line = fields(&test, 14 * 48 + 30);
    assert_eq!(line[LINE..NUMBER], [4, 4, 1, 1]);
    assert_eq!(line[SCALED..OUTCOME], [1, 9, 54, 6, 54]);
    assert_eq!(line[OUTCOME..], [8, S, 18]);
}

#[test]
fn ranges_and_the_advance_held_to() {
    let span = |reads: [(u32, u32); 2]| {
        let mut test = day_without(&[]);
        for (boundary, (reading, width)) in (0..).zip(reads) {
            test.register_wide(boundary, reading, width);
        }
        fields(&test, 0)[SPAN..SCALED].to_vec()
    };
    // V is 4800: within the range, below it, above it.
    let within = span([(1000, 50), (5790, 20)]);
    assert_eq!(within, [1, 0, 1, 4740, 4810, 4800, 4800, 0]);
    let below = span([(0, 5), (4806, 9)]);
    assert_eq!(below, [1, 0, 1, 4801, 4815, 4801, 4800, 3]);
    let above = span([(0, 9999), (4000, 9)]);
    assert_eq!(above, [1, 0, 1, 0, 4009, 4009, 4800, 3]);
    // Dial 99,999,990 then 15; and G + v over the dial.
    assert_eq!(span([(99_999_990, 0), (15, 0)])[3..6], [25, 25, 25]);
    assert_eq!(span([(10, 3), (5, 7)])[3..6], [0, 2, 2]);
}

#[test]
fn only_a_scaled_span_scales() {
    // R below V: state 3, and the line keeps its value.
    let mut test = day_without(&[10]);
    test.register(0, 0);
    test.register(1, 4699);
    let found = fields(&test, 10);
    assert_eq!(found[SPAN..SCALED], [1, 0, 1, 4699, 4699, 4699, 4700, 3]);
    assert_eq!(found[SCALED..OUTCOME], [0; 5]);
    assert_eq!(found[OUTCOME..], [100, S, 2]);
}

#[test]
fn refusals_in_their_order() {
    let test = day_without(&[10]);
    let ask = |head: Head, change: &dyn Fn(&mut Test), slot: u32, len: usize| {
        let mut changed = Test {
            head,
            lists: test.lists.clone(),
        };
        change(&mut changed);
        let mut fields = vec![UNWRITTEN; len];
        let code = explain_code(head, &changed.lists, slot, &mut fields);
        let unwritten = fields.iter().all(|&field| field == UNWRITTEN);
        assert_eq!(unwritten, code != 0, "answer {code}");
        code
    };
    let nothing = |_: &mut Test| {};
    let cell = |test: &mut Test| test.lists.statuses[40] = 8;
    let short = |test: &mut Test| test.lists.resize(List::Widths, 1);
    let bad = Head { days: 0, ..HEAD };
    assert_eq!(ask(HEAD, &nothing, 47, FIELDS), 0);
    assert_eq!(ask(bad, &short, 48, 33), 1);
    assert_eq!(ask(HEAD, &short, 48, FIELDS), 2);
    for len in [33, 35] {
        assert_eq!(ask(HEAD, &cell, 48, len), 2);
    }
    assert_eq!(ask(HEAD, &cell, 48, FIELDS), 3);
    assert_eq!(ask(HEAD, &nothing, u32::MAX, FIELDS), 3);
    assert_eq!(ask(HEAD, &cell, 0, FIELDS), 11);
    assert_eq!(ask(HEAD, &|test| test.lists.counts[0] += 1, 0, FIELDS), 11);
    assert_eq!(ask(HEAD, &|test| test.lists.agreed[3] = 1, 0, FIELDS), 11);
    assert_eq!(ask(HEAD, &|test| test.lists.widths[1] = 1, 0, FIELDS), 11);
}
