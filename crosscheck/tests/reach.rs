//! 02, W14: how far one late figure reaches. In each small book one clause's slots move
//! and no others beside i, so a sentence without that clause is wrong.

use crosscheck::number::narrowed;
use crosscheck::second::book::Filed;
use crosscheck::second::head::{Head, Shape};
use crosscheck::second::lists::Lists;
use crosscheck::second::reach::{Books, Moved, Sentence, W14, moved};

mod common;
use common::*;

/// The books before and after one more delivery, and what moved.
struct Late {
    shape: Shape,
    before: Lists,
    after: Lists,
    i: usize,
    moved: Moved,
}

fn late(mut test: Test, i: usize, value: u32, status: u8) -> Late {
    let shape = test.head.shape().unwrap();
    let (before, file) = (test.lists.clone(), test.file());
    let delivery = (narrowed(i), before.versions[i] + 1, value, status);
    let stored = deliver(test.head, &mut test.lists, delivery);
    assert_eq!(stored, Ok(Filed::Stored));
    Late {
        moved: moved(&shape, &file, &test.file()).unwrap(),
        shape,
        before,
        after: test.lists,
        i,
    }
}

impl Late {
    fn allowed(&self, sentence: Sentence) -> bool {
        let books = Books {
            shape: &self.shape,
            before: &self.before,
            after: &self.after,
            i: self.i,
        };
        books.reach(&sentence).outside(&self.moved).is_none()
    }

    /// These slots and spans moved, as W14 allows and the other sentence doesn't.
    fn refutes(&self, sentence: Sentence, slots: &[usize], spans: &[usize]) {
        assert_eq!(self.moved.slots, slots);
        assert_eq!(self.moved.spans, spans);
        assert!(self.allowed(W14));
        assert!(!self.allowed(sentence), "{sentence:?}");
    }
}

const NO_RUNS: Sentence = Sentence {
    holding: false,
    touching: false,
    ..W14
};
const NO_SPANS: Sentence = Sentence {
    spans: false,
    ..W14
};

/// Delivered as 10 but for these slots.
fn all_but(head: Head, lost: &[usize]) -> Test {
    let mut test = Test::new(head);
    for slot in (0..test.lists.values.len()).filter(|slot| !lost.contains(slot)) {
        test.deliver(slot, 10, 0);
    }
    test
}

#[test]
fn i_itself() {
    let late = late(all_but(HEAD, &[]), 20, 11, 0);
    assert_eq!(late.moved.slots, [20]);
    assert!(late.allowed(W14));
    let same = all_but(HEAD, &[]);
    assert_eq!(self::late(same, 20, 10, 2).moved, Moved::default());
}

#[test]
fn a_run_that_touches_i() {
    // A line from i to 10, before it or behind it.
    let touching = Sentence {
        touching: false,
        ..W14
    };
    for sentence in [NO_RUNS, touching] {
        let behind = late(all_but(HEAD, &[10, 11]), 9, 40, 0);
        behind.refutes(sentence, &[9, 10, 11], &[]);
        let before = late(all_but(HEAD, &[10, 11]), 12, 40, 0);
        before.refutes(sentence, &[10, 11, 12], &[]);
    }
}

#[test]
fn a_run_that_holds_i() {
    // 10 to 12 are a line; then 11 comes, failed and with the outage bit: 10 and 12 are
    // zero, and 11 has no line.
    let late = late(all_but(HEAD, &[10, 11, 12]), 11, 10, 1 | 2);
    let holding = Sentence {
        holding: false,
        ..W14
    };
    late.refutes(NO_RUNS, &[10, 11, 12], &[]);
    late.refutes(holding, &[10, 11, 12], &[]);
}

#[test]
fn a_run_of_one_of_the_two_books() {
    // Good, then failed: the run holds i in the book after. Five slots have no line.
    let after = late(all_but(HEAD, &[10, 11, 13, 14]), 12, 10, 1);
    after.refutes(NO_RUNS, &[10, 11, 12, 13, 14], &[]);
    // And in the book before, the other way round.
    let before = late(all_but(HEAD, &[10, 11, 12, 13, 14]), 12, 10, 0);
    before.refutes(NO_RUNS, &[10, 11, 12, 13, 14], &[]);
}

/// One position of a long book: delivered on day 0, agreed on all days but the last, which
/// it is a gap on. The slot before it is good each day, so that no run is longer.
fn one_position(head: Head) -> Test {
    let mut test = Test::new(head);
    let days = head.days as usize;
    test.deliver(20, 10, 0);
    for day in 0..days {
        test.deliver(48 * day + 19, 10, 0);
        test.deliver(48 * day + 21, 10, 0);
        // Neither line nor zero: an agreed slot behind it.
        test.redeliver(48 * day + 21, 10, 1);
        test.agree(48 * day + 21, 10);
    }
    for day in 1..days - 1 {
        test.agree(48 * day + 20, 10);
    }
    test
}

#[test]
fn fifty_two_weeks_later() {
    let head = Head { days: 365, ..HEAD };
    let late = late(one_position(head), 20, 50, 0);
    let weeks = Sentence { weeks: 357, ..W14 };
    late.refutes(weeks, &[20, 364 * 48 + 20], &[]);
}

#[test]
fn not_fifty_three_weeks_later() {
    let head = Head { days: 372, ..HEAD };
    let late = late(one_position(head), 20, 50, 0);
    assert_eq!(late.moved.slots, [20]);
}

/// A Sunday.
const SUNDAY: Head = Head {
    year: 2000,
    month: 1,
    day: 2,
    ..HEAD
};

#[test]
fn a_holiday_370_days_after_a_sunday() {
    let mut test = one_position(Head {
        days: 371,
        ..SUNDAY
    });
    test.holiday(370);
    let late = late(test, 20, 50, 0);
    for sundays in [0, 364, 369] {
        let sentence = Sentence { sundays, ..W14 };
        late.refutes(sentence, &[20, 370 * 48 + 20], &[]);
    }
}

#[test]
fn a_holiday_looks_at_sundays_only() {
    // Seven days after a Monday: a reference for an ordinary day alone.
    let monday = Head {
        day: 3,
        days: 8,
        ..SUNDAY
    };
    let late_on = |holiday: bool| {
        let mut test = one_position(monday);
        if holiday {
            test.holiday(7);
        }
        late(test, 20, 50, 0)
    };
    assert_eq!(late_on(false).moved.slots, [20, 7 * 48 + 20]);
    assert_eq!(late_on(true).moved.slots, [20]);
    // Three days after a Sunday, on a holiday.
    let mut test = one_position(Head { days: 4, ..SUNDAY });
    test.holiday(3);
    let late = late(test, 20, 50, 0);
    let sentence = Sentence { sundays: 2, ..W14 };
    late.refutes(sentence, &[20, 3 * 48 + 20], &[]);
}

#[test]
fn slots_of_a_span_that_holds_i() {
    // 10 and 30 are lines, scaled; i is in no run.
    let mut test = all_but(HEAD, &[10, 30]);
    test.register(0, 0);
    test.register(1, 600);
    let late = late(test, 20, 50, 0);
    late.refutes(NO_SPANS, &[10, 20, 30], &[]);
}

#[test]
fn a_span_that_holds_i() {
    let mut test = all_but(HEAD, &[]);
    test.register(0, 0);
    test.register(1, 480);
    // State 0, then 3.
    let late = late(test, 20, 50, 0);
    late.refutes(NO_SPANS, &[20], &[0]);
}

#[test]
fn slots_of_a_span_that_holds_a_later_week() {
    // Five slots of day 7 by references, fitted to the dial; i is their first one's.
    let lost: Vec<usize> = (7 * 48 + 10..7 * 48 + 15).collect();
    let mut test = all_but(Head { days: 8, ..HEAD }, &lost);
    test.register(7, 0);
    test.register(8, 43 * 10 + 100);
    let late = late(test, 10, 60, 0);
    // e 60 and 10 each: 60, and 10 for the others; before it 20 each.
    let slots = [&[10], &lost[..]].concat();
    late.refutes(NO_SPANS, &slots, &[]);
}

#[test]
fn slots_of_a_span_that_holds_a_runs_slot() {
    // A line over midnight from i on day 0; day 1 is fitted, and has another line.
    let mut test = all_but(Head { days: 2, ..HEAD }, &[47, 48, 60]);
    test.register(1, 0);
    test.register(2, 46 * 10 + 40);
    // Before: e 10 and 10, so 20 each. After: the line is 40, 25 and 10 at its end.
    let late = late(test, 46, 55, 0);
    late.refutes(NO_SPANS, &[46, 47, 48, 60], &[]);
}
