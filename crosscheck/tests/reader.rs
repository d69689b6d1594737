//! 01, The published file: the reader accepts every published file and refuses others.

use crosscheck::compare::damage::{Bases, Edit, FIRST, HIGHEST, LAST, LOWEST, edited};
use crosscheck::second::contents;
use crosscheck::second::head::Head;
use crosscheck::second::reader::{Fault, check, read, tables};
use crosscheck::second::trailer::{
    ACTUAL, DAYS, DISTANCE, FIRST_DAY, INTERVAL, LAYOUT, NONE, SPANS, SUBSTITUTED, SUM,
};

mod common;
use common::*;

/// Days 0 (agrees), 1 (scaled), 2 (open), 3 (disagrees), and 4 outside any span.
fn five_days() -> Test {
    let mut test = Test::new(Head { days: 5, ..HEAD });
    for slot in 0..5 * 48 {
        let lost = [60, 62, 100, 101, 102, 103, 104, 150, 200];
        if !lost.contains(&slot) {
            test.deliver(slot, 10, 0);
        }
    }
    for (boundary, reading) in [(0, 0), (1, 480), (2, 1000), (3, 1480), (4, 1490)] {
        test.register(boundary, reading);
    }
    let states: Vec<u8> = test.spans().iter().map(|span| span.3).collect();
    assert_eq!(states, [0, 1, 2, 3]);
    test
}

const SLOTS: usize = 5 * 48;

fn after(edits: &[Edit]) -> Result<(), Fault> {
    after_of(&five_days().file(), edits)
}

/// The same file in layout 1.
fn after_before(edits: &[Edit]) -> Result<(), Fault> {
    after_of(&contents::before(&five_days().file()).unwrap(), edits)
}

fn after_of(file: &[u8], edits: &[Edit]) -> Result<(), Fault> {
    let file = edited(file, edits);
    let checked = check(&file).map(|_| ());
    assert_eq!(read(&file).err(), checked.err().map(Fault::number));
    assert_eq!(tables(&file).is_empty(), checked.is_err());
    checked
}

fn slot(at: usize, value: u32, letter: u8, method: u8) -> Edit {
    Edit::Slot {
        at,
        value,
        letter,
        method,
    }
}

fn span(span: usize, field: (usize, usize), value: u64) -> Edit {
    Edit::SpanField { span, field, value }
}

fn trailer(field: (usize, usize), value: u64) -> Edit {
    Edit::TrailerField { field, value }
}

#[test]
fn a_published_file_is_accepted() {
    assert_eq!(after(&[]), Ok(()));
    let file = five_days().file();
    assert_eq!(tables(&file), &file[..SLOTS * 6 + 56]);
    assert!(std::ptr::eq(tables(&file).as_ptr(), file.as_ptr()));
    assert_eq!(after_before(&[]), Ok(()));
    let old = contents::before(&file).unwrap();
    assert_eq!(tables(&old), &old[..SLOTS * 6 + 40]);
}

#[test]
fn any_length_but_its_own_is_refused_8() {
    let file = five_days().file();
    for len in 0..file.len() {
        assert_eq!(read(&file[..len]), Err(8), "first {len} bytes");
    }
    for start in 1..file.len() {
        assert_eq!(read(&file[start..]), Err(8), "from byte {start}");
    }
    assert_eq!(after(&[Edit::Prepend(vec![0])]), Err(Fault::Length));
    assert_eq!(read(&[]), Err(8));
}

#[test]
fn trailer_fields() {
    let cases = [
        (FIRST_DAY, 36_525, Fault::FirstDay),
        (FIRST_DAY, 65_535, Fault::FirstDay),
        (FIRST_DAY, 36_521, Fault::Days),
        (DAYS, 0, Fault::Days),
        (DAYS, 401, Fault::Days),
        (DAYS, 65_535, Fault::Days),
        (DAYS, 4, Fault::Length),
        (INTERVAL, 0, Fault::Interval),
        (INTERVAL, 10, Fault::Interval),
        (INTERVAL, 15, Fault::Length),
        (LAYOUT, 0, Fault::Layout),
        (LAYOUT, 4, Fault::Layout),
        (SPANS, 3, Fault::Distance),
        (DISTANCE, u64::MAX, Fault::Distance),
        (ACTUAL, 0, Fault::Counts),
        (SUBSTITUTED, 7, Fault::Counts),
        (NONE, u64::MAX, Fault::Counts),
        (SUM, 0, Fault::Sum),
        (SUM, u64::MAX, Fault::Sum),
    ];
    for (field, value, fault) in cases {
        let edit = [trailer(field, value)];
        assert_eq!(after(&edit), Err(fault), "{field:?} {value}");
        assert_eq!(after_before(&edit), Err(fault), "{field:?} {value}");
    }
    // The last first day for five days.
    assert_eq!(after(&[trailer(FIRST_DAY, 36_520)]), Ok(()));
}

#[test]
fn the_distance_is_that_of_the_layout() {
    // Four spans of 14 bytes, or of 10.
    for distance in [40, 55, 57] {
        let edit = [trailer(DISTANCE, distance)];
        assert_eq!(after(&edit), Err(Fault::Distance));
    }
    for distance in [39, 41, 56] {
        let edit = [trailer(DISTANCE, distance)];
        assert_eq!(after_before(&edit), Err(Fault::Distance));
    }
    assert_eq!(
        after(&[trailer(SPANS, 65_535), trailer(DISTANCE, 917_490)]),
        Err(Fault::Length)
    );
    assert_eq!(
        after_before(&[trailer(SPANS, 65_535), trailer(DISTANCE, 655_350)]),
        Err(Fault::Length)
    );
}

#[test]
fn layout_bytes() {
    let layout = |value| trailer(LAYOUT, value);
    assert_eq!(after(&[layout(1)]), Err(Fault::Distance));
    assert_eq!(after(&[layout(2)]), Err(Fault::Distance));
    assert_eq!(after_before(&[layout(2)]), Err(Fault::NoneAgreedInLayout2));
    assert_eq!(after_before(&[layout(3)]), Err(Fault::Distance));
    // Five spans of 14 bytes are as long as seven of 10, so here it is 9.
    let mut five = five_days();
    five.register(5, 1970);
    let seven = [layout(1), trailer(SPANS, 7)];
    let found = after_of(&five.file(), &seven);
    assert_eq!(found.map_err(Fault::number), Err(9));
    assert_eq!(after(&[Edit::Relayout(1)]), Ok(()));
    assert_eq!(after_before(&[Edit::Relayout(3)]), Ok(()));
    // Without spans a file of layout 1 is one of layout 3 but for the byte.
    let file = Test::new(HEAD).file();
    for value in [1, 3] {
        assert_eq!(after_of(&file, &[layout(value)]), Ok(()));
    }
    let two = after_of(&file, &[layout(2)]);
    assert_eq!(two, Err(Fault::NoneAgreedInLayout2));
}

/// With this record in slot 220, which lies outside any span.
fn recorded(value: u32, letter: u8, method: u8) -> Result<(), Fault> {
    after(&[slot(220, value, letter, method), Edit::Mend])
}

#[test]
fn slot_records_of_no_kind() {
    for (value, letter, method) in [
        (0, b'A', 2),
        (0, b'S', 0),
        (0, b'S', 1),
        (0, b'S', 17),
        (0, b'N', 1),
        (0, b'a', 0),
        (1, b'A', 1),
        (1, b'N', 0),
    ] {
        assert_eq!(recorded(value, letter, method), Err(Fault::Record));
    }
}

#[test]
fn slot_records() {
    for (value, letter, method) in [
        (0, b'A', 1),
        (0, b'N', 0),
        (u32::MAX, b'A', 0),
        (u32::MAX, b'S', 2),
        (u32::MAX, b'S', 3),
    ] {
        assert_eq!(recorded(value, letter, method), Ok(()));
    }
    assert_eq!(recorded(1, b'S', 18), Err(Fault::ScaledOutside));
    assert_eq!(recorded(1, b'S', 19), Err(Fault::ScaledOutside));
    // Slot 0 lies in the span of state 0.
    assert_eq!(after(&[slot(0, 11, b'A', 0), Edit::Mend]), Ok(()));
    assert_eq!(after(&[slot(0, 11, b'A', 0)]), Err(Fault::Sum));
    assert_eq!(after(&[slot(220, 10, b'S', 2)]), Err(Fault::Counts));
}

#[test]
fn span_records() {
    let cases = [
        (0, FIRST, 1, Fault::SpanBounds),
        (3, LAST, 6, Fault::SpanBounds),
        (3, LAST, 65_535, Fault::SpanBounds),
        (0, FIRST, 65_535, Fault::SpanBounds),
        (1, FIRST, 0, Fault::SpanChain),
        (3, FIRST, 2, Fault::SpanChain),
    ];
    for (at, field, value, fault) in cases {
        let edit = [span(at, field, value)];
        assert_eq!(after(&edit), Err(fault), "{at} {field:?} {value}");
        assert_eq!(after_before(&edit), Err(fault), "{at} {field:?} {value}");
    }
    assert_eq!(after(&[span(3, LAST, 5)]), Ok(()));
    assert_eq!(after_before(&[span(3, LAST, 5)]), Ok(()));
}

#[test]
fn states_of_spans() {
    let cases = [
        (0, 4, Fault::State),
        (0, 255, Fault::State),
        (0, 2, Fault::OpenState),
        (2, 3, Fault::OpenState),
        (0, 1, Fault::ScaledState),
        (1, 3, Fault::ScaledState),
        (1, 0, Fault::ScaledState),
        (3, 0, Fault::AgreesWithSubstituted),
    ];
    for (at, value, fault) in cases {
        let found = [
            after(&[span(at, (12, 1), value)]),
            after_before(&[span(at, (8, 1), value)]),
        ];
        assert_eq!(found, [Err(fault); 2], "{at} {value}");
    }
    assert_eq!(after(&[span(0, (13, 1), 1)]), Err(Fault::LastByte));
    assert_eq!(after_before(&[span(0, (9, 1), 1)]), Err(Fault::LastByte));
    // The tolerance is not in the file.
    assert_eq!(after(&[span(0, (12, 1), 3)]), Ok(()));
    assert_eq!(after_before(&[span(0, (8, 1), 3)]), Ok(()));
}

#[test]
fn advances_of_spans() {
    // One advance, free in the states but 1.
    let old = |at, value| after_before(&[span(at, LOWEST, value)]);
    assert_eq!(old(0, 99_999_999), Ok(()));
    assert_eq!(old(3, 100_000_000), Err(Fault::Advance));
    assert_eq!(old(1, 519), Err(Fault::ScaledSum));
    assert_eq!(old(1, 521), Err(Fault::ScaledSum));
    // Lowest and highest.
    let new = |at, low, high| after(&[span(at, LOWEST, low), span(at, HIGHEST, high)]);
    assert_eq!(new(0, 0, 99_999_999), Ok(()));
    assert_eq!(new(0, 99_999_999, 99_999_999), Ok(()));
    assert_eq!(new(0, 0, 0), Ok(()));
    assert_eq!(new(0, 0, 100_000_000), Err(Fault::Advance));
    assert_eq!(new(3, 0, u64::MAX), Err(Fault::Advance));
    assert_eq!(new(3, 100_000_000, 99_999_999), Err(Fault::AdvanceOrder));
    assert_eq!(new(2, 1, 0), Err(Fault::AdvanceOrder));
    // The scaled span's values sum to 520.
    for (low, high) in [(520, 520), (0, 520), (520, 99_999_999), (519, 521)] {
        assert_eq!(new(1, low, high), Ok(()), "{low} {high}");
    }
    for (low, high) in [(521, 521), (521, 600), (0, 519), (519, 519)] {
        assert_eq!(new(1, low, high), Err(Fault::ScaledSum), "{low} {high}");
    }
}

#[test]
fn slots_of_a_span() {
    let mend = Edit::Mend;
    // Day 1 is scaled, with 18 at slots 60 and 62.
    let cases = [
        (slot(60, 25, b'S', 2), Fault::ScaledMixed),
        (slot(70, 10, b'S', 3), Fault::ScaledMixed),
        (slot(70, 11, b'A', 0), Fault::ScaledSum),
        (slot(70, 0, b'N', 0), Fault::OpenState),
        (slot(0, 10, b'S', 3), Fault::AgreesWithSubstituted),
        (slot(0, 10, b'S', 18), Fault::ScaledState),
        (slot(0, 0, b'N', 0), Fault::OpenState),
        (slot(110, 10, b'S', 19), Fault::ScaledState),
    ];
    for (edit, fault) in cases {
        assert_eq!(after(&[edit.clone(), mend.clone()]), Err(fault), "{edit:?}");
    }
    assert_eq!(after(&[slot(70, 10, b'S', 19), mend.clone()]), Ok(()));
    assert_eq!(after(&[slot(110, 10, b'S', 3), mend.clone()]), Ok(()));
    assert_eq!(after(&[Edit::DropSpan(0)]), Ok(()));
    assert_eq!(after(&[Edit::DropSpan(1)]), Err(Fault::SpanChain));
    assert_eq!(after(&[Edit::CopySpan(1)]), Err(Fault::SpanChain));
    assert_eq!(after(&[Edit::SwapSpans(2, 3)]), Err(Fault::SpanChain));
}

#[test]
fn all_zero_and_any_bytes() {
    for len in [0, 1, 31, 32, 33, 320, 5000] {
        assert_eq!(read(&vec![0; len]), Err(8));
        assert_eq!(read(&vec![0xFF; len]), Err(8));
    }
}

#[test]
fn damaged_files_get_an_answer() {
    let bases = Bases::new(4, 20);
    for index in 0..3000 {
        let file = bases.damaged(4, index).file();
        assert_eq!(tables(&file).is_empty(), read(&file).is_err());
    }
}
