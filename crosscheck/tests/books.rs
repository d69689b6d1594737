//! Random books with overflow checks on, and 01's meddled builds, which must be found.

use crosscheck::census::counts::Counts;
use crosscheck::compare::random;
use crosscheck::compare::run::run;
use crosscheck::compare::side::{Answer, Second, Side};
use crosscheck::number::narrowed;
use crosscheck::second::book::Filed;
use crosscheck::second::head::Head;
use crosscheck::second::lists::Lists;
use crosscheck::second::lists::{Agreement, Delivery, RegisterRead};
use crosscheck::second::reader::Figures;
use crosscheck::second::rules;
use crosscheck::second::trailer;

#[test]
fn random_books_agree_with_the_plain_book() {
    let mut counts = Counts::default();
    for index in 0..60 {
        let book = random::book(77, index);
        if book.calls.len() < 1500 && book.slots < 6000 {
            assert_eq!(
                run(&book, Some(&Second), &mut counts),
                Ok(()),
                "book {index}"
            );
        }
    }
    assert!(counts.of("answer to deliver", "stored") > 0);
}

/// A build with one thing meddled with.
struct Meddled(Meddling);

#[derive(Clone, Copy, Debug, PartialEq, Eq)]
enum Meddling {
    FillsNothing,
    FirstDeliveryOnly,
    ConstantFile,
    MadeUpCounts,
    AlwaysConflict,
    AlwaysShort,
    HolidayDoesNothing,
    HolidaySetsTwoDays,
    WritesBehindTheFile,
    WritesOnRefusal,
    LateIsRefused,
    ReaderAcceptsAll,
    AgreeDoesNothing,
    AgreedIgnored,
    AgreedBeatsGood,
    AgreedEndsRuns,
    AgreedIsNeighbourAndReference,
    LayoutBefore,
    AgreedUnchecked,
    SingleLinesOnly,
    LineRoundsUpWhenFalling,
    LineTooLong,
    LineTooShort,
    LineFromAgreed,
    LineFromZeroed,
    LineEndsAtMidnight,
    HolidayKeepsItsWeekday,
    AllDaysLookLikeSundays,
    SundaysADayOff,
    HolidaySundaysCount,
    LimitIsBuiltIn,
    LimitIsEnough,
    LimitOf0,
    LimitOver1000000,
    SundaysOf364Days,
    SundaysOf371Days,
    SundaysOf372Days,
}

const ALL: [Meddling; 34] = [
    Meddling::FillsNothing,
    Meddling::FirstDeliveryOnly,
    Meddling::ConstantFile,
    Meddling::MadeUpCounts,
    Meddling::AlwaysConflict,
    Meddling::AlwaysShort,
    Meddling::HolidayDoesNothing,
    Meddling::HolidaySetsTwoDays,
    Meddling::WritesBehindTheFile,
    Meddling::WritesOnRefusal,
    Meddling::LateIsRefused,
    Meddling::ReaderAcceptsAll,
    Meddling::AgreeDoesNothing,
    Meddling::AgreedIgnored,
    Meddling::AgreedBeatsGood,
    Meddling::AgreedEndsRuns,
    Meddling::AgreedIsNeighbourAndReference,
    Meddling::LayoutBefore,
    Meddling::AgreedUnchecked,
    Meddling::SingleLinesOnly,
    Meddling::LineRoundsUpWhenFalling,
    Meddling::LineTooLong,
    Meddling::LineTooShort,
    Meddling::LineFromAgreed,
    Meddling::LineFromZeroed,
    Meddling::LineEndsAtMidnight,
    Meddling::HolidayKeepsItsWeekday,
    Meddling::AllDaysLookLikeSundays,
    Meddling::SundaysADayOff,
    Meddling::HolidaySundaysCount,
    Meddling::LimitIsBuiltIn,
    Meddling::LimitIsEnough,
    Meddling::LimitOf0,
    Meddling::LimitOver1000000,
];

/// Found in books of 400 days only.
const FAR: [Meddling; 3] = [
    Meddling::SundaysOf364Days,
    Meddling::SundaysOf371Days,
    Meddling::SundaysOf372Days,
];

impl Side for Meddled {
    fn open(&self, head: Head, lists: &mut Lists) -> Answer {
        Second.open(self.head(head), lists)
    }

    fn deliver(&self, head: Head, lists: &mut Lists, delivery: Delivery) -> Answer {
        match self.0 {
            Meddling::FirstDeliveryOnly if lists.versions.iter().any(|&v| v != 0) => {
                Answer::Filed(Filed::Late)
            }
            Meddling::AlwaysConflict => Answer::Refused(10),
            Meddling::LateIsRefused => match Second.deliver(head, lists, delivery) {
                Answer::Filed(Filed::Late) => Answer::Refused(10),
                answer => answer,
            },
            _ => Second.deliver(head, lists, delivery),
        }
    }

    fn holiday(&self, head: Head, lists: &mut Lists, day: u32) -> Answer {
        match self.0 {
            Meddling::HolidayDoesNothing => Answer::Filed(Filed::Stored),
            Meddling::HolidaySetsTwoDays => {
                let answer = Second.holiday(head, lists, day);
                Second.holiday(head, lists, day.wrapping_add(1));
                answer
            }
            _ => Second.holiday(head, lists, day),
        }
    }

    fn register(&self, head: Head, lists: &mut Lists, read: RegisterRead) -> Answer {
        Second.register(head, lists, read)
    }

    fn agree(&self, head: Head, lists: &mut Lists, agreement: Agreement) -> Answer {
        match self.0 {
            Meddling::AgreeDoesNothing => Answer::Filed(Filed::Stored),
            _ => Second.agree(head, lists, agreement),
        }
    }

    fn publish(&self, head: Head, lists: &Lists, out: &mut [u8]) -> Answer {
        if self.0 == Meddling::AlwaysShort {
            return Answer::Refused(7);
        }
        let answer = Second.publish(self.head(head), &self.meddled(head, lists), out);
        let Answer::Length(length) = answer else {
            if self.0 == Meddling::WritesOnRefusal && !out.is_empty() {
                out[0] = 0;
            }
            return answer;
        };
        let (file, behind) = out.split_at_mut(narrowed(length));
        match self.0 {
            Meddling::FillsNothing => {
                for record in file[..6 * lists.values.len()].chunks_mut(6) {
                    if record[4] == b'S' {
                        record.copy_from_slice(&[0, 0, 0, 0, b'N', 0]);
                    }
                }
            }
            Meddling::ConstantFile => file.fill(0),
            Meddling::LayoutBefore => {
                let agreed = file[..6 * lists.values.len()]
                    .chunks(6)
                    .any(|r| r[4] == b'F');
                trailer::set(file, trailer::LAYOUT, 1 + u64::from(agreed));
            }
            Meddling::AgreedIsNeighbourAndReference => name_agreed(head, lists, file),
            Meddling::MadeUpCounts => miscount(file),
            Meddling::WritesBehindTheFile => behind.fill(0),
            _ => {
                let table = &mut file[..6 * lists.values.len()];
                meddle_lines(self.0, head, table);
                meddle_references(self.0, head, lists, table);
            }
        }
        answer
    }

    fn read(&self, file: &[u8]) -> Result<Figures, u64> {
        Second.read(file)
    }

    fn tables(&self, file: &[u8]) -> u64 {
        match self.0 {
            Meddling::ReaderAcceptsAll => file.len() as u64,
            _ => Second.tables(file),
        }
    }
}

impl Meddled {
    /// The head as a build with this slip would take it.
    fn head(&self, head: Head) -> Head {
        let limit = match self.0 {
            Meddling::LimitIsBuiltIn if head.limit > 40_000 => 70_000,
            Meddling::LimitIsBuiltIn if head.limit > 0 => 40_000,
            // What just passes the demand test fails.
            Meddling::LimitIsEnough if head.limit > 1 => head.limit - 1,
            Meddling::LimitOf0 => head.limit.max(1),
            Meddling::LimitOver1000000 => head.limit.min(1_000_000),
            _ => head.limit,
        };
        Head { limit, ..head }
    }

    /// The cells as a build with this slip would take them.
    fn meddled(&self, head: Head, lists: &Lists) -> Lists {
        let mut lists = lists.clone();
        let n = head.shape().map_or(1, |shape| shape.slots_a_day);
        let counted = lists.counts == recounted(&lists, n).counts;
        if self.0 == Meddling::AgreedIgnored {
            lists.agreed_versions.fill(0);
            lists.agreed.fill(0);
        }
        if self.0 == Meddling::AgreedUnchecked {
            lists
                .agreed
                .iter_mut()
                .for_each(|value| *value %= 100_000_000);
        }
        for slot in agreed_slots(head, &lists, self.0 == Meddling::AgreedBeatsGood) {
            let gap = lists.versions[slot] == 0;
            let cell = match self.0 {
                Meddling::AgreedBeatsGood => (0, 0, 0),
                // A failed slot is no gap.
                Meddling::AgreedEndsRuns if gap => (1, 0, 1),
                Meddling::AgreedIsNeighbourAndReference => (1, lists.agreed[slot], 0),
                _ => continue,
            };
            (
                lists.versions[slot],
                lists.values[slot],
                lists.statuses[slot],
            ) = cell;
        }
        // The slip is about the cells above: right counts stay right.
        if counted { recounted(&lists, n) } else { lists }
    }
}

fn recounted(lists: &Lists, slots_a_day: usize) -> Lists {
    let mut lists = lists.clone();
    lists.recount(slots_a_day);
    lists
}

/// The slots with an agreed value, good ones or those with a cause.
fn agreed_slots(head: Head, lists: &Lists, good: bool) -> Vec<usize> {
    let Ok(shape) = head.shape() else {
        return Vec::new();
    };
    let full = |len: usize| len == shape.slots;
    if !full(lists.values.len()) || !full(lists.versions.len()) || !full(lists.statuses.len()) {
        return Vec::new();
    }
    let causes = rules::causes(&shape, &lists.cells());
    (0..shape.slots.min(lists.agreed_versions.len()))
        .filter(|&slot| lists.agreed_versions[slot] != 0 && causes[slot].is_none() == good)
        .collect()
}

/// Another count of A slots.
fn miscount(file: &mut [u8]) {
    let actual = trailer::get(file, trailer::ACTUAL).unwrap_or(0);
    trailer::set(file, trailer::ACTUAL, actual ^ 1);
}

/// Gives agreed slots that were published as A their letter, method and count.
fn name_agreed(head: Head, lists: &Lists, file: &mut [u8]) {
    let slots = agreed_slots(head, lists, false);
    for &slot in &slots {
        file[6 * slot + 4..6 * slot + 6].copy_from_slice(&[b'F', 5]);
    }
    for (field, letters) in [
        (trailer::ACTUAL, &b"A"[..]),
        (trailer::SUBSTITUTED, &b"SF"[..]),
    ] {
        let records = file[..6 * lists.values.len()].chunks(6);
        let count = records
            .filter(|record| letters.contains(&record[4]))
            .count();
        trailer::set(file, field, count as u64);
    }
}

/// Whether a line of g slots falls between these records and drops a fraction.
fn rounds_down(left: &[u8; 6], right: &[u8; 6], g: usize) -> bool {
    let value = |record: &[u8; 6]| {
        let [a, b, c, d, ..] = *record;
        i64::from(u32::from_le_bytes([a, b, c, d]))
    };
    let fall = value(left) - value(right);
    fall > 0 && fall % (g as i64 + 1) != 0
}

/// Changes the runs of S and N records that a build with this slip would fill otherwise.
fn meddle_lines(meddling: Meddling, head: Head, table: &mut [u8]) {
    let longest = (120 / head.interval) as usize;
    let day = (1440 / head.interval) as usize;
    let records: Vec<[u8; 6]> = table.as_chunks().0.to_vec();
    let end_of = |at: Option<usize>| at.and_then(|at| records.get(at));
    let is = |end: Option<&[u8; 6]>, letter, method| {
        end.is_some_and(|record| record[4..] == [letter, method])
    };
    let marks: Vec<bool> = records.iter().map(|r| b"SN".contains(&r[4])).collect();
    for run in rules::runs(&marks) {
        let g = run.len();
        let ends = [end_of(run.start.checked_sub(1)), end_of(Some(run.end))];
        let good = |end| is(end, b'A', 0);
        let line = matches!(records[run.start][5], 2 | 18);
        let from = |letter, method| {
            let other = |end| is(end, letter, method);
            g <= longest
                && ends.iter().any(|&e| other(e))
                && ends.iter().all(|&e| good(e) || other(e))
        };
        let changed = match meddling {
            Meddling::SingleLinesOnly => line && g > 1,
            Meddling::LineTooLong => g == longest + 1 && ends.into_iter().all(good),
            Meddling::LineTooShort => line && g == longest,
            Meddling::LineFromAgreed => from(b'F', 5),
            Meddling::LineFromZeroed => from(b'A', 1),
            Meddling::LineEndsAtMidnight => line && run.start / day < (run.end - 1) / day,
            Meddling::LineRoundsUpWhenFalling => match ends {
                [Some(l), Some(r)] if records[run.start][5] == 2 => rounds_down(l, r, g),
                _ => false,
            },
            _ => false,
        };
        if changed {
            table[6 * run.start] ^= 1;
        }
    }
}

/// How many days back the nearest and the farthest reference lie; none where the slip changes nothing.
fn meddled_days(meddling: Meddling, holiday: bool, k: usize) -> Option<(usize, usize)> {
    match meddling {
        Meddling::HolidayKeepsItsWeekday if holiday => Some((7, 364)),
        Meddling::AllDaysLookLikeSundays if !holiday => Some((k, 370)),
        Meddling::SundaysADayOff if holiday => Some((k % 7 + 1, 370)),
        Meddling::HolidaySundaysCount if holiday => Some((k, 370)),
        Meddling::SundaysOf364Days if holiday => Some((k, 364)),
        Meddling::SundaysOf371Days if holiday => Some((k, 371)),
        Meddling::SundaysOf372Days if holiday => Some((k, 372)),
        _ => None,
    }
}

/// Changes the records that a build with this slip would fill from other references.
fn meddle_references(meddling: Meddling, head: Head, lists: &Lists, table: &mut [u8]) {
    let Ok(shape) = head.shape() else {
        return;
    };
    let cells = lists.cells();
    let causes = rules::causes(&shape, &cells);
    let n = shape.slots_a_day;
    for slot in 0..shape.slots {
        let record = &mut table[6 * slot..6 * slot + 6];
        if !matches!((record[4], record[5]), (b'S', 3 | 19) | (b'N', 0)) {
            continue;
        }
        let day = slot / n;
        let holiday = cells.holidays[day] != 0;
        let k = rules::sunday_back(shape.first_day as usize + day);
        let Some((nearest, farthest)) = meddled_days(meddling, holiday, k) else {
            continue;
        };
        let refers = |&earlier: &usize| {
            let counts = meddling == Meddling::HolidaySundaysCount;
            causes[earlier].is_none()
                && cells.statuses[earlier] & rules::OUTAGE == 0
                && (counts || cells.holidays[earlier / n] == 0)
        };
        let meddled = (nearest..=farthest)
            .step_by(7)
            .map_while(|back| slot.checked_sub(back * n))
            .filter(refers);
        let usual = rules::reference_slots(&shape, &cells, &causes, slot);
        if !meddled.take(4).eq(usual.take(4)) {
            record[0] ^= 1;
        }
    }
}

#[test]
fn far_meddled_builds_are_found() {
    // The large books of 400 days and L 30.
    let large = |index: &u64| matches!(index / 100 % 10, 2 | 6 | 8);
    for meddling in FAR {
        let mut counts = Counts::default();
        let found = (7..6000)
            .step_by(100)
            .filter(large)
            .map(|index| random::book(1, index))
            .any(|book| run(&book, Some(&Meddled(meddling)), &mut counts).is_err());
        assert!(found, "{meddling:?}");
    }
}

#[test]
fn meddled_builds_are_found() {
    for meddling in ALL {
        let mut counts = Counts::default();
        let found = (0..300).map(|index| random::book(8, index)).any(|book| {
            book.slots < 3000 && run(&book, Some(&Meddled(meddling)), &mut counts).is_err()
        });
        assert!(found, "{meddling:?}");
    }
}
