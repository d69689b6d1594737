//! Builds with a slip in W6's counts, which the random books must find.

use crosscheck::census::counts::Counts;
use crosscheck::compare::calls::{Act, Book};
use crosscheck::compare::random;
use crosscheck::compare::run::run;
use crosscheck::compare::side::{Answer, Second, Side};
use crosscheck::second::book::Filed;
use crosscheck::second::head::Head;
use crosscheck::second::lists::{Agreement, Delivery, RegisterRead};
use crosscheck::second::lists::{List, Lists};
use crosscheck::second::reader::Figures;

struct Miscounting(Slip);

#[derive(Clone, Copy, Debug, PartialEq, Eq)]
enum Slip {
    Nothing,
    NotCleared,
    ClearedToOne,
    NotRaised,
    RaisedEachTime,
    RaisedOnRepeat,
    RaisedNextDay,
    RaisedByAgreed,
    PublishLooksAtNone,
    PublishLooksAtTheSum,
    PublishLooksAtTheLowByte,
    PublishSkipsTheFirst,
    PublishSkipsTheLast,
    PublishLooksAtTheEnds,
    PublishAllowsMore,
    PublishAllowsLess,
    PublishShortBufferFirst,
    FullUnchecked,
    FullAtNOnly,
    FullAboveN,
    FullAtNMinusOne,
    FullRefusesLater,
    FullBeforeArguments,
    LengthUnchecked,
    LengthLongerAllowed,
}

const ALL: [Slip; 24] = [
    Slip::NotCleared,
    Slip::ClearedToOne,
    Slip::NotRaised,
    Slip::RaisedEachTime,
    Slip::RaisedOnRepeat,
    Slip::RaisedNextDay,
    Slip::RaisedByAgreed,
    Slip::PublishLooksAtNone,
    Slip::PublishLooksAtTheSum,
    Slip::PublishLooksAtTheLowByte,
    Slip::PublishSkipsTheFirst,
    Slip::PublishSkipsTheLast,
    Slip::PublishLooksAtTheEnds,
    Slip::PublishAllowsMore,
    Slip::PublishAllowsLess,
    Slip::PublishShortBufferFirst,
    Slip::FullUnchecked,
    Slip::FullAtNOnly,
    Slip::FullAboveN,
    Slip::FullAtNMinusOne,
    Slip::FullRefusesLater,
    Slip::FullBeforeArguments,
    Slip::LengthUnchecked,
    Slip::LengthLongerAllowed,
];

/// A delivery's slot in lists of the right lengths: its version, its day and n.
fn place(head: Head, lists: &Lists, slot: u32) -> Option<(u32, usize, usize)> {
    let shape = head.shape().ok()?;
    let fits = lists.versions.len() == shape.slots && lists.counts.len() == shape.days;
    let slot = slot as usize;
    (fits && slot < shape.slots).then(|| {
        (
            lists.versions[slot],
            slot / shape.slots_a_day,
            shape.slots_a_day,
        )
    })
}

impl Miscounting {
    /// Whether it answers 11 where the second build would not.
    fn refuses(&self, delivery: Delivery, version: u32, count: usize, n: usize) -> bool {
        let (first, full) = (version == 0, count >= n);
        match self.0 {
            Slip::FullAtNMinusOne => first && count + 1 == n,
            Slip::FullRefusesLater => full && delivery.version > version && delivery.status < 8,
            Slip::FullBeforeArguments => first && full,
            _ => false,
        }
    }

    /// Whether it takes a full day for one with room.
    fn overlooks(&self, count: usize, n: usize) -> bool {
        count >= n
            && match self.0 {
                Slip::FullUnchecked => true,
                Slip::FullAtNOnly => count != n,
                Slip::FullAboveN => count == n,
                _ => false,
            }
    }
}

impl Side for Miscounting {
    fn open(&self, head: Head, lists: &mut Lists) -> Answer {
        let counts = lists.counts.clone();
        if let Some(lent) = self.lent(head, lists) {
            *lists = lent;
        }
        let answer = Second.open(head, lists);
        match self.0 {
            Slip::NotCleared => lists.counts = counts,
            Slip::ClearedToOne if answer == Answer::Done => lists.counts[0] = 1,
            _ => {}
        }
        answer
    }

    fn deliver(&self, head: Head, lists: &mut Lists, delivery: Delivery) -> Answer {
        if let Some(lent) = self.lent(head, lists) {
            *lists = lent;
        }
        let Some((version, day, n)) = place(head, lists, delivery.slot) else {
            return Second.deliver(head, lists, delivery);
        };
        let (first, count) = (version == 0, lists.counts[day]);
        if self.refuses(delivery, version, count.into(), n) {
            return Answer::Refused(11);
        }
        if self.overlooks(count.into(), n) {
            lists.counts[day] = 0;
        }
        let answer = Second.deliver(head, lists, delivery);
        let stored = answer == Answer::Filed(Filed::Stored);
        let raised = count.wrapping_add((stored && first).into());
        lists.counts[day] = match self.0 {
            Slip::NotRaised => count,
            Slip::RaisedEachTime if stored => count.wrapping_add(1),
            Slip::RaisedOnRepeat if answer == Answer::Filed(Filed::Repeat) => count.wrapping_add(1),
            Slip::RaisedNextDay if raised != count && day + 1 < lists.counts.len() => {
                lists.counts[day + 1] += 1;
                count
            }
            _ => raised,
        };
        answer
    }

    fn holiday(&self, head: Head, lists: &mut Lists, day: u32) -> Answer {
        Second.holiday(head, lists, day)
    }

    fn register(&self, head: Head, lists: &mut Lists, read: RegisterRead) -> Answer {
        Second.register(head, lists, read)
    }

    fn agree(&self, head: Head, lists: &mut Lists, agreement: Agreement) -> Answer {
        let answer = Second.agree(head, lists, agreement);
        if self.0 == Slip::RaisedByAgreed && answer == Answer::Filed(Filed::Stored) {
            lists.counts[0] = lists.counts[0].wrapping_add(1);
        }
        answer
    }

    fn publish(&self, head: Head, lists: &Lists, out: &mut [u8]) -> Answer {
        let lists = self.lent(head, lists).unwrap_or_else(|| lists.clone());
        let Some((_, _, n)) = place(head, &lists, 0) else {
            return Second.publish(head, &lists, out);
        };
        let mut right = lists.clone();
        right.recount(n);
        let last = lists.counts.len() - 1;
        let sum = |lists: &Lists| lists.counts.iter().map(|&c| u32::from(c)).sum::<u32>();
        let sums_agree = sum(&lists) == sum(&right);
        let counts = lists.counts.iter().zip(&right.counts).enumerate();
        let taken = counts.map(|(day, (&count, &wanted))| {
            let overlooked = match self.0 {
                Slip::PublishLooksAtNone => true,
                Slip::PublishLooksAtTheSum => sums_agree,
                Slip::PublishLooksAtTheLowByte => count % 256 == wanted % 256,
                Slip::PublishSkipsTheFirst => day == 0,
                Slip::PublishSkipsTheLast => day == last,
                Slip::PublishLooksAtTheEnds => 0 < day && day < last,
                Slip::PublishAllowsMore => count > wanted,
                Slip::PublishAllowsLess => count < wanted,
                _ => false,
            };
            if overlooked { wanted } else { count }
        });
        let taken = Lists {
            counts: taken.collect(),
            ..lists.clone()
        };
        if self.0 == Slip::PublishShortBufferFirst {
            let short = Second.publish(head, &right, &mut out.to_vec());
            if short == Answer::Refused(7) {
                return short;
            }
        }
        Second.publish(head, &taken, out)
    }

    fn read(&self, file: &[u8]) -> Result<Figures, u64> {
        Second.read(file)
    }

    fn tables(&self, file: &[u8]) -> u64 {
        Second.tables(file)
    }
}

impl Miscounting {
    /// The lists with counts of the right length, where the slip takes another.
    fn lent(&self, head: Head, lists: &Lists) -> Option<Lists> {
        let days = head.shape().ok()?.days;
        let takes = match self.0 {
            Slip::LengthUnchecked => true,
            Slip::LengthLongerAllowed => lists.counts.len() > days,
            _ => false,
        };
        let mut lent = lists.clone();
        lent.counts.resize(days, 0);
        takes.then_some(lent)
    }
}

/// The small books in which a count is written, and a few others.
fn books() -> Vec<Book> {
    let written = |book: &Book| {
        let counts = |act: &Act| {
            matches!(
                act,
                Act::Write {
                    list: List::Counts,
                    ..
                }
            )
        };
        book.calls.iter().any(|call| counts(&call.act))
    };
    let small = |book: &Book| book.slots < 1000 && book.calls.len() < 1000;
    let all = (0..500).map(|index| (index, random::book(8, index)));
    all.filter(|(index, book)| small(book) && (*index < 60 || written(book)))
        .map(|(_, book)| book)
        .collect()
}

#[test]
fn slips_in_counting_are_found() {
    let books = books();
    let found_in = |slip| {
        let mut counts = Counts::default();
        books
            .iter()
            .any(|book| run(book, Some(&Miscounting(slip)), &mut counts).is_err())
    };
    assert!(!found_in(Slip::Nothing));
    for slip in ALL {
        assert!(found_in(slip), "{slip:?}");
    }
}
