//! Builds with a slip in W7's shapes, which the random books must find.

use crosscheck::census::counts::Counts;
use crosscheck::compare::calls::Book;
use crosscheck::compare::random;
use crosscheck::compare::run::run;
use crosscheck::compare::side::{Answer, Second, Side};
use crosscheck::number::narrowed;
use crosscheck::second::head::Head;
use crosscheck::second::lists::Lists;
use crosscheck::second::lists::{Agreement, Delivery, RegisterRead};
use crosscheck::second::reader::Figures;
use crosscheck::second::rules::{self, Filled, Mean, Quality, Slot, Span, State};

struct Misfitting(Slip);

#[derive(Clone, Copy, Debug, PartialEq, Eq)]
enum Slip {
    Nothing,
    RoundedMeans,
    LineOnce,
    LineExact,
    PlusRemainder,
    PlusTwelveRemainders,
    NotDivided,
    FourTimes,
    ThreeTimes,
    SixTimes,
    ZeroByMeans,
    NoneBelowOne,
    ZeroSharesNothing,
    EachByItself,
    UnscaledRoundedUp,
    UnscaledNearest,
}

const ALL: [Slip; 15] = [
    Slip::RoundedMeans,
    Slip::LineOnce,
    Slip::LineExact,
    Slip::PlusRemainder,
    Slip::PlusTwelveRemainders,
    Slip::NotDivided,
    Slip::FourTimes,
    Slip::ThreeTimes,
    Slip::SixTimes,
    Slip::ZeroByMeans,
    Slip::NoneBelowOne,
    Slip::ZeroSharesNothing,
    Slip::EachByItself,
    Slip::UnscaledRoundedUp,
    Slip::UnscaledNearest,
];

impl Slip {
    /// The shape of a slot with references.
    fn same_day(self, mean: &Mean) -> u64 {
        let (number, remainder) = (u64::from(mean.number), u64::from(mean.remainder));
        let mean = u64::from(mean.mean);
        let sum = mean * number + remainder;
        match self {
            Slip::RoundedMeans => 12 * mean,
            Slip::PlusRemainder => 12 * mean + remainder,
            Slip::PlusTwelveRemainders => 12 * (mean + remainder),
            Slip::NotDivided => 12 * sum,
            Slip::FourTimes => 4 * sum / number * 3,
            Slip::ThreeTimes => 3 * sum / number * 4,
            Slip::SixTimes => 6 * sum / number * 2,
            _ => 12 * sum / number,
        }
    }

    /// What an unscaled slot with references is given.
    fn unscaled(self, mean: &Mean) -> u32 {
        let up = match self {
            Slip::UnscaledRoundedUp => mean.remainder > 0,
            Slip::UnscaledNearest => 2 * mean.remainder >= mean.number,
            _ => false,
        };
        mean.mean + u32::from(up)
    }

    /// The new values of a scaled span.
    fn scale(self, slots: &mut [Slot], e: &[u64], span: &Span) {
        let v = rules::settled_sum(slots);
        let r = span.advances.fitted(v);
        rules::scale(slots, e, r);
        let total: u64 = e.iter().sum();
        let t = u64::from(r) - v;
        for (slot, &e) in slots.iter_mut().zip(e) {
            let by_itself = u128::from(t) * u128::from(e) / u128::from(total.max(1));
            let replaced = match self {
                Slip::EachByItself => total > 0,
                Slip::ZeroSharesNothing => total == 0,
                _ => false,
            };
            if replaced && slot.quality == Quality::Substituted {
                slot.value = narrowed(by_itself);
            }
        }
    }
}

impl Side for Misfitting {
    fn open(&self, head: Head, lists: &mut Lists) -> Answer {
        Second.open(head, lists)
    }

    fn deliver(&self, head: Head, lists: &mut Lists, delivery: Delivery) -> Answer {
        Second.deliver(head, lists, delivery)
    }

    fn holiday(&self, head: Head, lists: &mut Lists, day: u32) -> Answer {
        Second.holiday(head, lists, day)
    }

    fn register(&self, head: Head, lists: &mut Lists, read: RegisterRead) -> Answer {
        Second.register(head, lists, read)
    }

    fn agree(&self, head: Head, lists: &mut Lists, agreement: Agreement) -> Answer {
        Second.agree(head, lists, agreement)
    }

    fn publish(&self, head: Head, lists: &Lists, out: &mut [u8]) -> Answer {
        let answer = Second.publish(head, lists, out);
        if let Answer::Length(_) = answer {
            for (record, slot) in out.chunks_mut(6).zip(self.slots(head, lists)) {
                record[..4].copy_from_slice(&slot.value.to_le_bytes());
            }
        }
        answer
    }

    fn read(&self, file: &[u8]) -> Result<Figures, u64> {
        Second.read(file)
    }

    fn tables(&self, file: &[u8]) -> u64 {
        Second.tables(file)
    }
}

impl Misfitting {
    /// The outcomes of all slots, as a build with this slip has them.
    fn slots(&self, head: Head, lists: &Lists) -> Vec<Slot> {
        let shape = head.shape().expect("it was published");
        let cells = lists.cells();
        let causes = rules::causes(&shape, &cells);
        let Filled { slots, mut e } = rules::fill(&shape, &cells, &causes);
        let mut meddled = slots.clone();
        for slot in 0..shape.slots {
            let value = u64::from(slots[slot].value);
            match slots[slot].method {
                2 if self.0 == Slip::LineOnce => e[slot] = value,
                3 => {
                    let values = rules::references(&shape, &cells, &causes, slot);
                    let mean = rules::mean(&values).expect("it has references");
                    e[slot] = self.0.same_day(&mean);
                    meddled[slot].value = self.0.unscaled(&mean);
                }
                _ => {}
            }
        }
        if self.0 == Slip::LineExact {
            exact_lines(&slots, &mut e);
        }
        let (_, spans) = rules::outcomes(&shape, &cells);
        for span in spans.iter().filter(|span| span.state == State::Scaled) {
            let range = rules::span_slots(&shape, span.first, span.last);
            let (part, e) = (&mut meddled[range.clone()], &mut e[range.clone()]);
            let estimated = |slot: &Slot| slot.quality == Quality::Substituted;
            let zero_means = slots[range].iter().all(|s| !estimated(s) || s.value == 0);
            if self.0 == Slip::ZeroByMeans && zero_means {
                e.fill(0);
            }
            if self.0 == Slip::NoneBelowOne {
                let substituted = part.iter().zip(e.iter_mut()).filter(|(s, _)| estimated(s));
                substituted.for_each(|(_, e)| *e = (*e).max(1));
            }
            self.0.scale(part, e, span);
        }
        meddled
    }
}

/// Twelve times what a line has at each slot, its own fraction kept.
fn exact_lines(slots: &[Slot], e: &mut [u64]) {
    let on_line: Vec<bool> = slots.iter().map(|slot| slot.method == 2).collect();
    for run in rules::runs(&on_line) {
        let steps = run.len() as u64 + 1;
        let (l, r) = (slots[run.start - 1].value, slots[run.end].value);
        for (j, slot) in (1..).zip(run) {
            let weighed = u64::from(l) * (steps - j) + u64::from(r) * j;
            e[slot] = 12 * weighed / steps;
        }
    }
}

/// The smaller books with a week before some day, and a few of one day.
fn books() -> Vec<Book> {
    (0..400)
        .map(|index| random::book(8, index))
        .filter(|book| book.slots < 2000 && (book.days > 7 || book.slots < 100))
        .collect()
}

#[test]
fn slips_in_fitting_are_found() {
    let books = books();
    let found_in = |slip| {
        let mut counts = Counts::default();
        books
            .iter()
            .any(|book| run(book, Some(&Misfitting(slip)), &mut counts).is_err())
    };
    assert!(!found_in(Slip::Nothing));
    for slip in ALL {
        assert!(found_in(slip), "{slip:?}");
    }
}
