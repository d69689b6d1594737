//! Builds with a slip in W10's widths, ranges and layouts, which the random books and the
//! damaged files must find.

use crosscheck::census::counts::Counts;
use crosscheck::compare::calls::Book;
use crosscheck::compare::damage::Bases;
use crosscheck::compare::random;
use crosscheck::compare::run::{compare_readers, run};
use crosscheck::compare::side::{Answer, Second, Side};
use crosscheck::number::narrowed;
use crosscheck::second::book::{Filed, MOST_WIDTH};
use crosscheck::second::contents::Contents;
use crosscheck::second::file::Frame;
use crosscheck::second::head::{DIAL, Head};
use crosscheck::second::lists::Lists;
use crosscheck::second::lists::{Agreement, Delivery, RegisterRead};
use crosscheck::second::reader::Figures;
use crosscheck::second::rules::{self, Advances, Filled, Quality, Slot, Span, State};

struct Misreading(Slip);

#[derive(Clone, Copy, Debug, PartialEq, Eq)]
enum Slip {
    Nothing,
    // Register, opening and lists.
    NotCleared,
    NotStored,
    NotCompared,
    In16Bits,
    TenThousandAllowed,
    BeforeReading,
    AfterCell,
    OverUnchecked,
    BesideUnchecked,
    LengthUnchecked,
    // Ranges.
    NoWidths,
    EarlierOnly,
    LaterOnly,
    Swapped,
    BelowZeroWraps,
    NoWrap,
    WrapKeepsTheLowest,
    WrapAbove,
    WrapEarly,
    // R and the states.
    RIsTheLowest,
    RIsTheHighest,
    RIsG,
    RBelowV,
    AgreesByG,
    AgreesByTheLowest,
    AgreesByTheHighest,
    AgreesStrictly,
    // Layouts.
    OldWithoutWidths,
    OldWithoutF,
    // The reader.
    SumAtTheLowest,
    SumAtMostTheHighest,
    SumAtLeastTheLowest,
    NoFInLayout3,
    Layout1Refused,
    Layout2Refused,
    Layout3Refused,
    TablesOfLayout1,
}

const CALLS: [Slip; 10] = [
    Slip::NotCleared,
    Slip::NotStored,
    Slip::NotCompared,
    Slip::In16Bits,
    Slip::TenThousandAllowed,
    Slip::BeforeReading,
    Slip::AfterCell,
    Slip::OverUnchecked,
    Slip::BesideUnchecked,
    Slip::LengthUnchecked,
];

const FILES: [Slip; 19] = [
    Slip::NoWidths,
    Slip::EarlierOnly,
    Slip::LaterOnly,
    Slip::Swapped,
    Slip::BelowZeroWraps,
    Slip::NoWrap,
    Slip::WrapKeepsTheLowest,
    Slip::WrapAbove,
    Slip::WrapEarly,
    Slip::RIsTheLowest,
    Slip::RIsTheHighest,
    Slip::RIsG,
    Slip::RBelowV,
    Slip::AgreesByG,
    Slip::AgreesByTheLowest,
    Slip::AgreesByTheHighest,
    Slip::AgreesStrictly,
    Slip::OldWithoutWidths,
    Slip::OldWithoutF,
];

const READERS: [Slip; 8] = [
    Slip::SumAtTheLowest,
    Slip::SumAtMostTheHighest,
    Slip::SumAtLeastTheLowest,
    Slip::NoFInLayout3,
    Slip::Layout1Refused,
    Slip::Layout2Refused,
    Slip::Layout3Refused,
    Slip::TablesOfLayout1,
];

impl Slip {
    fn advances(self, g: u32, u: u32, v: u32) -> Advances {
        let (u, v) = match self {
            Slip::NoWidths => (0, 0),
            Slip::EarlierOnly => (u, 0),
            Slip::LaterOnly => (0, v),
            Slip::Swapped => (v, u),
            _ => (u, v),
        };
        let right = Advances::between(g, narrowed(u), narrowed(v));
        let lowest = g.saturating_sub(u);
        match self {
            Slip::BelowZeroWraps if g < u => Advances {
                lowest: g + DIAL - u,
                ..right
            },
            Slip::NoWrap if g + v >= DIAL => Advances {
                lowest,
                highest: DIAL - 1,
            },
            Slip::WrapKeepsTheLowest => Advances { lowest, ..right },
            Slip::WrapAbove if g + v == DIAL => Advances {
                lowest,
                highest: DIAL,
            },
            Slip::WrapEarly if g + v == DIAL - 1 => Advances::one(0),
            _ => right,
        }
    }

    fn r(self, advances: Advances, g: u32, v: u64) -> u32 {
        match self {
            Slip::RIsTheLowest => advances.lowest,
            Slip::RIsTheHighest => advances.highest,
            Slip::RIsG => g,
            Slip::RBelowV => advances.fitted(v.saturating_sub(1)),
            _ if advances.lowest > advances.highest => advances.highest,
            _ => advances.fitted(v),
        }
    }

    fn agrees(self, advances: Advances, g: u32, v: u64, t: u64) -> bool {
        let near = |advance: u32| u64::from(advance).abs_diff(v) <= t;
        match self {
            Slip::AgreesByG => near(g),
            Slip::AgreesByTheLowest => near(advances.lowest),
            Slip::AgreesByTheHighest => near(advances.highest),
            Slip::AgreesStrictly => u64::from(advances.fitted(v)).abs_diff(v) < t.max(1),
            _ => near(self.r(advances, g, v)),
        }
    }

    /// The file as a build with this slip writes it.
    fn contents(self, head: Head, lists: &Lists) -> Contents {
        let shape = head.shape().expect("it was published");
        let cells = lists.cells();
        let causes = rules::causes(&shape, &cells);
        let Filled { mut slots, e } = rules::fill(&shape, &cells, &causes);
        let (_, mut spans) = rules::outcomes(&shape, &cells);
        for span in &mut spans {
            let range = rules::span_slots(&shape, span.first, span.last);
            let part = &mut slots[range.clone()];
            let r = self.span(span, part, lists, head.tolerance.into());
            if span.state == State::Scaled {
                rules::scale(part, &e[range], r);
            }
        }
        let contents = Contents {
            frame: Frame::published(&shape),
            slots,
            spans,
        };
        let agreed = contents.slots.iter().any(|s| s.quality == Quality::Agreed);
        let old = match self {
            Slip::OldWithoutWidths => lists.widths.iter().all(|&width| width == 0),
            Slip::OldWithoutF => !agreed && contents.spans.is_empty(),
            _ => false,
        };
        if old { contents.before() } else { contents }
    }

    /// Sets a span's advances and state, and gives its R.
    fn span(self, span: &mut Span, slots: &[Slot], lists: &Lists, t: u64) -> u32 {
        let g = rules::advance(lists.readings[span.first], lists.readings[span.last]);
        let widths = [span.first, span.last].map(|at| u32::from(lists.widths[at]));
        span.advances = self.advances(g, widths[0], widths[1]);
        let v = rules::settled_sum(slots);
        let r = self.r(span.advances, g, v);
        let has = |quality| slots.iter().any(|slot| slot.quality == quality);
        span.state = if has(Quality::None) {
            State::Open
        } else if has(Quality::Substituted) {
            if u64::from(r) >= v {
                State::Scaled
            } else {
                State::Disagrees
            }
        } else if self.agrees(span.advances, g, v, t) {
            State::Agrees
        } else {
            State::Disagrees
        };
        r
    }

    /// The lists as a publishing or a read with this slip takes them.
    fn lent(self, head: Head, lists: &Lists) -> Lists {
        let mut lists = lists.clone();
        let Ok(shape) = head.shape() else {
            return lists;
        };
        if self == Slip::LengthUnchecked {
            lists.widths.resize(shape.days + 1, 0);
        }
        for (width, &version) in lists.widths.iter_mut().zip(&lists.read_versions) {
            let over = self == Slip::OverUnchecked && *width > MOST_WIDTH;
            let beside = self == Slip::BesideUnchecked && version == 0 && *width <= MOST_WIDTH;
            if over || beside {
                *width = 0;
            }
        }
        lists
    }
}

impl Side for Misreading {
    fn open(&self, head: Head, lists: &mut Lists) -> Answer {
        let widths = lists.widths.clone();
        let answer = Second.open(head, lists);
        if self.0 == Slip::NotCleared {
            lists.widths = widths;
        }
        answer
    }

    fn deliver(&self, head: Head, lists: &mut Lists, delivery: Delivery) -> Answer {
        Second.deliver(head, lists, delivery)
    }

    fn holiday(&self, head: Head, lists: &mut Lists, day: u32) -> Answer {
        Second.holiday(head, lists, day)
    }

    fn register(&self, head: Head, lists: &mut Lists, read: RegisterRead) -> Answer {
        let width = match self.0 {
            Slip::In16Bits => read.width % 65_536,
            Slip::TenThousandAllowed if read.width == 10_000 => 0,
            _ => read.width,
        };
        let read = RegisterRead { width, ..read };
        let mut taken = self.0.lent(head, lists);
        let mut answer = Second.register(head, &mut taken, read);
        let narrow = RegisterRead { width: 0, ..read };
        let without = Second.register(head, &mut lists.clone(), narrow);
        let kept = lists.widths.get(read.boundary as usize);
        match self.0 {
            Slip::BeforeReading if answer == Answer::Refused(6) && width > 9_999 => {
                answer = Answer::Refused(17);
            }
            Slip::AfterCell if answer == Answer::Refused(17) && without == Answer::Refused(11) => {
                answer = without;
            }
            Slip::NotCompared if answer == Answer::Refused(10) => {
                let width = kept.map_or(0, |&width| width.into());
                let same = RegisterRead { width, ..read };
                answer = Second.register(head, &mut taken, same);
            }
            _ => {}
        }
        if answer == Answer::Filed(Filed::Stored) {
            *lists = taken;
            if self.0 == Slip::NotStored {
                lists.widths[read.boundary as usize] = 0;
            }
        }
        answer
    }

    fn agree(&self, head: Head, lists: &mut Lists, agreement: Agreement) -> Answer {
        Second.agree(head, lists, agreement)
    }

    fn publish(&self, head: Head, lists: &Lists, out: &mut [u8]) -> Answer {
        let lists = self.0.lent(head, lists);
        let answer = Second.publish(head, &lists, out);
        let Answer::Length(_) = answer else {
            return answer;
        };
        let file = self.0.contents(head, &lists).file();
        out[..file.len()].copy_from_slice(&file);
        Answer::Length(file.len() as u64)
    }

    fn read(&self, file: &[u8]) -> Result<Figures, u64> {
        let figures = Second.read(file);
        let layout = file.len().checked_sub(27).map_or(0, |at| file[at]);
        let contents = Contents::of(file);
        let agreed = |slots: &[Slot]| slots.iter().any(|s| s.quality == Quality::Agreed);
        match (self.0, &contents) {
            (Slip::Layout1Refused, _) if layout == 1 => Err(8),
            (Slip::Layout2Refused, _) if layout == 2 => Err(8),
            (Slip::Layout3Refused, _) if layout == 3 => Err(8),
            (Slip::NoFInLayout3, Ok(whole)) if layout == 3 && agreed(&whole.slots) => Err(9),
            (Slip::SumAtTheLowest, Ok(whole)) if !at_the_lowest(whole) => Err(9),
            (Slip::SumAtMostTheHighest | Slip::SumAtLeastTheLowest, Err(9)) => {
                self.widened(file).unwrap_or(figures)
            }
            _ => figures,
        }
    }

    fn tables(&self, file: &[u8]) -> u64 {
        match (self.0, Second.read(file)) {
            (Slip::TablesOfLayout1, Ok(figures)) => {
                6 * (1440 / figures.interval) * figures.days + 10 * figures.spans
            }
            _ => Second.tables(file),
        }
    }
}

fn at_the_lowest(whole: &Contents) -> bool {
    let mut spans = whole.spans.iter().zip(whole.sums());
    spans.all(|(span, (advances, sum))| {
        span.state != State::Scaled || u64::from(advances.lowest) == sum
    })
}

impl Misreading {
    /// The figures of a file of layout 3 whose ranges are as the slip looks at them.
    fn widened(&self, file: &[u8]) -> Option<Result<Figures, u64>> {
        let end = file.len().checked_sub(32)?;
        let spans = usize::from(u16::from_le_bytes([file[end + 6], file[end + 7]]));
        let start = end.checked_sub(14 * spans)?;
        let mut wide = file.to_vec();
        for record in wide[start..end].chunks_mut(14) {
            let (field, value) = match self.0 {
                Slip::SumAtMostTheHighest => (4..8, 0_u32),
                _ => (8..12, DIAL - 1),
            };
            let end = |at: usize| u32::from_le_bytes(record[at..at + 4].try_into().unwrap());
            // A range in the wrong order or over the dial stays one.
            if record[12] == 1 && end(4) <= end(8) && end(8) < DIAL {
                record[field].copy_from_slice(&value.to_le_bytes());
            }
        }
        (file[end + 5] == 3).then(|| Second.read(&wide))
    }
}

fn books() -> Vec<Book> {
    (0..900)
        .map(|index| random::book(8, index))
        .filter(|book| book.slots < 1000 && book.calls.len() < 1000)
        .collect()
}

#[test]
fn slips_in_calls_and_files_are_found() {
    let books = books();
    let found_in = |slip| {
        let mut counts = Counts::default();
        books
            .iter()
            .any(|book| run(book, Some(&Misreading(slip)), &mut counts).is_err())
    };
    assert!(!found_in(Slip::Nothing));
    for slip in CALLS.into_iter().chain(FILES) {
        assert!(found_in(slip), "{slip:?}");
    }
}

#[test]
fn slips_in_the_reader_are_found() {
    let bases = Bases::new(8, 60);
    let found_in = |slip| {
        let mut counts = Counts::default();
        (0..3000).any(|index| {
            let file = bases.damaged(8, index).file();
            compare_readers(&file, Some(&Misreading(slip)), &mut counts).is_err()
        })
    };
    assert!(!found_in(Slip::Nothing));
    for slip in READERS {
        assert!(found_in(slip), "{slip:?}");
    }
}
