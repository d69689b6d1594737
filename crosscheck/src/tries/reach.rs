//! Checks how far one late figure reaches, W14, in random books of one build.

use std::ops::Range;

use crate::compare::heads;
use crate::compare::rng::Rng;
use crate::compare::side::{Answer, Second, Side};
use crate::number::narrowed;
use crate::second::book::Filed;
use crate::second::file;
use crate::second::head::{DIAL, Head, Shape};
use crate::second::lists::Lists;
use crate::second::lists::{Agreement, Delivery, RegisterRead};
use crate::second::reach::{Books, Clauses, Moved, Reach, Sentence, moved};
use crate::second::rules::{self, OUTAGE, PARTIAL, Slot, TIME_CHANGE};
use crate::tries::Tally;

pub const CLASSES: &[&str] = &[
    "L 5",
    "L 15",
    "L 30",
    "D 1",
    "D 2 to 60",
    "D over 370",
    "first delivery",
    "later version",
    "i good in both books",
    "i good, then with a cause",
    "i with a cause, then good",
    "i with a cause in both books",
    "outage bit came",
    "outage bit went",
    "i agreed, moved",
    "i alone moved",
    "nothing moved",
    "i itself",
    "run that holds i in both books",
    "run that holds i in the book before",
    "run that holds i in the book after",
    "run before i",
    "run behind i",
    "7 days later",
    "14 to 357 days later",
    "364 days later",
    "holiday up to 6 days after a Sunday",
    "holiday 7 to 357 days after a Sunday",
    "holiday 358 to 364 days after a Sunday",
    "holiday 365 to 369 days after a Sunday",
    "holiday 370 days after a Sunday",
    "slot of a span that holds i",
    "slot of a span that holds a run's slot",
    "slot of a span that holds a week's slot",
    "slot of a span that holds a holiday's slot",
    "span that holds i",
    "span that holds a run's slot",
    "span that holds a week's slot",
    "span that holds a holiday's slot",
];

/// One try: a book by random calls, one more delivery, and both publications.
pub fn one(
    rng: &mut Rng,
    index: u64,
    side: &dyn Side,
    sentence: &Sentence,
    tally: &mut Tally,
) -> Result<(), String> {
    let mut maker = Maker::new(rng, index, side);
    maker.fill();
    let before = maker.lists.clone();
    let file = maker.published()?;
    let i = maker.late_figure()?;
    let later = maker.published()?;
    let (head, shape) = (maker.head, maker.shape);
    let books = Books {
        shape: &shape,
        before: &before,
        after: &maker.lists,
        i,
    };
    let reach = books.reach(sentence);
    let moved = moved(&shape, &file, &later).map_err(|what| format!("{what}; {head:?}, i {i}"))?;
    if let Some(what) = reach.outside(&moved) {
        return Err(format!("{what} moved; {head:?}, i {i}"));
    }
    let mut count = Count {
        books: &books,
        reach: &reach,
        moved: &moved,
        tally,
    };
    count.all();
    Ok(())
}

// Books

struct Maker<'a> {
    rng: &'a mut Rng,
    side: &'a dyn Side,
    head: Head,
    shape: Shape,
    lists: Lists,
    /// Positions that are delivered at all.
    positions: Vec<usize>,
    /// A position of long books that comes every day, so that no run is longer.
    breaking: usize,
    long: bool,
    calm: bool,
}

/// How often things happen in a book: one in so many, or never.
struct Odds {
    lost: usize,
    failed: usize,
    outage: usize,
    holiday: usize,
    agreed: usize,
    /// The highest value.
    most: u32,
}

impl<'a> Maker<'a> {
    fn new(rng: &'a mut Rng, index: u64, side: &'a dyn Side) -> Maker<'a> {
        let long = matches!(index % 16, 6 | 7 | 15);
        let calm = matches!(index % 8, 3..6);
        let (days, interval) = match index % 16 {
            0 | 8 => (rng.pick(&[1, 1, 2, 3]), rng.pick(&[5, 15, 30])),
            14 => (rng.between(22, 60), 30),
            _ if long => (rng.pick(&[371, 385, 400, 400]), 30),
            _ => (rng.pick(&[1, 2, 8, 9, 9, 15, 15, 22]), 30),
        };
        let head = heads::random(rng, days, interval);
        let shape = head.shape().expect("a head made to be in bounds");
        let n = shape.slots_a_day;
        let first = rng.below(n - 3);
        Maker {
            positions: if long {
                (first..first + 1 + rng.below(3)).collect()
            } else {
                (0..n).collect()
            },
            breaking: if long { (first + 9) % n } else { n },
            lists: Lists::unopened(shape.slots, shape.days),
            rng,
            side,
            head,
            shape,
            long,
            calm,
        }
    }

    /// The highest value that passes the demand test.
    fn limit(&self) -> u32 {
        self.shape.limit * self.shape.interval / 60
    }

    fn odds(&mut self) -> Odds {
        let limit = self.limit();
        let most = self.rng.pick(&[0, 3, 40, limit, limit, limit + 1]);
        let rng = &mut *self.rng;
        if self.calm {
            return Odds {
                lost: rng.pick(&[0, 60, 12]),
                failed: rng.pick(&[0, 0, 40]),
                outage: rng.pick(&[0, 0, 60]),
                holiday: rng.pick(&[0, 4, 2]),
                agreed: rng.pick(&[0, 0, 40]),
                most,
            };
        }
        Odds {
            lost: rng.pick(&[1, 2, 2, 4, 10]),
            failed: rng.pick(&[0, 3, 8]),
            outage: rng.pick(&[0, 4, 20]),
            holiday: rng.pick(&[0, 8, 2]),
            agreed: rng.pick(&[0, 0, 3, 30]),
            most,
        }
    }

    /// Opening and the calls after it.
    fn fill(&mut self) {
        self.side.open(self.head, &mut self.lists);
        let odds = self.odds();
        let few = self.rng.pick(&[3, 40, 400, 400]);
        let lost = self.lost_hours();
        for (slot, lost) in lost.into_iter().enumerate() {
            let position = slot % self.shape.slots_a_day;
            let comes = if position == self.breaking {
                true
            } else if self.long {
                self.positions.contains(&position) && self.rng.one_in(few)
            } else {
                !self.rng.one_in(odds.lost)
            };
            if comes && !lost {
                self.delivery(slot, &odds);
            }
            if self.rng.one_in(odds.agreed) {
                self.agreement(slot, odds.most);
            }
        }
        for day in 0..self.shape.days {
            // Far holidays, for the Sundays of a year before.
            let far = self.long && day > 350 && self.rng.one_in(2);
            if far || self.rng.one_in(odds.holiday) {
                self.side.holiday(self.head, &mut self.lists, narrowed(day));
            }
        }
        self.registers();
        self.wild();
    }

    /// In calm books, more than two hours on some days: such slots take references.
    fn lost_hours(&mut self) -> Vec<bool> {
        let mut lost = vec![false; self.shape.slots];
        if self.calm {
            for day in lost.chunks_mut(self.shape.slots_a_day).skip(1) {
                let start = self.rng.below(day.len() - 9);
                let g = 5 + self.rng.below(4);
                day[start..start + g].fill(self.rng.one_in(3));
                // And a short run over the day's start, for a line.
                day[0] |= self.rng.one_in(4);
            }
            for slot in 1..lost.len() {
                let last = slot.is_multiple_of(self.shape.slots_a_day) && lost[slot];
                lost[slot - 1] |= last;
            }
        }
        lost
    }

    fn value(&mut self, most: u32) -> u32 {
        self.rng.between(0, most)
    }

    fn status(&mut self, odds: &Odds) -> u32 {
        let mut status = 0;
        if self.rng.one_in(odds.failed) {
            status |= self.rng.pick(&[TIME_CHANGE, PARTIAL]);
        }
        if self.rng.one_in(odds.outage) {
            status |= OUTAGE;
        }
        status.into()
    }

    fn delivery(&mut self, slot: usize, odds: &Odds) {
        let delivery = Delivery {
            slot: narrowed(slot),
            version: self.rng.between(1, 3),
            value: self.value(odds.most),
            status: self.status(odds),
        };
        self.side.deliver(self.head, &mut self.lists, delivery);
    }

    fn agreement(&mut self, slot: usize, most: u32) {
        let agreement = Agreement {
            slot: narrowed(slot),
            version: 1,
            value: self.value(most),
        };
        self.side.agree(self.head, &mut self.lists, agreement);
    }

    /// Reads that mostly leave something to be shared out.
    fn registers(&mut self) {
        let days = self.shape.days;
        let way = match (self.calm, self.long) {
            (true, _) => self.rng.below(4),
            (_, true) => self.rng.pick(&[0, 3, 5, 5, 5]),
            _ => self.rng.below(6),
        };
        let boundaries: Vec<usize> = match way {
            0 | 1 => (0..=days).collect(),
            2 => (0..=days).filter(|_| self.rng.one_in(2)).collect(),
            3 => vec![0, days],
            4 => vec![self.rng.below(days + 1)],
            _ => Vec::new(),
        };
        let cells = self.lists.cells();
        let causes = rules::causes(&self.shape, &cells);
        let filled = rules::fill(&self.shape, &cells, &causes).slots;
        let mut reading = self.rng.word() % DIAL;
        for (at, &boundary) in boundaries.iter().enumerate() {
            if at > 0 {
                let range = rules::span_slots(&self.shape, boundaries[at - 1], boundary);
                reading = (reading + self.advance(&filled[range])) % DIAL;
            }
            let read = RegisterRead {
                boundary: narrowed(boundary),
                version: 1,
                reading,
                width: self.rng.pick(&[0, 0, 0, 1, 30, 9_999]),
            };
            self.side.register(self.head, &mut self.lists, read);
        }
    }

    fn advance(&mut self, slots: &[Slot]) -> u32 {
        let v = rules::settled_sum(slots);
        let t = u64::from(self.shape.tolerance);
        let more = self.rng.below(1000) as u64;
        let much = self.rng.below(1_000_000) as u64;
        let advance = self
            .rng
            .pick(&[v, v + 1, v + t, v + more, v + much, v + much]);
        narrowed(advance % u64::from(DIAL))
    }

    /// Calls that are late, repeats or refused, and a few newer versions.
    fn wild(&mut self) {
        for _ in 0..self.rng.below(6) {
            let slot = self.rng.below(self.shape.slots + 1);
            let limit = self.limit();
            let delivery = Delivery {
                slot: narrowed(slot),
                version: self.rng.between(0, 4),
                value: self.value(limit),
                status: self.rng.pick(&[0, 0, 1, 2, 4, 8]),
            };
            self.side.deliver(self.head, &mut self.lists, delivery);
        }
    }

    fn published(&self) -> Result<Vec<u8>, String> {
        let spans = self.shape.days;
        let mut out = vec![0; file::length(file::LAYOUT, self.shape.slots, spans)];
        match self.side.publish(self.head, &self.lists, &mut out) {
            Answer::Length(length) => {
                out.truncate(narrowed(length));
                Ok(out)
            }
            other => Err(format!("publishing: {other:?}; {:?}", self.head)),
        }
    }

    /// Stores one more delivery, and answers its slot.
    fn late_figure(&mut self) -> Result<usize, String> {
        let i = self.late_slot();
        let (value, status) = (self.lists.values[i], self.lists.statuses[i]);
        let limit = self.limit();
        let any = self.value(limit);
        let delivery = Delivery {
            slot: narrowed(i),
            version: self.lists.versions[i] + self.rng.between(1, 2),
            value: self.rng.pick(&[value, any, any, any, 0, limit + 1]),
            status: u32::from(self.rng.pick(&[
                0,
                0,
                0,
                0,
                0,
                0,
                0,
                status,
                OUTAGE,
                TIME_CHANGE,
                PARTIAL,
                TIME_CHANGE | OUTAGE,
            ])),
        };
        match self.side.deliver(self.head, &mut self.lists, delivery) {
            Answer::Filed(Filed::Stored) => Ok(i),
            other => Err(format!("{delivery:?}: {other:?}; {:?}", self.head)),
        }
    }

    /// Any slot, one beside a run, or one that a slot with a cause may refer to.
    fn late_slot(&mut self) -> usize {
        let any = self.rng.below(self.shape.slots);
        let causes = rules::causes(&self.shape, &self.lists.cells());
        let causes: Vec<bool> = causes.iter().map(Option::is_some).collect();
        let slot = match self.rng.below(6) {
            0 | 1 => None,
            2 => self.beside(&causes),
            _ => self.referred(&causes),
        };
        slot.unwrap_or(any)
    }

    /// The slot before or behind a run, of such that go over a day's end where there are any.
    fn beside(&mut self, causes: &[bool]) -> Option<usize> {
        let n = self.shape.slots_a_day;
        let runs = rules::runs(causes);
        let over = |run: &&Range<usize>| run.start / n < (run.end - 1) / n;
        let mut from: Vec<&Range<usize>> = runs.iter().filter(over).collect();
        if from.is_empty() {
            from = runs.iter().collect();
        }
        let run = from.get(self.rng.below(from.len()))?;
        let slot = if self.rng.one_in(2) {
            run.start.checked_sub(1)?
        } else {
            run.end
        };
        (slot < self.shape.slots).then_some(slot)
    }

    /// A slot among those that the references of another are looked for in.
    fn referred(&mut self, causes: &[bool]) -> Option<usize> {
        let n = self.shape.slots_a_day;
        let target = self.waiting(causes)?;
        let day = target / n;
        let (nearest, farthest) = if self.lists.holidays[day] == 0 {
            (7, 364)
        } else {
            (rules::sunday_back(self.shape.first_day as usize + day), 370)
        };
        let back: Vec<usize> = (nearest..=farthest.min(day)).step_by(7).collect();
        let last = back.len().checked_sub(1)?;
        let any = self.rng.below(back.len());
        let at = self.rng.pick(&[0, any, last, last, last]);
        Some(target - back[at] * n)
    }

    /// A slot with a cause; in long books mostly one with a year before it, or a Saturday's
    /// with a Sunday 370 days before, in calm ones often a holiday's.
    fn waiting(&mut self, causes: &[bool]) -> Option<usize> {
        let n = self.shape.slots_a_day;
        let first_day = self.shape.first_day as usize;
        let least = if self.long {
            self.rng.pick(&[0, 364, 364, 370, 370])
        } else {
            0
        };
        let feasts = self.calm && self.rng.one_in(2);
        let holidays = &self.lists.holidays;
        let positions = &self.positions;
        let waiting = (0..self.shape.slots).filter(|&slot| {
            let day = slot / n;
            // 2000-01-01 was a Saturday.
            let far = match least {
                364 => holidays[day] == 0,
                370 => holidays[day] == 1 && (first_day + day).is_multiple_of(7),
                _ => !feasts || holidays[day] == 1,
            };
            causes[slot] && positions.contains(&(slot % n)) && day >= least && far
        });
        let waiting: Vec<usize> = waiting.collect();
        waiting.get(self.rng.below(waiting.len())).copied()
    }
}

// Classes

struct Count<'a> {
    books: &'a Books<'a>,
    reach: &'a Reach,
    moved: &'a Moved,
    tally: &'a mut Tally,
}

impl Count<'_> {
    fn all(&mut self) {
        self.book();
        self.figure();
        for at in 0..self.moved.slots.len() {
            self.slot(self.moved.slots[at]);
        }
        for at in 0..self.moved.spans.len() {
            self.span(self.moved.spans[at]);
        }
        let alone = self.moved.slots == [self.books.i] && self.moved.spans.is_empty();
        let nothing = self.moved == &Moved::default();
        self.tally.add_if(alone, "i alone moved");
        self.tally.add_if(nothing, "nothing moved");
    }

    fn book(&mut self) {
        let shape = self.books.shape;
        self.tally.add(&format!("L {}", shape.interval));
        let days = match shape.days {
            1 => "D 1",
            2..=60 => "D 2 to 60",
            _ => "D over 370",
        };
        self.tally.add(days);
    }

    /// What the delivery did to slot i.
    fn figure(&mut self) {
        let &Books {
            shape,
            before,
            after,
            i,
        } = self.books;
        let good = |lists: &Lists| {
            let (value, version) = (lists.values[i], lists.versions[i]);
            rules::cause(shape, value, version, lists.statuses[i]).is_none()
        };
        self.tally.add(match (good(before), good(after)) {
            (true, true) => "i good in both books",
            (true, false) => "i good, then with a cause",
            (false, true) => "i with a cause, then good",
            (false, false) => "i with a cause in both books",
        });
        self.tally.add(match before.versions[i] {
            0 => "first delivery",
            _ => "later version",
        });
        let outage = |lists: &Lists| lists.statuses[i] & OUTAGE != 0;
        let (was, is) = (outage(before), outage(after));
        self.tally.add_if(is && !was, "outage bit came");
        self.tally.add_if(was && !is, "outage bit went");
        let agreed = after.agreed_versions[i] > 0 && self.moved.slots.contains(&i);
        self.tally.add_if(agreed, "i agreed, moved");
    }

    /// A slot that moved under one clause alone: without it, the sentence would be wrong.
    fn slot(&mut self, slot: usize) {
        let clauses = self.reach.slots[slot];
        if clauses.span && !clauses.direct() {
            let mut spans = self.reach.spans.iter();
            let span = spans.find(|(range, _)| range.contains(&slot));
            let range = span.expect("it is in one").0.clone();
            if let Some(holder) = self.holder(range) {
                self.tally
                    .add(&format!("slot of a span that holds {holder}"));
            }
        } else if !clauses.span {
            self.direct(slot, clauses);
        }
    }

    fn direct(&mut self, slot: usize, clauses: Clauses) {
        let later = (slot - self.books.i.min(slot)) / self.books.shape.slots_a_day;
        let name = match clauses {
            Clauses { itself: true, .. } => "i itself",
            Clauses { week: true, .. } if !clauses.run() => match later {
                7 => "7 days later",
                364 => "364 days later",
                _ => "14 to 357 days later",
            },
            Clauses { sunday: true, .. } if !clauses.run() => match later {
                ..7 => "holiday up to 6 days after a Sunday",
                7..358 => "holiday 7 to 357 days after a Sunday",
                358..365 => "holiday 358 to 364 days after a Sunday",
                365..370 => "holiday 365 to 369 days after a Sunday",
                _ => "holiday 370 days after a Sunday",
            },
            _ if clauses.week || clauses.sunday => return,
            _ => match (clauses.held_before, clauses.held_after, clauses.precedes) {
                (true, true, _) => "run that holds i in both books",
                (true, false, _) => "run that holds i in the book before",
                (false, true, _) => "run that holds i in the book after",
                (false, false, true) => "run before i",
                (false, false, false) => "run behind i",
            },
        };
        self.tally.add(name);
    }

    fn span(&mut self, span: usize) {
        if let Some(holder) = self.holder(self.reach.spans[span].0.clone()) {
            self.tally.add(&format!("span that holds {holder}"));
        }
    }

    /// What a span holds, where it is of one kind; i goes with any other.
    fn holder(&self, range: Range<usize>) -> Option<&'static str> {
        let slots = &self.reach.slots[range];
        let has = |clause: fn(&Clauses) -> bool| slots.iter().any(clause);
        let kinds = [
            has(Clauses::run),
            has(|slot| slot.week),
            has(|slot| slot.sunday),
        ];
        match (has(|slot| slot.itself), kinds) {
            (true, _) => Some("i"),
            (false, [true, false, false]) => Some("a run's slot"),
            (false, [false, true, false]) => Some("a week's slot"),
            (false, [false, false, true]) => Some("a holiday's slot"),
            _ => None,
        }
    }
}

/// The second build, for the check of itself.
pub const SECOND: &dyn Side = &Second;

#[cfg(test)]
mod tests {
    use super::*;
    use crate::second::reach::W14;
    use crate::second::reader::Figures;

    fn run(side: &dyn Side, sentence: &Sentence, tries: u64) -> Result<Tally, String> {
        let mut tally = Tally::new(CLASSES);
        for index in 0..tries {
            let mut rng = Rng::new(1, index);
            one(&mut rng, index, side, sentence, &mut tally)
                .map_err(|what| format!("try {index}: {what}"))?;
        }
        Ok(tally)
    }

    #[test]
    fn w14_holds_of_the_second_build() {
        let tally = run(SECOND, &W14, 1200).expect("nothing outside W14 moves");
        assert!(tally.missing().len() < 3, "{:?}", tally.missing());
    }

    #[test]
    fn sentences_that_leave_a_part_out_are_refuted() {
        for sentence in [
            Sentence {
                holding: false,
                ..W14
            },
            Sentence {
                touching: false,
                ..W14
            },
            Sentence { weeks: 357, ..W14 },
            Sentence {
                sundays: 369,
                ..W14
            },
            Sentence {
                spans: false,
                ..W14
            },
        ] {
            assert!(run(SECOND, &sentence, 5000).is_err(), "{sentence:?}");
        }
    }

    /// A build whose last slot has the number of deliveries in it.
    struct Meddled;

    impl Side for Meddled {
        fn open(&self, head: Head, lists: &mut Lists) -> Answer {
            Second.open(head, lists)
        }

        fn deliver(&self, head: Head, lists: &mut Lists, delivery: Delivery) -> Answer {
            Second.deliver(head, lists, delivery)
        }

        fn holiday(&self, head: Head, lists: &mut Lists, day: u32) -> Answer {
            Second.holiday(head, lists, day)
        }

        fn register(&self, head: Head, lists: &mut Lists, read: RegisterRead) -> Answer {
            Second.register(head, lists, read)
        }

        fn agree(&self, head: Head, lists: &mut Lists, agreement: Agreement) -> Answer {
            Second.agree(head, lists, agreement)
        }

        fn publish(&self, head: Head, lists: &Lists, out: &mut [u8]) -> Answer {
            let delivered = lists.versions.iter().filter(|&&version| version > 0);
            let count = narrowed(delivered.count() % 256);
            let answer = Second.publish(head, lists, out);
            out[6 * (lists.values.len() - 1)] = count;
            answer
        }

        fn read(&self, file: &[u8]) -> Result<Figures, u64> {
            Second.read(file)
        }

        fn tables(&self, file: &[u8]) -> u64 {
            Second.tables(file)
        }
    }

    #[test]
    fn a_figure_that_reaches_too_far_is_found() {
        assert!(run(&Meddled, &W14, 400).is_err());
    }
}
