//! Random books: a head and a list of calls, from a seed. `deliveries`, `agreements` and
//! `registers` fill a book, `again` repeats calls, `wild` makes such that are mostly refused, and
//! `written` writes cells behind the book's back.

mod again;
mod agreements;
mod deliveries;
mod registers;
mod wild;
mod written;

use crate::compare::calls::{Act, Book, Call, Room};
use crate::compare::heads;
use crate::compare::rng::Rng;
use crate::compare::side::{Answer, Second, apply};
use crate::number::narrowed;
use crate::second::head::{DIAL, Head, MOST_LIMIT, Shape};
use crate::second::lists::{Delivery, Lists, RegisterRead};
use crate::second::rules::FARTHEST;

/// A book gets at most about this many deliveries, so that most run in a moment.
const MOST_DELIVERIES: usize = 3000;

const MOST_WIDTH: u32 = crate::second::book::MOST_WIDTH as u32;

/// The `index`th book of a seed.
pub fn book(seed: u64, index: u64) -> Book {
    let mut rng = Rng::new(seed, index);
    let (days, interval) = heads::size(&mut rng, index);
    // Of the long books, but the large ones that every seed has.
    if days as usize > FARTHEST && index % 100 != 7 && rng.one_in(4) {
        heavy_book(rng, days, interval)
    } else {
        book_of(rng, days, interval)
    }
}

/// The file of the `index`th small book of a seed.
pub fn small_file(seed: u64, index: u64) -> Vec<u8> {
    let mut rng = Rng::new(seed, index);
    let days = rng.pick(&[1, 1, 2, 3, 8, 9, 15]);
    let interval = if days == 1 {
        rng.pick(&[5, 15, 30, 30])
    } else {
        30
    };
    file_of(rng, days, interval)
}

/// The file of a book of these days and this interval.
pub fn file_of(mut rng: Rng, days: u32, interval: u32) -> Vec<u8> {
    let book = loop {
        let book = book_of(rng.clone(), days, interval);
        if book.head.shape().is_ok() {
            break book;
        }
        rng.word();
    };
    let mut lists = Lists::unopened(book.slots, book.days);
    let mut out = vec![0; 6 * book.slots + 14 * book.days + 32];
    let mut file = Vec::new();
    for call in book.calls.iter().filter(|call| call.resized.is_none()) {
        let answer = apply(&Second, call, &mut lists, &mut out);
        if let (Some(Answer::Length(length)), true) = (answer, file.is_empty()) {
            file = out[..narrowed(length)].to_vec();
        }
    }
    file
}

/// A year of slots by the highest references, to be fitted to nearly the whole dial.
fn heavy_book(mut rng: Rng, days: u32, interval: u32) -> Book {
    let head = Head {
        limit: MOST_LIMIT,
        ..heads::random(&mut rng, days, interval)
    };
    Maker::new(rng, head).heavy_book()
}

fn book_of(mut rng: Rng, days: u32, interval: u32) -> Book {
    let head = heads::random(&mut rng, days, interval);
    let mut maker = Maker::new(rng, head);
    if maker.rng.one_in(40) {
        maker.refused_book()
    } else {
        maker.ordinary_book()
    }
}

struct Maker {
    rng: Rng,
    head: Head,
    shape: Shape,
    calls: Vec<Call>,
    /// Whether most slots come and most spans with references are to be scaled.
    fitting: bool,
}

impl Maker {
    fn new(rng: Rng, head: Head) -> Maker {
        Maker {
            rng,
            head,
            shape: head.shape().expect("a head made to be in bounds"),
            calls: Vec::new(),
            fitting: false,
        }
    }

    fn call(&self, act: Act) -> Call {
        Call {
            head: self.head,
            resized: None,
            act,
        }
    }

    fn push(&mut self, act: Act) {
        self.calls.push(self.call(act));
    }

    fn insert_anywhere(&mut self, from: usize, call: Call) {
        let at = from + self.rng.below(self.calls.len() - from + 1);
        self.calls.insert(at, call);
    }

    fn finish(self) -> Book {
        Book {
            head: self.head,
            slots: self.shape.slots,
            days: self.shape.days,
            calls: self.calls,
        }
    }

    /// Every call is given the same head out of bounds.
    fn refused_book(mut self) -> Book {
        self.push(Act::Open);
        self.wild_calls(12);
        self.push(Act::Publish { room: Room::Exact });
        self.head = heads::broken(&mut self.rng, self.head);
        for call in &mut self.calls {
            call.head = self.head;
        }
        self.finish()
    }

    /// The first days delivered, as few as each later day needs for a reference.
    fn heavy_book(mut self) -> Book {
        let (days, n) = (self.shape.days, self.shape.slots_a_day);
        let early = 7.max(days - FARTHEST);
        let lower = self.rng.pick(&[0, 3, 30]);
        self.push(Act::Open);
        for slot in 0..early * n {
            let less = u32::from(self.rng.one_in(lower));
            let act = Act::Deliver(Delivery {
                slot: narrowed(slot),
                version: 1,
                value: self.most() - less,
                status: 0,
            });
            self.push(act);
        }
        let reading = self.rng.word() % DIAL;
        let advance = DIAL - 1 - self.rng.between(0, 9);
        for (boundary, reading) in [(early, reading), (days, (reading + advance) % DIAL)] {
            let act = Act::Register(RegisterRead {
                boundary: narrowed(boundary),
                version: 1,
                reading,
                width: 0,
            });
            self.push(act);
        }
        self.push(Act::Publish { room: Room::Exact });
        self.finish()
    }

    fn ordinary_book(mut self) -> Book {
        let weeks = self.shape.days > 14 && self.shape.slots <= 2 * MOST_DELIVERIES;
        self.fitting = weeks && self.rng.one_in(3);
        if self.rng.one_in(6) {
            self.wild_calls(3);
        }
        if self.rng.one_in(5) {
            let open = self.call(Act::Open);
            let refused = self.refusable(open);
            self.calls.push(refused);
        }
        self.push(Act::Open);
        let opened = self.calls.len();
        self.deliveries();
        self.holidays(opened);
        self.agreements(opened);
        self.registers(opened);
        self.wild_calls_among(opened);
        self.publishing(opened);
        if self.rng.one_in(6) {
            self.corruption();
        } else if self.rng.one_in(3) {
            self.wrong_counts();
        }
        self.finish()
    }

    /// The cells as the deliveries, holidays and agreed values so far leave them.
    fn lists_so_far(&self) -> Lists {
        let mut lists = Lists::zeroed(self.shape.slots, self.shape.days);
        for call in &self.calls {
            let usual = call.head == self.head && call.resized.is_none();
            let fills = matches!(
                call.act,
                Act::Deliver(_) | Act::Holiday { .. } | Act::Agree(_)
            );
            if usual && fills {
                apply(&Second, call, &mut lists, &mut []);
            }
        }
        lists
    }

    /// The cells as all calls so far leave them.
    fn lists_now(&self) -> Lists {
        let mut lists = Lists::unopened(self.shape.slots, self.shape.days);
        for call in &self.calls {
            let publish = matches!(call.act, Act::Publish { .. });
            if call.resized.is_none() && !publish {
                apply(&Second, call, &mut lists, &mut []);
            }
        }
        lists
    }

    /// The highest value that passes the demand test.
    fn most(&self) -> u32 {
        self.shape.limit * self.shape.interval / 60
    }
}

#[cfg(test)]
mod tests {
    use super::*;

    #[test]
    fn a_seed_gives_the_same_book() {
        let (one, two) = (book(5, 9), book(5, 9));
        assert_eq!(one.calls, two.calls);
        assert_ne!(one.calls, book(6, 9).calls);
    }

    #[test]
    fn small_files_are_accepted() {
        for index in 0..40 {
            let file = small_file(3, index);
            assert!(crate::second::reader::read(&file).is_ok(), "{index}");
        }
    }
}
