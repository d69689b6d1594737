//! Calls that are mostly refused, and publishing.

use super::{MOST_WIDTH, Maker};
use crate::compare::calls::{Act, Call, Room};
use crate::compare::heads;
use crate::compare::rng::Rng;
use crate::number::narrowed;
use crate::second::head::DIAL;
use crate::second::lists::{Agreement, Delivery, List, RegisterRead};

impl Maker {
    pub(super) fn wild_calls_among(&mut self, opened: usize) {
        for _ in 0..self.rng.below(12) {
            let call = self.wild_call();
            self.insert_anywhere(opened, call);
        }
        if self.rng.one_in(3) {
            let open = self.call(Act::Open);
            let refused = self.refusable(open);
            self.insert_anywhere(opened, refused);
        }
        if self.rng.one_in(30) {
            let open = self.call(Act::Open);
            self.insert_anywhere(opened, open);
        }
    }

    pub(super) fn wild_calls(&mut self, many: usize) {
        for _ in 0..many {
            let call = self.wild_call();
            self.calls.push(call);
        }
    }

    /// A filling call or publishing with any arguments, a strange head or list now and then.
    fn wild_call(&mut self) -> Call {
        let act = self.wild_act();
        let call = self.call(act);
        if self.rng.one_in(3) {
            self.refusable(call)
        } else {
            call
        }
    }

    /// The same call with another head, a list of another length, or both.
    pub(super) fn refusable(&mut self, mut call: Call) -> Call {
        match self.rng.below(5) {
            0 => call.head = heads::broken(&mut self.rng, call.head),
            1 => call.head = heads::other(&mut self.rng, call.head),
            2 => {
                call.head = heads::broken(&mut self.rng, call.head);
                call.resized = self.wrong_list(call.act);
            }
            _ => call.resized = self.wrong_list(call.act),
        }
        // An opening must be refused here, or it would end the book so far.
        if call.act == Act::Open && call.head.shape().is_ok() {
            call.resized = self.wrong_list(call.act);
        }
        call
    }

    fn wrong_list(&mut self, act: Act) -> Option<(List, usize)> {
        let list = self.rng.pick(act.lent());
        let len = match list {
            List::Values | List::Versions | List::Statuses => self.shape.slots,
            List::Agreed | List::AgreedVersions => self.shape.slots,
            List::Holidays | List::Counts => self.shape.days,
            List::Readings | List::ReadVersions | List::Widths => self.shape.days + 1,
        };
        let day = self.shape.slots_a_day;
        Some((
            list,
            self.rng
                .pick(&[len - 1, len + 1, 0, len / 2, len + day, 2 * len]),
        ))
    }

    fn wild_act(&mut self) -> Act {
        let any = self.rng.word();
        let version = self.rng.pick(&[0, 1, 1, 2, 3, u32::MAX, any]);
        match self.rng.below(10) {
            0..=2 => self.wild_delivery(version),
            3 | 4 => self.wild_holiday(),
            5 | 6 => self.wild_register(version),
            7 | 8 => self.wild_agreement(version),
            _ => Act::Publish {
                room: self
                    .rng
                    .pick(&[Room::Exact, Room::Under(1), Room::Of(0), Room::Over(9)]),
            },
        }
    }

    /// A slot of the book, or one outside it.
    fn wild_slot(&mut self) -> u32 {
        let slots = narrowed(self.shape.slots);
        let slot = narrowed(self.rng.below(self.shape.slots));
        self.rng
            .pick(&[slot, slot, 0, slots - 1, slots, slots + 1, u32::MAX])
    }

    fn wild_delivery(&mut self, version: u32) -> Act {
        let statuses = [0, 0, 1, 2, 4, 7, 8, 9, 255, 256, 257, u32::MAX];
        Act::Deliver(Delivery {
            slot: self.wild_slot(),
            version,
            value: self.rng.pick(&[0, 1, 100, 40_000, u32::MAX]),
            status: self.rng.pick(&statuses),
        })
    }

    fn wild_holiday(&mut self) -> Act {
        let days = narrowed(self.shape.days);
        let day = narrowed(self.rng.below(self.shape.days));
        Act::Holiday {
            day: self
                .rng
                .pick(&[day, day, days - 1, days, days + 1, u32::MAX]),
        }
    }

    fn wild_register(&mut self, version: u32) -> Act {
        let days = narrowed(self.shape.days);
        let boundary = narrowed(self.rng.below(self.shape.days + 1));
        let boundaries = [boundary, boundary, days, days + 1, u32::MAX];
        Act::Register(RegisterRead {
            boundary: self.rng.pick(&boundaries),
            version,
            reading: self.rng.pick(&[0, 5, DIAL - 1, DIAL, DIAL + 1, u32::MAX]),
            width: wild_width(&mut self.rng),
        })
    }

    fn wild_agreement(&mut self, version: u32) -> Act {
        let values = [0, 1, 100, DIAL - 1, DIAL, DIAL + 1, u32::MAX];
        Act::Agree(Agreement {
            slot: self.wild_slot(),
            version,
            value: self.rng.pick(&values),
        })
    }

    pub(super) fn publishing(&mut self, opened: usize) {
        if self.rng.one_in(4) && self.calls.len() < 2000 {
            let call = self.call(Act::Publish { room: Room::Exact });
            self.insert_anywhere(opened, call);
        }
        if self.rng.one_in(4) {
            let room = self.rng.pick(&[
                Room::Under(1),
                Room::Under(10),
                Room::Under(33),
                Room::Of(31),
                Room::Of(0),
            ]);
            self.push(Act::Publish { room });
        }
        let more = self.rng.below(100);
        let room = self
            .rng
            .pick(&[Room::Exact, Room::Over(1), Room::Over(more)]);
        self.push(Act::Publish { room });
    }
}

/// A width in bounds or over them; of over 16 bits some that are in bounds in 16.
fn wild_width(rng: &mut Rng) -> u32 {
    let any = rng.word();
    let over = rng.between(MOST_WIDTH + 1, 65_535);
    rng.pick(&[
        0,
        0,
        1,
        MOST_WIDTH,
        MOST_WIDTH + 1,
        over,
        65_535,
        65_536,
        65_537,
        any,
        u32::MAX,
    ])
}
