//! Cells that no calls could leave, the calls that meet them, and what comes after.

use super::{MOST_WIDTH, Maker};
use crate::compare::calls::{Act, Room};
use crate::number::narrowed;
use crate::second::head::DIAL;
use crate::second::lists::{Agreement, Delivery, List, Lists, RegisterRead};

impl Maker {
    /// Cells no calls could leave, the calls that meet them, and a new opening.
    pub(super) fn corruption(&mut self) {
        let (list, index, value) = self.written_cell();
        self.push(Act::Write { list, index, value });
        for version in [1, 2, 0, u32::MAX] {
            let act = self.meeting(list, narrowed(index), version);
            self.push(act);
        }
        self.publish_and_reopen();
    }

    /// A cell and what is written there, mostly impossible.
    fn written_cell(&mut self) -> (List, usize, u32) {
        let slot = self.rng.below(self.shape.slots);
        let day = self.rng.below(self.shape.days);
        let days = self.shape.days;
        let any = self.rng.below(days + 1);
        let boundary = self.rng.pick(&[0, days, any, any]);
        let byte = u32::from(self.rng.byte());
        let word = self.rng.word();
        match self.rng.below(24) {
            0 => (List::Statuses, slot, 8 + byte % 248),
            1 => (List::Statuses, slot, 8),
            2 => (List::Versions, slot, 0),
            3 => (List::Values, slot, word),
            4 => (List::Statuses, slot, byte % 8),
            5 => (List::Holidays, day, 2 + byte % 254),
            6 => (List::Readings, boundary, over_the_dial(word)),
            7 => (List::ReadVersions, boundary, 0),
            8 => (List::Readings, boundary, 1),
            9 | 10 => (List::Agreed, slot, over_the_dial(word)),
            11 | 12 => (List::Agreed, slot, 1),
            13 => (List::Agreed, slot, DIAL - 1),
            14 => (List::AgreedVersions, slot, 0),
            15..18 => (List::Widths, boundary, MOST_WIDTH + 1),
            18 => (List::Widths, boundary, (word % 65_536).max(MOST_WIDTH + 1)),
            19 | 20 => (List::Widths, boundary, 1),
            21 => (List::Widths, boundary, MOST_WIDTH),
            _ => (List::Holidays, day, 2),
        }
    }

    /// A call on the slot, day or boundary of a written cell.
    fn meeting(&mut self, list: List, at: u32, version: u32) -> Act {
        let value = self.rng.word();
        let status = self.rng.pick(&[0, 0, 8]);
        let reading = self.rng.pick(&[0, 1, DIAL]);
        let width = self.rng.pick(&[0, 0, 1, MOST_WIDTH + 1]);
        match list {
            List::Values | List::Versions | List::Statuses | List::Counts => {
                Act::Deliver(Delivery {
                    slot: at,
                    version,
                    value,
                    status,
                })
            }
            List::Holidays => Act::Holiday { day: at },
            List::Readings | List::ReadVersions | List::Widths => Act::Register(RegisterRead {
                boundary: at,
                version,
                reading,
                width,
            }),
            List::Agreed | List::AgreedVersions => Act::Agree(Agreement {
                slot: at,
                version,
                value: reading,
            }),
        }
    }

    /// Publishings after a cell was written, more calls, and a new opening.
    fn publish_and_reopen(&mut self) {
        self.push(Act::Publish { room: Room::Exact });
        self.push(Act::Publish { room: Room::Of(5) });
        self.wild_calls(3);
        if self.rng.one_in(2) {
            self.push(Act::Open);
            self.wild_calls(3);
            self.push(Act::Publish { room: Room::Exact });
        }
    }

    /// Counts no calls could leave, the calls that meet them, and right ones again.
    pub(super) fn wrong_counts(&mut self) {
        let lists = self.lists_now();
        let slots = self.shape.slots;
        let start = self.rng.below(slots);
        let waiting = (start..slots)
            .chain(0..start)
            .find(|&slot| lists.versions[slot] == 0);
        match waiting {
            Some(slot) if self.rng.one_in(2) => self.full_too_early(&lists, slot),
            _ => self.miscounted(&lists),
        }
        if self.rng.one_in(2) {
            return self.publish_and_reopen();
        }
        self.push(Act::Publish { room: Room::Exact });
        let mut right = self.lists_now();
        let counts = right.counts.clone();
        right.recount(self.shape.slots_a_day);
        for (day, &count) in counts.iter().enumerate() {
            if right.counts[day] != count {
                self.write_count(day, right.counts[day].into());
            }
        }
        self.push(Act::Publish { room: Room::Exact });
    }

    fn write_count(&mut self, index: usize, value: u32) {
        let list = List::Counts;
        self.push(Act::Write { list, index, value });
    }

    /// No room in the day of a slot that waits for its first delivery, or for one only.
    fn full_too_early(&mut self, lists: &Lists, slot: usize) {
        let n = self.shape.slots_a_day;
        let (full, day) = (narrowed(n), slot / n);
        let any = self.rng.between(full, 65_535);
        let count = [
            full,
            full,
            full + 1,
            full + 1,
            65_535,
            65_535,
            full - 1,
            any,
        ];
        let count = self.rng.pick(&count);
        self.write_count(day, count);
        let in_day = day * n..(day + 1) * n;
        let is_waiting = |&slot: &usize| lists.versions[slot] == 0;
        let mut slots = vec![slot, slot];
        // One that has come, and another that hasn't.
        slots.extend(in_day.clone().find(|slot| !is_waiting(slot)));
        slots.extend(in_day.clone().rev().find(is_waiting));
        self.rng.shuffle(&mut slots);
        for slot in slots {
            let version = lists.versions[slot];
            let any = self.rng.word();
            let act = Act::Deliver(Delivery {
                slot: narrowed(slot),
                version: self.rng.pick(&[version.saturating_add(1), 1, any]),
                value: self.rng.pick(&[0, 5, lists.values[slot]]),
                status: self.rng.pick(&[0, 0, 0, lists.statuses[slot].into(), 8]),
            });
            self.push(act);
        }
    }

    /// A day counted wrong, or two days so that the sum is right.
    fn miscounted(&mut self, lists: &Lists) {
        let days = self.shape.days;
        let any = self.rng.below(days);
        let day = self.rng.pick(&[0, 0, days / 2, days - 1, any]);
        let count = u32::from(lists.counts[day]);
        let other = (0..days).find(|&other| other != day && lists.counts[other] > 0);
        let wrong = match self.rng.below(12) {
            0..4 if count > 0 => count - 1,
            4 => count + 256,
            5 => 65_535,
            6 | 7 => {
                if let Some(other) = other {
                    self.write_count(other, u32::from(lists.counts[other]) - 1);
                }
                count + 1
            }
            _ => count + 1,
        };
        self.write_count(day, wrong);
    }
}

/// A reading over the dial, or an agreed value over 99,999,999.
fn over_the_dial(word: u32) -> u32 {
    DIAL.saturating_add(word % 3)
}
