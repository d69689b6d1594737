//! Values agreed with the skipper.

use super::{MOST_DELIVERIES, Maker};
use crate::compare::calls::{Act, Call};
use crate::number::narrowed;
use crate::second::head::DIAL;
use crate::second::lists::Agreement;
use crate::second::rules::{self, Cause};

impl Maker {
    /// Values agreed for slots of one part of the book, mostly such with a cause.
    pub(super) fn agreements(&mut self, opened: usize) {
        // One in so many of the slots with a cause, and of the good ones.
        let ways = [
            (0, 0),
            (0, 0),
            (6, 0),
            (30, 30),
            (1, 0),
            (1, 0),
            (1, 5),
            (2, 20),
        ];
        let few = if self.fitting { 4 } else { ways.len() };
        let (failed, good) = self.rng.pick(&ways[..few]);
        let part = self.agreed_part();
        let causes = self.causes_so_far();
        let way = self.rng.below(8);
        let mut acts = Vec::new();
        for slot in part {
            let times = if causes[slot].is_some() { failed } else { good };
            if !self.rng.one_in(times) {
                continue;
            }
            let act = Act::Agree(Agreement {
                slot: narrowed(slot),
                version: self.rng.pick(&[1, 1, 1, 2, 9, u32::MAX]),
                value: self.agreed_value(way),
            });
            acts.push(act);
            if self.rng.one_in(12) {
                acts.push(self.again(act));
            }
        }
        let calls: Vec<Call> = acts.into_iter().map(|act| self.call(act)).collect();
        let at = opened + self.rng.below(self.calls.len() - opened + 1);
        self.calls.splice(at..at, calls);
    }

    /// The slots of some days in a row, or all.
    fn agreed_part(&mut self) -> std::ops::Range<usize> {
        let (days, n) = (self.shape.days, self.shape.slots_a_day);
        let most = (MOST_DELIVERIES / n).max(1);
        let many = if days <= most && self.rng.one_in(2) {
            days
        } else {
            1 + self.rng.below(days.min(most))
        };
        let first = self.rng.below(days - many + 1);
        first * n..(first + many) * n
    }

    fn agreed_value(&mut self, way: usize) -> u32 {
        let most = self.most();
        let any = self.rng.word() % DIAL;
        match way {
            0 => 0,
            1 => self.rng.pick(&[0, 1, most + 1, any, DIAL - 2, DIAL - 1]),
            2 if self.rng.one_in(20) => DIAL - 1,
            _ => self.rng.between(0, most / 8),
        }
    }

    fn causes_so_far(&self) -> Vec<Option<Cause>> {
        let lists = self.lists_so_far();
        rules::causes(&self.shape, &lists.cells())
    }
}
