//! Holidays and register reads.

use super::{MOST_WIDTH, Maker};
use crate::compare::calls::Act;
use crate::number::narrowed;
use crate::second::head::DIAL;
use crate::second::lists::RegisterRead;
use crate::second::rules::{self, FARTHEST_SUNDAY, Quality, Slot};

/// How wide the register reads of a book are.
#[derive(Clone, Copy)]
enum Widths {
    None,
    Some,
    All,
}

impl Maker {
    pub(super) fn holidays(&mut self, opened: usize) {
        let days = self.shape.days;
        let many = if self.fitting {
            self.rng.below(3)
        } else {
            self.rng.pick(&[0, 1, 3, days / 3, days])
        };
        let mut feasts: Vec<usize> = (0..many).map(|_| self.rng.below(days)).collect();
        // Days with a whole year of Sundays before them.
        let late = self.rng.pick(&[0, 1, 1, 2]);
        for day in FARTHEST_SUNDAY..days {
            if self.rng.one_in(late) {
                feasts.push(day);
            }
        }
        for day in feasts {
            let call = self.call(Act::Holiday { day: narrowed(day) });
            self.insert_anywhere(opened, call);
        }
    }

    pub(super) fn registers(&mut self, opened: usize) {
        let boundaries = self.boundaries();
        let filled = self.filled_so_far();
        let mut reading = self.rng.word() % DIAL;
        reading = self.rng.pick(&[0, DIAL - 1, DIAL - 10, reading, reading]);
        let widths = self.rng.pick(&[Widths::None, Widths::Some, Widths::All]);
        let mut width = 0;
        let mut acts = Vec::new();
        for (i, &boundary) in boundaries.iter().enumerate() {
            let earlier = width;
            width = self.width(widths);
            if i > 0 {
                let range = rules::span_slots(&self.shape, boundaries[i - 1], boundary);
                let aim = self.advance(&filled[range]);
                let g = self.aimed(aim, earlier, width);
                reading = (reading + g) % DIAL;
            }
            let act = Act::Register(RegisterRead {
                boundary: narrowed(boundary),
                version: self.rng.pick(&[1, 1, 2, 5, u32::MAX]),
                reading,
                width,
            });
            acts.push(act);
            if self.rng.one_in(6) {
                acts.push(self.again(act));
            }
        }
        for act in acts {
            let call = self.call(act);
            self.insert_anywhere(opened, call);
        }
    }

    fn width(&mut self, widths: Widths) -> u32 {
        let any = self.rng.between(1, MOST_WIDTH);
        match widths {
            Widths::None => 0,
            Widths::Some => self.rng.pick(&[0, 0, 1, 9, 99, any, MOST_WIDTH]),
            Widths::All => self.rng.pick(&[1, 30, any, any, MOST_WIDTH]),
        }
    }

    /// G for a range that has `aim` as an end or in it, with the widths u and v; now and
    /// then around the dial's end.
    fn aimed(&mut self, aim: u32, u: u32, v: u32) -> u32 {
        let end = self
            .rng
            .pick(&[DIAL - 1 - v, DIAL - v, DIAL + 1 - v, DIAL - 1]);
        let inside = self.rng.between(0, u + v);
        let g = match self.rng.below(16) {
            0..6 => aim + u,
            6..11 => aim + DIAL - v,
            11..15 => aim + DIAL - v + inside,
            _ if v > 0 => end,
            _ => aim,
        };
        g % DIAL
    }

    fn boundaries(&mut self) -> Vec<usize> {
        let days = self.shape.days;
        let ways = if self.fitting { 2..7 } else { 0..7 };
        match ways.start + self.rng.below(ways.len()) {
            0 => Vec::new(),
            1 => vec![self.rng.below(days + 1)],
            2 => vec![0, days],
            3 => (0..=days).step_by(7).collect(),
            4 => (0..=days).collect(),
            _ => (0..=days).filter(|_| self.rng.one_in(3)).collect(),
        }
    }

    /// The slots as the calls so far would be filled, for choosing register reads.
    fn filled_so_far(&self) -> Vec<Slot> {
        let lists = self.lists_so_far();
        let cells = lists.cells();
        let causes = rules::causes(&self.shape, &cells);
        rules::fill(&self.shape, &cells, &causes).slots
    }

    /// An advance for a span of these slots: at and around the edges of each state.
    fn advance(&mut self, slots: &[Slot]) -> u32 {
        let v = rules::settled_sum(slots);
        let t = u64::from(self.shape.tolerance);
        let e: u64 = slots
            .iter()
            .filter(|slot| slot.quality == Quality::Substituted)
            .map(|slot| u64::from(slot.value))
            .sum();
        let estimated = |slot: &Slot| matches!(slot.quality, Quality::Substituted | Quality::None);
        let edges = [1, 2, 3, 4];
        let way = if !slots.iter().any(estimated) && self.rng.one_in(3) {
            self.rng.pick(&edges)
        } else {
            self.rng.below(14)
        };
        let share = u64::from(self.rng.between(0, 200));
        let above = narrowed(u64::from(DIAL).saturating_sub(v).max(1));
        let r = match way {
            // Much to share out, so that a small part of a shape tells.
            0..9 if self.fitting => v + self.rng.below(above) as u64,
            0 => v,
            1 => v + t,
            2 => v + t + 1,
            3 => v.saturating_sub(t),
            4 => v.saturating_sub(t + 1),
            5 => v.saturating_sub(1),
            6 => v + 1,
            7 => 0,
            8 => u64::from(self.rng.word() % DIAL),
            9 => v + e,
            _ => v + e * share / 100 + self.rng.below(10) as u64,
        };
        narrowed(r % u64::from(DIAL))
    }
}
