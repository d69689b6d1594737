//! The deliveries of a book: which slots come, in which order, and what they hold.

use super::{MOST_DELIVERIES, Maker};
use crate::compare::calls::Act;
use crate::number::narrowed;
use crate::second::lists::Delivery;
use crate::second::rules::{Cause, FARTHEST, LINE_MINUTES, OUTAGE, PARTIAL, TIME_CHANGE};

/// How the values of a book run.
#[derive(Clone, Copy)]
enum Profile {
    Zero,
    /// Mostly 0, so that means round to it.
    Sparse,
    Tiny,
    Flat(u32),
    Daily,
    Edge,
    Any,
}

/// How the deliveries of a book are: their values, and one in how many fails or has an outage.
#[derive(Clone, Copy)]
struct Manner {
    profile: Profile,
    failing: usize,
    outages: usize,
}

/// What a delivered slot is to be.
#[derive(Clone, Copy)]
enum Wanted {
    Any,
    Good,
    Failed(Cause),
}

impl Maker {
    pub(super) fn deliveries(&mut self) {
        let mut delivered = self.delivered_slots();
        let wanted = self.runs(&mut delivered);
        let manner = self.manner();
        let repeating = self.rng.pick(&[0, 40, 15]);
        let mut acts = Vec::new();
        for slot in self.order(&delivered) {
            let act = self.delivery(manner, &delivered, slot, wanted[slot]);
            self.push(act);
            acts.push((slot, act));
            if self.rng.one_in(repeating) {
                let again = self.again(act);
                self.push(again);
            }
        }
        self.again_on_full_days(&delivered, &acts);
    }

    fn manner(&mut self) -> Manner {
        let (failing, outages): (&[usize], &[usize]) = if self.fitting {
            (&[0, 0, 100], &[0, 0, 6])
        } else {
            (&[0, 0, 100, 30, 8], &[0, 0, 1, 2, 4])
        };
        Manner {
            profile: self.profile(),
            failing: self.rng.pick(failing),
            outages: self.rng.pick(outages),
        }
    }

    /// The delivered slots in the order in which they come.
    fn order(&mut self, delivered: &[bool]) -> Vec<usize> {
        let mut order: Vec<usize> = (0..delivered.len()).filter(|&i| delivered[i]).collect();
        match self.rng.below(6) {
            0 => order.reverse(),
            1 => self.rng.shuffle(&mut order),
            _ => {}
        }
        order
    }

    fn delivery(&mut self, manner: Manner, delivered: &[bool], slot: usize, wanted: Wanted) -> Act {
        let mut value = self.value(manner.profile, slot);
        let beside_gap =
            slot > 0 && !delivered[slot - 1] || slot + 1 < delivered.len() && !delivered[slot + 1];
        let mut status = 0;
        if beside_gap && self.rng.one_in(manner.outages) {
            status |= u32::from(OUTAGE);
        }
        if self.rng.one_in(manner.failing) {
            status |= narrowed::<u32>(self.rng.below(8));
        }
        match wanted {
            Wanted::Any => {}
            Wanted::Good => (value, status) = (value.min(self.most()), 0),
            Wanted::Failed(cause) => (value, status) = self.failed(cause, value),
        }
        Act::Deliver(Delivery {
            slot: narrowed(slot),
            version: self.rng.pick(&[1, 1, 1, 2, 3, 7, u32::MAX]),
            value,
            status,
        })
    }

    /// A few deliveries again when all have come; of full days, where there are any.
    fn again_on_full_days(&mut self, delivered: &[bool], acts: &[(usize, Act)]) {
        let n = self.shape.slots_a_day;
        let full: Vec<bool> = delivered
            .chunks(n)
            .map(|day| !day.contains(&false))
            .collect();
        let any_full = full.contains(&true);
        let from: Vec<Act> = acts
            .iter()
            .filter(|&&(slot, _)| full[slot / n] == any_full)
            .map(|&(_, act)| act)
            .collect();
        if from.is_empty() || !self.rng.one_in(3) {
            return;
        }
        for _ in 0..1 + self.rng.below(5) {
            let act = self.rng.pick(&from);
            let again = self.again(act);
            self.push(again);
        }
    }

    /// Which slots get a delivery at all.
    fn delivered_slots(&mut self) -> Vec<bool> {
        let (slots, n) = (self.shape.slots, self.shape.slots_a_day);
        let mut delivered = vec![true; slots];
        if self.fitting {
            self.lose_hours(&mut delivered);
            return delivered;
        }
        if self.rng.one_in(25) {
            delivered.fill(false);
            return delivered;
        }
        self.keep_some_days(&mut delivered);
        let most = if self.rng.one_in(12) {
            6 * MOST_DELIVERIES
        } else {
            MOST_DELIVERIES
        };
        if delivered.iter().filter(|&&d| d).count() > most || self.rng.one_in(10) {
            // A few positions of every day that is left.
            let width = (most / self.shape.days).clamp(1, n);
            let width = 1 + self.rng.below(width);
            let start = self.rng.below(n);
            for (slot, delivered) in delivered.iter_mut().enumerate() {
                *delivered &= (slot + n - start) % n < width;
            }
        }
        self.lose_slots(&mut delivered);
        delivered
    }

    fn keep_some_days(&mut self, delivered: &mut [bool]) {
        let n = self.shape.slots_a_day;
        let mut early = 1 + self.rng.below(self.shape.days.min(9));
        let long = self.shape.days > FARTHEST;
        if long && self.rng.one_in(2) {
            early = 30;
        }
        // 0 to 2 are below; 3 keeps all.
        let ways: &[u32] = if long {
            &[0, 1, 3]
        } else {
            &[0, 2, 3, 3, 3, 3]
        };
        match self.rng.pick(ways) {
            0 => {
                // The first days only, so that references lie far back.
                let late = self.rng.below(3);
                for (day, slots) in delivered.chunks_mut(n).enumerate() {
                    let last_day = day + 1 == self.shape.days;
                    slots.fill(day < early || last_day && late == 0);
                }
            }
            1 => {
                // Few slots, so that few weeks of a year have one.
                let few = self.rng.pick(&[8, 16, 40]);
                for delivered in delivered {
                    *delivered = self.rng.one_in(few);
                }
            }
            2 => {
                for slots in delivered.chunks_mut(n) {
                    slots.fill(self.rng.one_in(2));
                }
            }
            _ => {}
        }
    }

    fn lose_slots(&mut self, delivered: &mut [bool]) {
        let slots = delivered.len();
        match self.rng.below(9) {
            0 => {}
            1 if self.shape.days > 7 => self.lose_hours(delivered),
            2 => (0..slots)
                .step_by(2)
                .for_each(|slot| delivered[slot] = false),
            _ => {
                let singles = self.rng.pick(&[0, 3, 10, 50]);
                for delivered in delivered.iter_mut() {
                    *delivered &= !self.rng.one_in(singles);
                }
                for _ in 0..self.rng.below(5) {
                    let start = self.rng.below(slots);
                    let len = 1 + self.rng.below(self.shape.slots_a_day * 2);
                    delivered[start..slots.min(start + len)].fill(false);
                }
                for _ in 0..self.rng.below(3) {
                    let start = self.rng.below(slots);
                    delivered[start..slots.min(start + 3)].fill(false);
                }
            }
        }
        if self.rng.one_in(4) {
            let len = 1 + self.rng.below(6);
            delivered[..len].fill(false);
        }
        if self.rng.one_in(4) {
            let len = 1 + self.rng.below(6);
            delivered[slots - len..].fill(false);
        }
    }

    /// More than two hours at once, on days that have a week before them.
    fn lose_hours(&mut self, delivered: &mut [bool]) {
        let n = self.shape.slots_a_day;
        let line = LINE_MINUTES / self.shape.interval as usize;
        for day in delivered.chunks_mut(n).skip(7) {
            if self.rng.one_in(2) {
                let start = self.rng.below(n - line);
                let end = n.min(start + line + 1 + self.rng.below(2 * line));
                day[start..end].fill(false);
            }
        }
    }

    /// Runs of up to two hours and one slot more, mostly between good slots.
    fn runs(&mut self, delivered: &mut [bool]) -> Vec<Wanted> {
        let mut wanted = vec![Wanted::Any; delivered.len()];
        let longest = LINE_MINUTES / self.shape.interval as usize;
        // More where there are more lengths.
        let many = self.rng.pick(&[0, 0, 1, 3, 6]) * longest.div_ceil(4);
        let gaps_only = self.rng.one_in(3);
        if !delivered.contains(&true) {
            return wanted;
        }
        for _ in 0..many {
            let g = 1 + self.rng.below(longest + 1);
            let start = self.run_start(g);
            let ends = [start.checked_sub(1), Some(start + g)];
            for end in ends.into_iter().flatten() {
                if end < delivered.len() && !self.rng.one_in(10) {
                    (delivered[end], wanted[end]) = (true, Wanted::Good);
                }
            }
            for slot in start..start + g {
                let cause = self.rng.pick(&[
                    Cause::Gap,
                    Cause::Gap,
                    Cause::TimeChange,
                    Cause::Partial,
                    Cause::Demand,
                ]);
                let lost = gaps_only || cause == Cause::Gap;
                (delivered[slot], wanted[slot]) = (!lost, Wanted::Failed(cause));
            }
        }
        wanted
    }

    /// Where a run of g slots starts: at an end of the book, over a day's end or anywhere.
    fn run_start(&mut self, g: usize) -> usize {
        let (slots, n) = (self.shape.slots, self.shape.slots_a_day);
        match self.rng.below(10) {
            0 => 0,
            1 => slots - g,
            2..5 if g > 1 && self.shape.days > 1 => {
                let day = 1 + self.rng.below(self.shape.days - 1);
                day * n - 1 - self.rng.below(g - 1)
            }
            _ => self.rng.below(slots - g + 1),
        }
    }

    /// A value and a status that fail for a cause; now and then the outage bit as well.
    fn failed(&mut self, cause: Cause, value: u32) -> (u32, u32) {
        let outage = if self.rng.one_in(16) { OUTAGE } else { 0 };
        match cause {
            Cause::TimeChange => (value, u32::from(TIME_CHANGE | outage)),
            Cause::Partial => (value, u32::from(PARTIAL | outage)),
            _ => (self.most() + 1 + self.rng.between(0, 2), outage.into()),
        }
    }

    fn profile(&mut self) -> Profile {
        let flat = self.rng.between(0, self.most());
        self.rng.pick(&[
            Profile::Zero,
            Profile::Sparse,
            Profile::Tiny,
            Profile::Flat(flat),
            Profile::Daily,
            Profile::Daily,
            Profile::Daily,
            Profile::Edge,
            Profile::Any,
        ])
    }

    fn value(&mut self, profile: Profile, slot: usize) -> u32 {
        let most = self.most();
        if self.rng.one_in(300) {
            return self
                .rng
                .pick(&[most, most + 1, u32::MAX, u32::MAX / 60 + 1]);
        }
        match profile {
            Profile::Zero => 0,
            Profile::Sparse => u32::from(self.rng.one_in(12)),
            Profile::Tiny => self.rng.between(0, 3),
            Profile::Flat(value) => value,
            Profile::Daily => {
                let position: u32 = narrowed(slot % self.shape.slots_a_day);
                most.min(position * 3 + self.rng.between(0, most / 4))
            }
            Profile::Edge => {
                let less = most.saturating_sub(1);
                self.rng.pick(&[most, most, most, less, most + 1])
            }
            Profile::Any => self.rng.between(0, most),
        }
    }
}
