//! Which classes the calls that meet a day's count fall in: W6.

use crate::census::counts::Counts;
use crate::compare::calls::{Act, Call};
use crate::compare::side::{Answer, Second, apply};
use crate::second::book::Filed;
use crate::second::lists::{Delivery, Lists};

/// A delivery's slot and its day, before the call.
pub struct Before {
    interval: u32,
    /// n.
    slots_a_day: usize,
    /// The slot's version.
    version: u32,
    /// The day's count.
    count: usize,
    /// How many slots of the day are delivered.
    delivered: usize,
}

impl Before {
    /// None where the call is no delivery, or has no slot in these lists.
    pub fn of(call: &Call, lists: &Lists) -> Option<Before> {
        let Act::Deliver(Delivery { slot, .. }) = call.act else {
            return None;
        };
        let shape = call.head.shape().ok()?;
        let (slot, n) = (slot as usize, shape.slots_a_day);
        let day = slot / n;
        let slots = lists.versions.get(day * n..(day + 1) * n)?;
        Some(Before {
            interval: shape.interval,
            slots_a_day: n,
            version: lists.versions[slot],
            count: usize::from(*lists.counts.get(day)?),
            delivered: delivered(slots),
        })
    }

    pub fn count(&self, answer: Answer, counts: &mut Counts) {
        let (n, count) = (self.slots_a_day, self.count);
        let right = count == self.delivered;
        if self.version == 0 {
            let stored = answer == Answer::Filed(Filed::Stored);
            let last = stored && count + 1 == n;
            counts.add_if(last && right, "count", "day filled by a first delivery");
            counts.add_if(last && !right, "count", "room for one on an emptier day");
            counts.add_if(stored && !right, "count", "raised though wrong");
            if answer == Answer::Refused(11) && count >= n {
                counts.add(FIRST, self.first_class());
            }
            return;
        }
        let name = match answer {
            Answer::Filed(Filed::Stored) => "later version on a full day",
            Answer::Filed(Filed::Late) => "late on a full day",
            Answer::Filed(Filed::Repeat) => "repeat on a full day",
            Answer::Refused(10) => "conflict on a full day",
            _ => return,
        };
        counts.add_if(right && count == n, "count", name);
        let later = answer == Answer::Filed(Filed::Stored);
        counts.add_if(later && count > n, "count", "later version, count over n");
    }

    fn first_class(&self) -> &'static str {
        let above = match self.count - self.slots_a_day {
            0 => 0,
            1 => 1,
            _ if self.count == 65_535 => 2,
            _ => return FIRST_NAMES[9],
        };
        let place = match self.interval {
            5 => 0,
            15 => 1,
            _ => 2,
        };
        FIRST_NAMES[3 * above + place]
    }
}

pub const FIRST: &str = "count, first delivery refused 11";
pub const FIRST_NAMES: &[&str] = &[
    "n, L 5",
    "n, L 15",
    "n, L 30",
    "n + 1, L 5",
    "n + 1, L 15",
    "n + 1, L 30",
    "65,535, L 5",
    "65,535, L 15",
    "65,535, L 30",
    "another",
];

pub const PUBLISH: &str = "count, publish refused 11";
pub const PUBLISH_NAMES: &[&str] = &[
    "one more, first day",
    "one more, middle day",
    "one more, last day",
    "one more, only day",
    "one less, first day",
    "one less, middle day",
    "one less, last day",
    "one less, only day",
    "right in the low byte",
    "right in sum",
    "65,535",
    "buffer too short as well",
];

fn delivered(versions: &[u32]) -> usize {
    versions.iter().filter(|&&version| version > 0).count()
}

/// The place of a day in the first or the second four of `PUBLISH_NAMES`.
fn place(day: usize, days: usize) -> usize {
    match (day, days) {
        (_, 1) => 3,
        (0, _) => 0,
        (day, days) if day + 1 == days => 2,
        _ => 1,
    }
}

/// A publishing of these lists, answered with a length or 11.
pub fn published(call: &Call, lists: &Lists, answer: Answer, room: usize, counts: &mut Counts) {
    let Ok(shape) = call.head.shape() else {
        return;
    };
    let n = shape.slots_a_day;
    let mut right = lists.clone();
    right.recount(n);
    if let Answer::Length(_) = answer {
        let any = |holds: &dyn Fn(u16) -> bool| lists.counts.iter().any(|&count| holds(count));
        counts.add_if(any(&|c| c == 0), "count", "empty day published");
        counts.add_if(any(&|c| usize::from(c) == n), "count", "full day published");
        counts.add_if(any(&|c| c > 255), "count", "count over 255 published");
    }
    // From here on, 11 by the counts alone.
    if answer != Answer::Refused(11)
        || apply(&Second, call, &mut right, &mut []) == Some(Answer::Refused(11))
    {
        return;
    }
    let off: Vec<(usize, i64)> = (0..shape.days)
        .map(|day| (day, lists.counts[day], right.counts[day]))
        .map(|(day, count, wanted)| (day, i64::from(count) - i64::from(wanted)))
        .filter(|&(_, off)| off != 0)
        .collect();
    if let [(day, off @ (1 | -1))] = off[..] {
        let place = place(day, shape.days) + if off > 0 { 0 } else { 4 };
        counts.add(PUBLISH, PUBLISH_NAMES[place]);
    }
    let low = off.iter().all(|&(_, off)| off % 256 == 0);
    let in_sum = off.iter().map(|&(_, off)| off).sum::<i64>() == 0;
    let highest = off.iter().any(|&(day, _)| lists.counts[day] == 65_535);
    counts.add_if(low, PUBLISH, "right in the low byte");
    counts.add_if(in_sum, PUBLISH, "right in sum");
    counts.add_if(highest, PUBLISH, "65,535");
    counts.add_if(room < 32, PUBLISH, "buffer too short as well");
}
