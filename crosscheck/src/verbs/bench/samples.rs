//! The books that are timed, and the log.

use crosscheck::compare::side::{Answer, Second, Side};
use crosscheck::number::narrowed;
use crosscheck::second::head::{DIAL, Head};
use crosscheck::second::lists::{Agreement, Delivery, Lists, RegisterRead};

#[derive(Clone, Copy, Debug, PartialEq, Eq)]
pub enum Kind {
    Ordinary,
    AllGap,
    AlternateGaps,
    Lines,
    NoReferences,
    SomeAgreed,
    AllAgreed,
}

pub const KINDS: [(Kind, &str); 7] = [
    (Kind::Ordinary, "ordinary"),
    (Kind::AllGap, "all gap"),
    (Kind::AlternateGaps, "alternate gaps"),
    (Kind::Lines, "two-hour lines"),
    (Kind::NoReferences, "no references"),
    (Kind::SomeAgreed, "some agreed"),
    (Kind::AllAgreed, "all agreed"),
];

/// A book as its calls, and as the lists and the file they come to.
pub struct Sample {
    pub head: Head,
    pub slots: usize,
    pub days: usize,
    pub deliveries: Vec<Delivery>,
    pub lists: Lists,
    pub file: Vec<u8>,
}

impl Kind {
    fn delivered(self, slot: usize, interval: u32) -> bool {
        let longest = 120 / interval as usize;
        match self {
            // Single losses and, now and then, a short run.
            Kind::Ordinary | Kind::SomeAgreed => slot % 97 != 40 && slot % 1009 > 4,
            Kind::AllGap | Kind::AllAgreed => false,
            Kind::AlternateGaps => slot.is_multiple_of(2),
            // Each run as long as a line may be.
            Kind::Lines => slot.is_multiple_of(longest + 1),
            // The same positions are lost every day, more than two hours: no line, no weeks.
            Kind::NoReferences => slot.is_multiple_of(2 * longest),
        }
    }

    /// Whether office and skipper settled the slot.
    fn agreed(self, slot: usize, interval: u32) -> bool {
        match self {
            Kind::SomeAgreed => !self.delivered(slot, interval) && slot.is_multiple_of(2),
            Kind::AllAgreed => true,
            _ => false,
        }
    }
}

/// What the meter would have shown, delivered or not.
fn value(slot: usize, slots_a_day: usize) -> u32 {
    let position = slot % slots_a_day;
    let daytime = position.min(slots_a_day - position);
    narrowed(20 + 3 * daytime + slot * 7 % 11)
}

impl Sample {
    pub fn new(kind: Kind, days: u32, interval: u32) -> Sample {
        let head = Head {
            year: 2024,
            month: 1,
            day: 1,
            days,
            interval,
            limit: 70_000,
            tolerance: 10,
        };
        let shape = head.shape().expect("a head in bounds");
        let mut sample = Sample {
            head,
            slots: shape.slots,
            days: shape.days,
            deliveries: Vec::new(),
            lists: Lists::zeroed(shape.slots, shape.days),
            file: Vec::new(),
        };
        sample.deliver(kind);
        sample.agree(kind);
        if matches!(kind, Kind::Ordinary | Kind::SomeAgreed | Kind::AllAgreed) {
            read_weekly(head, &mut sample.lists, shape.slots_a_day);
        }
        sample.publish();
        sample
    }

    fn deliver(&mut self, kind: Kind) {
        let day = self.slots / self.days;
        let slots = (0..self.slots).filter(|&slot| kind.delivered(slot, self.head.interval));
        let delivery = |slot: usize| Delivery {
            slot: narrowed(slot),
            version: 1,
            value: value(slot, day),
            status: 0,
        };
        self.deliveries = slots.map(delivery).collect();
        for &delivery in &self.deliveries {
            Second.deliver(self.head, &mut self.lists, delivery);
        }
    }

    fn agree(&mut self, kind: Kind) {
        let (day, interval) = (self.slots / self.days, self.head.interval);
        for slot in (0..self.slots).filter(|&slot| kind.agreed(slot, interval)) {
            let agreement = Agreement {
                slot: narrowed(slot),
                version: 1,
                value: value(slot, day),
            };
            Second.agree(self.head, &mut self.lists, agreement);
        }
    }

    fn publish(&mut self) {
        self.file = vec![0; 6 * self.slots + 14 * self.days + 32];
        match Second.publish(self.head, &self.lists, &mut self.file) {
            Answer::Length(length) => self.file.truncate(narrowed(length)),
            other => panic!("a sample is not published: {other:?}"),
        }
    }
}

fn read_weekly(head: Head, lists: &mut Lists, slots_a_day: usize) {
    let days = head.days as usize;
    let mut total = 0;
    for boundary in 0..=days {
        if boundary % 7 == 0 || boundary == days {
            let read = RegisterRead {
                boundary: narrowed(boundary),
                version: 1,
                reading: total % DIAL,
                width: 0,
            };
            Second.register(head, lists, read);
        }
        let slots = boundary * slots_a_day..(boundary + 1) * slots_a_day;
        total += slots.map(|slot| value(slot, slots_a_day)).sum::<u32>();
    }
}

/// The log that opens the sample's book and delivers each of its slots.
pub fn log_of(sample: &Sample) -> String {
    let day = sample.slots / sample.days;
    let head = sample.head;
    let deliveries =
        (0..sample.slots).map(|slot| format!("delivery {slot} 1 {} 0\n", value(slot, day)));
    std::iter::once(format!(
        "open 2024-01-01 {} {} 2 10\n",
        head.days, head.interval
    ))
    .chain(deliveries)
    .collect()
}
