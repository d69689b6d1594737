//! 01, The plain book, with W1's agreed calls and W10's widths: the kept calls, fed by heads and arguments alone.

use std::collections::{BTreeMap, BTreeSet};

use crate::number::narrowed;
use crate::second::book::{Filed, MOST_AGREED, status_of};
use crate::second::head::{DIAL, Head};
use crate::second::lists::{Agreement, Delivery, RegisterRead};
use crate::second::refusal;

/// A kept delivery, register read or agreed value: its version and its content.
#[derive(Clone, Copy, Debug)]
struct Kept<T> {
    version: u32,
    content: T,
}

/// The kept calls, each list under the slot or boundary its calls name.
#[derive(Clone, Debug, Default)]
pub struct Plain {
    deliveries: BTreeMap<u32, Vec<Kept<(u32, u8)>>>,
    /// Reading and width.
    registers: BTreeMap<u32, Vec<Kept<(u32, u32)>>>,
    agreed: BTreeMap<u32, Vec<Kept<u32>>>,
    holidays: BTreeSet<u32>,
}

impl Plain {
    /// No call is kept after opening.
    pub fn open(&mut self, head: Head) -> Result<(), u8> {
        head.shape()?;
        *self = Plain::default();
        Ok(())
    }

    pub fn deliver(&mut self, head: Head, delivery: Delivery) -> Result<Filed, u8> {
        let Delivery {
            slot,
            version,
            value,
            status,
        } = delivery;
        let shape = head.shape()?;
        if slot as usize >= shape.slots {
            return Err(refusal::PLACE);
        }
        if version == 0 {
            return Err(refusal::VERSION);
        }
        let status = status_of(status)?;
        keep(
            self.deliveries.entry(slot).or_default(),
            version,
            (value, status),
        )
    }

    pub fn holiday(&mut self, head: Head, day: u32) -> Result<Filed, u8> {
        let shape = head.shape()?;
        if day as usize >= shape.days {
            return Err(refusal::PLACE);
        }
        if self.holidays.insert(day) {
            Ok(Filed::Stored)
        } else {
            Ok(Filed::Repeat)
        }
    }

    pub fn register(&mut self, head: Head, read: RegisterRead) -> Result<Filed, u8> {
        let RegisterRead {
            boundary,
            version,
            reading,
            width,
        } = read;
        let shape = head.shape()?;
        if boundary as usize > shape.days {
            return Err(refusal::PLACE);
        }
        if version == 0 {
            return Err(refusal::VERSION);
        }
        if reading >= DIAL {
            return Err(refusal::READING);
        }
        if width > 9_999 {
            return Err(refusal::WIDTH);
        }
        keep(
            self.registers.entry(boundary).or_default(),
            version,
            (reading, width),
        )
    }

    /// As a delivery, with a highest version of its own.
    pub fn agree(&mut self, head: Head, agreement: Agreement) -> Result<Filed, u8> {
        let Agreement {
            slot,
            version,
            value,
        } = agreement;
        let shape = head.shape()?;
        if slot as usize >= shape.slots {
            return Err(refusal::PLACE);
        }
        if version == 0 {
            return Err(refusal::VERSION);
        }
        if value > MOST_AGREED {
            return Err(refusal::AGREED);
        }
        keep(self.agreed.entry(slot).or_default(), version, value)
    }

    /// Value, version and status of a slot at the end; zeros if no call is kept.
    pub fn slot(&self, slot: u32) -> (u32, u32, u8) {
        match self.deliveries.get(&slot).and_then(|kept| highest(kept)) {
            Some(kept) => (kept.content.0, kept.version, kept.content.1),
            None => (0, 0, 0),
        }
    }

    /// How many slots of a day have a kept delivery.
    pub fn count(&self, day: u32, slots_a_day: u32) -> u16 {
        let slots = day * slots_a_day..(day + 1) * slots_a_day;
        narrowed(self.deliveries.range(slots).count())
    }

    /// Agreed value and version of a slot at the end; zeros if no call is kept.
    pub fn agreed(&self, slot: u32) -> (u32, u32) {
        match self.agreed.get(&slot).and_then(|kept| highest(kept)) {
            Some(kept) => (kept.content, kept.version),
            None => (0, 0),
        }
    }

    /// 1 when a kept holiday call names the day.
    pub fn day(&self, day: u32) -> u8 {
        u8::from(self.holidays.contains(&day))
    }

    /// Reading, version and width of a boundary at the end; zeros if no call is kept.
    pub fn boundary(&self, boundary: u32) -> (u32, u32, u32) {
        match self.registers.get(&boundary).and_then(|kept| highest(kept)) {
            Some(kept) => (kept.content.0, kept.version, kept.content.1),
            None => (0, 0, 0),
        }
    }
}

fn highest<T>(kept: &[Kept<T>]) -> Option<&Kept<T>> {
    kept.iter().max_by_key(|kept| kept.version)
}

/// A refused call isn't kept, every other is.
fn keep<T: PartialEq>(kept: &mut Vec<Kept<T>>, version: u32, content: T) -> Result<Filed, u8> {
    let top = highest(kept);
    let h = top.map_or(0, |kept| kept.version);
    let filed = if version > h {
        Filed::Stored
    } else if version < h {
        Filed::Late
    } else if top.is_some_and(|kept| kept.content == content) {
        Filed::Repeat
    } else {
        return Err(refusal::CONFLICT);
    };
    kept.push(Kept { version, content });
    Ok(filed)
}
