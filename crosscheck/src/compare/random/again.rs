//! A call that comes again.

use super::Maker;
use crate::compare::calls::Act;
use crate::second::lists::{Agreement, Delivery, RegisterRead};

/// How a call comes again.
#[derive(Clone, Copy, PartialEq, Eq)]
enum Again {
    Repeat,
    /// The same value or reading with another status or width.
    OtherRest,
    OtherContent,
    Late,
    Newer,
}

impl Again {
    fn version(self, version: u32) -> u32 {
        match self {
            Again::Late => version.saturating_sub(1),
            Again::Newer => version.saturating_add(1),
            _ => version,
        }
    }

    /// A value or a reading; another one differs in these bits.
    fn content(self, content: u32, bits: u32) -> u32 {
        match self {
            Again::Repeat | Again::OtherRest => content,
            _ => content ^ bits,
        }
    }

    /// A status or a width. As 9,999 is odd, a width stays in bounds.
    fn rest(self, rest: u32) -> u32 {
        rest ^ u32::from(self == Again::OtherRest)
    }
}

impl Maker {
    /// A repeat, a late version, a conflict or a newer version of a call.
    pub(super) fn again(&mut self, act: Act) -> Act {
        let way = self.rng.pick(&[
            Again::Repeat,
            Again::OtherRest,
            Again::OtherContent,
            Again::Late,
            Again::Newer,
        ]);
        match act {
            Act::Deliver(delivery) => Act::Deliver(Delivery {
                version: way.version(delivery.version),
                value: way.content(delivery.value, 2),
                status: way.rest(delivery.status),
                ..delivery
            }),
            Act::Register(read) => Act::Register(RegisterRead {
                version: way.version(read.version),
                reading: way.content(read.reading, 1),
                width: way.rest(read.width),
                ..read
            }),
            Act::Agree(agreement) => Act::Agree(Agreement {
                version: way.version(agreement.version),
                value: way.content(agreement.value, 1),
                ..agreement
            }),
            other => other,
        }
    }
}
