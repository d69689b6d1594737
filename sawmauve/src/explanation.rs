//! How the outcome of a slot comes about.

use crate::codes::FIELDS;
use crate::{Error, Method, Quality, State};
use std::fmt;

/// The first test of a slot that applied.
#[derive(Clone, Copy, Debug, PartialEq, Eq)]
pub enum Cause {
    /// The slot is good.
    Nothing,
    /// Nothing came.
    Gap,
    /// The status has the bit of a time change.
    TimeChange,
    /// The status has the bit of a partial interval.
    Partial,
    /// The value is above the demand limit.
    Demand,
}

/// The rule that gave a slot its outcome before scaling.
#[derive(Clone, Copy, Debug, PartialEq, Eq)]
pub enum Rule {
    /// The slot is good and stays as it came.
    Delivered,
    /// A gap beside a delivered slot with the outage bit is 0.
    OutageZero,
    /// The straight line between the neighbours of a run.
    Linear,
    /// The mean of the references.
    SameDay,
    /// No rule applied: the slot is missing.
    Nothing,
    /// The value agreed with the skipper.
    Agreed,
}

/// What a slot comes to.
#[derive(Clone, Copy, Debug, PartialEq, Eq)]
pub struct Outcome {
    /// The value in Wh.
    pub value: u64,
    /// What the value is.
    pub quality: Quality,
    /// How it came about.
    pub method: Method,
}

/// The line that a slot lies on.
#[derive(Clone, Copy, Debug, PartialEq, Eq)]
pub struct Line {
    /// The value before the run, in Wh.
    pub left: u64,
    /// The value after the run, in Wh.
    pub right: u64,
    /// The slot's place in the run, from 1.
    pub place: u64,
    /// How many slots the run has.
    pub length: u64,
}

/// A slot of an earlier day that a mean is made of.
#[derive(Clone, Copy, Debug, PartialEq, Eq)]
pub struct Reference {
    /// Its day, counted from 0 in the book.
    pub day: u32,
    /// Its value in Wh.
    pub value: u64,
}

/// The span that a slot lies in.
#[derive(Clone, Copy, Debug, PartialEq, Eq)]
pub struct Held {
    /// Its first boundary.
    pub first: u32,
    /// Its last boundary.
    pub last: u32,
    /// The lowest advance of the dial, in Wh.
    pub lowest: u64,
    /// The highest advance of the dial, in Wh.
    pub highest: u64,
    /// R: the advance that it is held to, in Wh.
    pub advance: u64,
    /// V: the sum of its A and F slots, in Wh.
    pub actual: u64,
    /// How V lies to R.
    pub state: State,
}

/// How a scaled span is shared out. A shape is what a filled slot counts with.
#[derive(Clone, Copy, Debug, PartialEq, Eq)]
pub struct Shares {
    /// What is shared out, in Wh.
    pub t: u64,
    /// The sum of the shapes of the span.
    pub e: u64,
    /// The sum of the shapes before the slot.
    pub p: u64,
    /// The sum of the shapes up to and with the slot.
    pub c: u64,
}

/// The way of a slot.
#[derive(Clone, Debug, PartialEq, Eq)]
pub struct Explanation {
    /// Why what came does not stand.
    pub cause: Cause,
    /// The rule that applied.
    pub rule: Rule,
    /// The outcome before scaling.
    pub filled: Outcome,
    /// Where the rule is linear.
    pub line: Option<Line>,
    /// Where the rule is same day, the nearest first.
    pub references: Vec<Reference>,
    /// Where the slot lies in one.
    pub span: Option<Held>,
    /// Where the slot is scaled.
    pub shares: Option<Shares>,
    /// The outcome as published.
    pub outcome: Outcome,
}

/// Places of the fields that the library gives, as the header counts them.
mod field {
    use std::ops::Range;

    pub const CAUSE: usize = 0;
    pub const RULE: usize = 1;
    pub const FILLED_VALUE: usize = 2;
    pub const FILLED_QUALITY: usize = 3;
    pub const FILLED_METHOD: usize = 4;
    pub const LEFT: usize = 5;
    pub const RIGHT: usize = 6;
    pub const PLACE: usize = 7;
    pub const LENGTH: usize = 8;
    pub const REFERENCES: usize = 9;
    pub const REFERENCE_DAYS: Range<usize> = 10..14;
    pub const REFERENCE_VALUES: Range<usize> = 14..18;
    pub const IN_SPAN: usize = 18;
    pub const FIRST: usize = 19;
    pub const LAST: usize = 20;
    pub const LOWEST: usize = 21;
    pub const HIGHEST: usize = 22;
    pub const ADVANCE: usize = 23;
    pub const ACTUAL: usize = 24;
    pub const STATE: usize = 25;
    pub const IS_SCALED: usize = 26;
    pub const T: usize = 27;
    pub const E: usize = 28;
    pub const P: usize = 29;
    pub const C: usize = 30;
    pub const VALUE: usize = 31;
    pub const QUALITY: usize = 32;
    pub const METHOD: usize = 33;
}

type Fields = [u64; FIELDS];

fn cause(fields: &Fields) -> Result<Cause, Error> {
    Ok(match fields[field::CAUSE] {
        0 => Cause::Nothing,
        1 => Cause::Gap,
        2 => Cause::TimeChange,
        3 => Cause::Partial,
        4 => Cause::Demand,
        other => return Err(Error::Unknown(other)),
    })
}

fn rule(fields: &Fields) -> Result<Rule, Error> {
    Ok(match fields[field::RULE] {
        0 => Rule::Delivered,
        1 => Rule::OutageZero,
        2 => Rule::Linear,
        3 => Rule::SameDay,
        4 => Rule::Nothing,
        5 => Rule::Agreed,
        other => return Err(Error::Unknown(other)),
    })
}

fn outcome(value: u64, quality: u64, method: u64) -> Result<Outcome, Error> {
    Ok(Outcome {
        value,
        quality: Quality::try_from(Error::narrowed::<u8>(quality)?)?,
        method: Method::try_from(Error::narrowed::<u8>(method)?)?,
    })
}

fn line(fields: &Fields) -> Line {
    Line {
        left: fields[field::LEFT],
        right: fields[field::RIGHT],
        place: fields[field::PLACE],
        length: fields[field::LENGTH],
    }
}

fn references(fields: &Fields) -> Result<Vec<Reference>, Error> {
    let count = Error::narrowed(fields[field::REFERENCES])?;
    let (days, values) = (
        &fields[field::REFERENCE_DAYS],
        &fields[field::REFERENCE_VALUES],
    );
    let pairs = days.iter().zip(values).take(count);
    pairs
        .map(|(day, value)| {
            Ok(Reference {
                day: Error::narrowed(*day)?,
                value: *value,
            })
        })
        .collect()
}

fn held(fields: &Fields) -> Result<Held, Error> {
    Ok(Held {
        first: Error::narrowed(fields[field::FIRST])?,
        last: Error::narrowed(fields[field::LAST])?,
        lowest: fields[field::LOWEST],
        highest: fields[field::HIGHEST],
        advance: fields[field::ADVANCE],
        actual: fields[field::ACTUAL],
        state: State::try_from(Error::narrowed::<u8>(fields[field::STATE])?)?,
    })
}

fn shares(fields: &Fields) -> Shares {
    Shares {
        t: fields[field::T],
        e: fields[field::E],
        p: fields[field::P],
        c: fields[field::C],
    }
}

impl Explanation {
    /// The fields that the library gives, by their names.
    pub(crate) fn of(fields: &Fields) -> Result<Explanation, Error> {
        let [is_linear, in_span, is_scaled] =
            [field::LENGTH, field::IN_SPAN, field::IS_SCALED].map(|place| fields[place] != 0);
        Ok(Explanation {
            cause: cause(fields)?,
            rule: rule(fields)?,
            filled: outcome(
                fields[field::FILLED_VALUE],
                fields[field::FILLED_QUALITY],
                fields[field::FILLED_METHOD],
            )?,
            line: is_linear.then(|| line(fields)),
            references: references(fields)?,
            span: in_span.then(|| held(fields)).transpose()?,
            shares: is_scaled.then(|| shares(fields)),
            outcome: outcome(
                fields[field::VALUE],
                fields[field::QUALITY],
                fields[field::METHOD],
            )?,
        })
    }
}

impl fmt::Display for Cause {
    fn fmt(&self, f: &mut fmt::Formatter<'_>) -> fmt::Result {
        f.write_str(match self {
            Cause::Nothing => "none",
            Cause::Gap => "gap",
            Cause::TimeChange => "time change",
            Cause::Partial => "partial",
            Cause::Demand => "demand",
        })
    }
}

impl fmt::Display for Rule {
    fn fmt(&self, f: &mut fmt::Formatter<'_>) -> fmt::Result {
        f.write_str(match self {
            Rule::Delivered => "delivered",
            Rule::OutageZero => "outage zero",
            Rule::Linear => "linear",
            Rule::SameDay => "same day",
            Rule::Nothing => "none",
            Rule::Agreed => "agreed",
        })
    }
}

impl fmt::Display for Outcome {
    fn fmt(&self, f: &mut fmt::Formatter<'_>) -> fmt::Result {
        write!(f, "{} {} {}", self.value, self.quality, self.method)
    }
}
