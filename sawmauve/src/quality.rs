//! The quality and the method of a slot, and the state of a span.

use crate::Error;
use std::fmt;

/// What a slot's value is; its number is the letter in the file.
#[derive(Clone, Copy, Debug, PartialEq, Eq)]
#[repr(u8)]
pub enum Quality {
    /// As it was delivered, or 0 by an outage.
    Actual = b'A',
    /// Filled.
    Substituted = b'S',
    /// Agreed with the skipper.
    Agreed = b'F',
    /// 0: nothing was there to fill it from.
    Missing = b'N',
}

/// How a slot came to its value.
#[derive(Clone, Copy, Debug, PartialEq, Eq)]
#[repr(u8)]
pub enum Method {
    /// Nothing was done: it was delivered, or it is missing.
    Nothing = 0,
    /// A gap beside a delivered slot with the outage bit.
    OutageZero = 1,
    /// On the straight line between the neighbours.
    Linear = 2,
    /// The mean of the same position in earlier weeks, or of earlier Sundays.
    SameDay = 3,
    /// Agreed with the skipper.
    Agreed = 5,
    /// As `Linear`, then fitted to the dial.
    ScaledLinear = 18,
    /// As `SameDay`, then fitted to the dial.
    ScaledSameDay = 19,
}

/// How a span lies to the advance of its dial.
#[derive(Clone, Copy, Debug, PartialEq, Eq)]
#[repr(u8)]
pub enum State {
    /// What was delivered or agreed fits the advance within the tolerance.
    Agrees = 0,
    /// Filled slots were fitted to the dial.
    Scaled = 1,
    /// A slot is missing.
    Open = 2,
    /// The dial and what was delivered or agreed do not fit.
    Disagrees = 3,
}

const QUALITIES: [Quality; 4] = [
    Quality::Actual,
    Quality::Substituted,
    Quality::Agreed,
    Quality::Missing,
];

const METHODS: [Method; 7] = [
    Method::Nothing,
    Method::OutageZero,
    Method::Linear,
    Method::SameDay,
    Method::Agreed,
    Method::ScaledLinear,
    Method::ScaledSameDay,
];

const STATES: [State; 4] = [State::Agrees, State::Scaled, State::Open, State::Disagrees];

impl Quality {
    /// Its letter.
    pub fn letter(self) -> char {
        char::from(self as u8)
    }
}

impl Method {
    /// Its number.
    pub fn number(self) -> u8 {
        self as u8
    }

    /// The value was fitted to the dial.
    pub fn is_scaled(self) -> bool {
        matches!(self, Method::ScaledLinear | Method::ScaledSameDay)
    }
}

/// The quality with this letter.
impl TryFrom<u8> for Quality {
    type Error = Error;

    fn try_from(letter: u8) -> Result<Quality, Error> {
        let found = QUALITIES.into_iter().find(|one| *one as u8 == letter);
        found.ok_or(Error::Unknown(letter.into()))
    }
}

/// The method with this number.
impl TryFrom<u8> for Method {
    type Error = Error;

    fn try_from(number: u8) -> Result<Method, Error> {
        let found = METHODS.into_iter().find(|one| *one as u8 == number);
        found.ok_or(Error::Unknown(number.into()))
    }
}

/// The state with this number.
impl TryFrom<u8> for State {
    type Error = Error;

    fn try_from(number: u8) -> Result<State, Error> {
        let found = STATES.into_iter().find(|one| *one as u8 == number);
        found.ok_or(Error::Unknown(number.into()))
    }
}

/// The letter.
impl fmt::Display for Quality {
    fn fmt(&self, f: &mut fmt::Formatter<'_>) -> fmt::Result {
        self.letter().fmt(f)
    }
}

/// The number.
impl fmt::Display for Method {
    fn fmt(&self, f: &mut fmt::Formatter<'_>) -> fmt::Result {
        self.number().fmt(f)
    }
}

/// A word.
impl fmt::Display for State {
    fn fmt(&self, f: &mut fmt::Formatter<'_>) -> fmt::Result {
        f.write_str(match self {
            State::Agrees => "agrees",
            State::Scaled => "scaled",
            State::Open => "open",
            State::Disagrees => "disagrees",
        })
    }
}
