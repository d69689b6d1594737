//! What can be wrong with a call of the library.

use crate::Refusal;
use std::fmt;

/// Why there is no answer.
#[derive(Clone, Copy, Debug, PartialEq, Eq)]
pub enum Error {
    /// The call was refused.
    Refused(Refusal),
    /// A log's table or opening, in this line, was refused.
    RefusedLine(u64, Refusal),
    /// This line of a log is not a call.
    NotACall(u64),
    /// A log without an opening.
    NoOpening,
    /// There is no memory for what the call writes.
    Memory,
    /// An answer that the header does not have.
    Unknown(u64),
}

impl Error {
    /// The error that a code stands for.
    pub(crate) fn of(code: impl Into<u64>) -> Error {
        let code = code.into();
        Refusal::of(code).map_or(Error::Unknown(code), Error::Refused)
    }

    /// A number of the library in fewer bits; one that needs more is none that the header has.
    pub(crate) fn narrowed<T: TryFrom<u64>>(number: u64) -> Result<T, Error> {
        T::try_from(number).map_err(|_| Error::Unknown(number))
    }

    /// The line of a log that is wrong, counted from 1.
    pub fn line(self) -> Option<u64> {
        match self {
            Error::RefusedLine(line, _) | Error::NotACall(line) => Some(line),
            _ => None,
        }
    }

    /// The refusal, where there is one.
    pub fn refusal(self) -> Option<Refusal> {
        match self {
            Error::Refused(refusal) | Error::RefusedLine(_, refusal) => Some(refusal),
            _ => None,
        }
    }
}

/// What is wrong, without the line's number.
impl fmt::Display for Error {
    fn fmt(&self, f: &mut fmt::Formatter<'_>) -> fmt::Result {
        match self {
            Error::Refused(refusal) | Error::RefusedLine(_, refusal) => refusal.fmt(f),
            Error::NotACall(_) => f.write_str("not a call"),
            Error::NoOpening => f.write_str("no opening"),
            Error::Memory => f.write_str("out of memory"),
            Error::Unknown(code) => write!(
                f,
                "the library answers {code}, which its header does not have"
            ),
        }
    }
}

impl std::error::Error for Error {}
