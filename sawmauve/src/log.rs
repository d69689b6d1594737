//! A text log: what it is, what its lines say, and what playing it leaves and answers.

use crate::book::{accepted, done};
use crate::codes::{self, CALL_FIELDS, LOG_FIGURES};
use crate::{Accepted, Book, Date, Error, Head, Refusal, calls};
use std::fmt;

/// The bytes of a log: one opening with a good head, and only calls.
#[derive(Clone, Copy, Debug)]
pub struct Log<'a> {
    bytes: &'a [u8],
    head: Head,
    lines: usize,
    calls: u64,
}

/// What a line of a log got.
#[derive(Clone, Copy, Debug, PartialEq, Eq)]
pub enum Answer {
    /// A line without a call.
    Nothing,
    /// The opening.
    Done,
    /// A filling call that was accepted.
    Accepted(Accepted),
    /// A filling call that was refused.
    Refused(Refusal),
}

/// A log that was played: the book it left and an answer for each line.
#[derive(Clone, Debug)]
pub struct Played {
    /// The book.
    pub book: Book,
    answers: Vec<Answer>,
}

/// A line of a log as a call.
#[derive(Clone, Copy, Debug, PartialEq, Eq, Hash)]
pub enum Call {
    /// An empty line or a comment.
    Nothing,
    /// A table of demand limits.
    Limits,
    /// The opening.
    Opening {
        /// The first day.
        first: Date,
        /// D.
        days: u32,
        /// L in minutes.
        interval: u32,
        /// The place in the table of demand limits, from 1.
        kind: u32,
        /// The tolerance in Wh.
        tolerance: u32,
    },
    /// A delivery for a slot.
    Delivery {
        /// The slot, from 0.
        slot: u32,
        /// The version, from 1.
        version: u32,
        /// The value in Wh.
        value: u32,
        /// 1 time change, 2 power outage, 4 partial interval.
        status: u32,
    },
    /// A value agreed with the skipper for a slot.
    Agreed {
        /// The slot, from 0.
        slot: u32,
        /// The version, from 1.
        version: u32,
        /// The value in Wh.
        value: u32,
    },
    /// A holiday.
    Holiday {
        /// The day, from 0.
        day: u32,
    },
    /// A register read at a boundary.
    Register {
        /// The boundary, 0 for the start of the first day.
        boundary: u32,
        /// The version, from 1.
        version: u32,
        /// The lowest that the dial can have stood at, in Wh.
        reading: u32,
        /// How much higher it can have stood, in Wh; 0 where the log has none.
        width: u32,
    },
}

fn head_of(figures: [u64; 7]) -> Result<Head, Error> {
    let [year, month, day, days, interval, limit, tolerance] = figures;
    Ok(Head {
        year: Error::narrowed(year)?,
        month: Error::narrowed(month)?,
        day: Error::narrowed(day)?,
        days: Error::narrowed(days)?,
        interval: Error::narrowed(interval)?,
        limit: Error::narrowed(limit)?,
        tolerance: Error::narrowed(tolerance)?,
    })
}

impl<'a> Log<'a> {
    /// The log that these bytes are.
    pub fn read(bytes: &'a [u8]) -> Result<Log<'a>, Error> {
        let mut figures = [0; LOG_FIGURES];
        match calls::log(bytes, &mut figures) {
            codes::DONE => {}
            codes::NO_OPENING => return Err(Error::NoOpening),
            codes::NOT_A_CALL => return Err(Error::NotACall(calls::log_line(bytes))),
            code => {
                let error = Error::of(code);
                return Err(match error.refusal() {
                    Some(refusal) => Error::RefusedLine(calls::log_line(bytes), refusal),
                    None => error,
                });
            }
        }
        let [head @ .., lines, calls] = figures;
        Ok(Log {
            bytes,
            head: head_of(head)?,
            lines: Error::narrowed(lines)?,
            calls,
        })
    }

    /// The head that its opening gives.
    pub fn head(&self) -> Head {
        self.head
    }

    /// How many filling calls it has.
    pub fn call_count(&self) -> u64 {
        self.calls
    }

    /// Its lines without their LF.
    pub fn lines(&self) -> impl Iterator<Item = &'a [u8]> + use<'a> {
        let parts = self.bytes.split_inclusive(|byte| *byte == b'\n');
        parts.map(|line| line.strip_suffix(b"\n").unwrap_or(line))
    }

    /// Plays it from its opening to its end.
    pub fn play(&self) -> Result<Played, Error> {
        let mut book = Book::blank(self.head);
        let mut answers = vec![0; self.lines];
        done(calls::play(
            self.bytes,
            &mut book.values,
            &mut book.versions,
            &mut book.statuses,
            &mut book.holidays,
            &mut book.readings,
            &mut book.read_versions,
            &mut book.agreed,
            &mut book.agreed_versions,
            &mut book.counts,
            &mut book.widths,
            &mut answers,
        ))?;
        let answers: Result<Vec<Answer>, Error> = answers.into_iter().map(Answer::of).collect();
        Ok(Played {
            book,
            answers: answers?,
        })
    }
}

impl Played {
    /// The answer of each line, in order.
    pub fn answers(&self) -> impl Iterator<Item = Answer> + '_ {
        self.answers.iter().copied()
    }

    /// How many calls were refused, and how many of these for a conflict (10).
    pub fn refused(&self) -> (usize, usize) {
        let refused = self
            .answers()
            .filter(|answer| matches!(answer, Answer::Refused(_)))
            .count();
        let conflicts = self
            .answers()
            .filter(|answer| *answer == Answer::Refused(Refusal::Conflict))
            .count();
        (refused, conflicts)
    }
}

impl Answer {
    /// The answer that a line's byte stands for.
    fn of(code: u8) -> Result<Answer, Error> {
        match u32::from(code) {
            codes::OPENING => Ok(Answer::Done),
            codes::NO_CALL => Ok(Answer::Nothing),
            code => match accepted(code) {
                Ok(accepted) => Ok(Answer::Accepted(accepted)),
                Err(Error::Refused(refusal)) => Ok(Answer::Refused(refusal)),
                Err(error) => Err(error),
            },
        }
    }
}

/// done, stored, late, repeat or refused N.
impl fmt::Display for Answer {
    fn fmt(&self, f: &mut fmt::Formatter<'_>) -> fmt::Result {
        match self {
            Answer::Nothing => Ok(()),
            Answer::Done => f.write_str("done"),
            Answer::Accepted(Accepted::Stored) => f.write_str("stored"),
            Answer::Accepted(Accepted::Late) => f.write_str("late"),
            Answer::Accepted(Accepted::Repeat) => f.write_str("repeat"),
            Answer::Refused(refusal) => write!(f, "refused {}", refusal.number()),
        }
    }
}

impl Call {
    /// Its version, where it has one.
    pub fn version(&self) -> Option<u32> {
        match *self {
            Call::Delivery { version, .. }
            | Call::Agreed { version, .. }
            | Call::Register { version, .. } => Some(version),
            Call::Nothing | Call::Limits | Call::Opening { .. } | Call::Holiday { .. } => None,
        }
    }

    /// What a line, without its LF, says; nothing where it is no line of a log.
    pub fn read(line: &[u8]) -> Result<Option<Call>, Error> {
        let mut fields = [0; CALL_FIELDS];
        match calls::call(line, &mut fields) {
            codes::NOT_A_CALL => Ok(None),
            code => Call::of(code, fields).map(Some),
        }
    }

    /// The call that a code and its fields stand for.
    fn of(code: u32, fields: [u32; CALL_FIELDS]) -> Result<Call, Error> {
        Ok(match (code, fields) {
            (codes::NO_CALL, _) => Call::Nothing,
            (codes::LIMITS, _) => Call::Limits,
            (codes::OPENING, [year, month, day, days, interval, kind, tolerance]) => {
                Call::Opening {
                    first: Date { year, month, day },
                    days,
                    interval,
                    kind,
                    tolerance,
                }
            }
            (codes::DELIVERY, [slot, version, value, status, ..]) => Call::Delivery {
                slot,
                version,
                value,
                status,
            },
            (codes::AGREED, [slot, version, value, ..]) => Call::Agreed {
                slot,
                version,
                value,
            },
            (codes::HOLIDAY, [day, ..]) => Call::Holiday { day },
            (codes::REGISTER, [boundary, version, reading, width, ..]) => Call::Register {
                boundary,
                version,
                reading,
                width,
            },
            _ => return Err(Error::of(code)),
        })
    }
}

#[cfg(test)]
mod tests {
    use super::*;

    #[test]
    fn an_unknown_code_is_an_error() {
        assert_eq!(Answer::of(10), Ok(Answer::Refused(Refusal::Conflict)));
        for code in [23, 99, 104, 255] {
            assert_eq!(Answer::of(code), Err(Error::Unknown(code.into())));
        }
        assert_eq!(Call::of(103, [0; CALL_FIELDS]), Ok(Call::Nothing));
        assert_eq!(Call::of(114, [0; CALL_FIELDS]), Err(Error::Unknown(114)));
    }
}
