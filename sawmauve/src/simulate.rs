//! A berth on paper.

use crate::book::done;
use crate::file::{SLOT_BYTES, SPAN_BYTES, TRAILER_BYTES};
use crate::{Book, Error, File, Head, State, calls};
use std::fmt;

/// What a run came to.
#[derive(Clone, Copy, Debug, PartialEq, Eq)]
pub struct Run {
    /// The span's state.
    pub state: State,
    /// The published total minus the true one, in Wh.
    pub difference: i64,
    /// The true total in Wh.
    pub total: u64,
}

/// The state in a report, where numbers have a sign.
fn state_of(number: i64) -> Result<State, Error> {
    let unknown = Error::Unknown(number.unsigned_abs());
    State::try_from(u8::try_from(number).map_err(|_| unknown)?)
}

/// Runs a berth from a seed with `loss` of 1000 slots lost.
pub fn simulate(head: Head, seed: u32, loss: u32) -> Result<Run, Error> {
    let mut book = Book::blank(head);
    let mut out = vec![0; SLOT_BYTES * book.values.len() + SPAN_BYTES + TRAILER_BYTES];
    let mut report = [0; 2];
    done(calls::simulate(
        head,
        seed,
        loss,
        &mut book.values,
        &mut book.versions,
        &mut book.statuses,
        &mut book.holidays,
        &mut book.readings,
        &mut book.read_versions,
        &mut book.agreed,
        &mut book.agreed_versions,
        &mut book.counts,
        &mut book.widths,
        &mut out,
        &mut report,
    ))?;
    let published = File::read(out)?.figures().sum;
    let [state, difference] = report;
    Ok(Run {
        state: state_of(state)?,
        difference,
        total: published.saturating_add_signed(difference.saturating_neg()),
    })
}

impl Run {
    /// The size of the difference in tenths of a percent of the true total, rounded to the nearest.
    fn tenths(&self) -> u128 {
        let (size, total) = (
            u128::from(self.difference.unsigned_abs()),
            u128::from(self.total),
        );
        (2000 * size + total).checked_div(2 * total).unwrap_or(0)
    }
}

/// The state, the difference in Wh, and the same in percent of the true total.
impl fmt::Display for Run {
    fn fmt(&self, f: &mut fmt::Formatter<'_>) -> fmt::Result {
        let tenths = self.tenths();
        let sign = if self.difference < 0 && tenths != 0 {
            "-"
        } else {
            ""
        };
        write!(
            f,
            "{} {} {sign}{}.{}%",
            self.state,
            self.difference,
            tenths / 10,
            tenths % 10
        )
    }
}
