//! The berth meter book: a safe interface over the proved library. Everything that decides is a call of the library; nothing here panics,
//! whatever it is given.
//!
//! ```
//! use sawmauve::{File, Log};
//!
//! let log = Log::read(b"open 2024-05-01 1 30 1 0\ndelivery 0 1 620 0\n")?;
//! let played = log.play()?;
//! let file = File::read(played.book.publish()?)?;
//! assert_eq!(file.line()?, b"2024-05-01 1 30 1 0 47 620");
//! # Ok::<(), sawmauve::Error>(())
//! ```
//!
//! [`compare`] lays two files side by side, [`reconcile`] two logs.
//! [`calls`] has the exports themselves, for lists of any length.

pub mod calls;

mod book;
mod codes;
mod compare;
mod date;
mod error;
mod explanation;
mod file;
mod head;
mod log;
mod market;
mod quality;
mod reconcile;
mod refusal;
mod simulate;

pub use book::{Accepted, Book, Cell, Reading};
pub use compare::{Comparison, DaySums, Differing, Lacks, Pair, compare};
pub use date::{Date, Time, minute, number};
pub use error::Error;
pub use explanation::{Cause, Explanation, Held, Line, Outcome, Reference, Rule, Shares};
pub use file::{Figures, File, LONGEST, Slot, Span, from_strips};
pub use head::Head;
pub use log::{Answer, Call, Log, Played};
pub use market::Fields;
pub use quality::{Method, Quality, State};
pub use reconcile::{Behind, Elsewhere, Listed, Reconciliation, reconcile};
pub use refusal::{ALL as REFUSALS, Refusal};
pub use simulate::{Run, simulate};

/// The identity of the kit that the library was proved by.
pub const KIT: &str = env!("SAWMAUVE_KIT");
