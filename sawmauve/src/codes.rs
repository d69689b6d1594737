//! The numbers of `include/sawmauve.h` by its names, beside those of the refusals.

/// Done; of a filling call, stored.
pub const DONE: u32 = 0;
/// A filling call of a lower version than the cell's.
pub const LATE: u32 = 100;
/// A filling call of an equal version with equal content.
pub const REPEAT: u32 = 101;
/// A log's opening.
pub const OPENING: u32 = 102;
/// A line of a log without a call.
pub const NO_CALL: u32 = 103;
/// Not a log: it has no opening.
pub const NO_OPENING: u32 = 104;
/// Not a log: a line of it is not a call.
pub const NOT_A_CALL: u32 = 105;
/// A line of a log: a table of limits.
pub const LIMITS: u32 = 106;
/// A line of a log: slot, version, value, status.
pub const DELIVERY: u32 = 110;
/// A line of a log: slot, version, value.
pub const AGREED: u32 = 111;
/// A line of a log: day.
pub const HOLIDAY: u32 = 112;
/// A line of a log: boundary, version, reading, width.
pub const REGISTER: u32 = 113;

/// How many figures a file has.
pub const FIGURES: usize = 9;
/// How many figures a log has.
pub const LOG_FIGURES: usize = 9;
/// How many fields a line of a log has.
pub const CALL_FIELDS: usize = 7;
/// How many fields the explanation of a slot has.
pub const FIELDS: usize = 34;

/// What the library adds a refusal's number to where it answers a number below it.
pub const READINGS: u32 = 100_000_000;
/// Where the library answers how many bytes it wrote, a refusal is below this: a file, a line or an export is longer than 22 bytes.
pub const SHORTEST: u64 = 23;
