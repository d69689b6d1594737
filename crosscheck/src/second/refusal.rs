//! 01, Numbers of a refusal, and 02's.

pub const HEAD: u8 = 1;
pub const LENGTH: u8 = 2;
pub const PLACE: u8 = 3;
pub const VERSION: u8 = 4;
pub const STATUS: u8 = 5;
pub const READING: u8 = 6;
pub const BUFFER: u8 = 7;
pub const LAYOUT: u8 = 8;
pub const CONTENT: u8 = 9;
pub const CONFLICT: u8 = 10;
pub const CELL: u8 = 11;

// 02.
pub const AGREED: u8 = 12;
pub const TABLE: u8 = 13;
pub const IDENTIFIER: u8 = 14;
pub const TEXTS: u8 = 15;
pub const DIGIT: u8 = 16;
pub const WIDTH: u8 = 17;
pub const STAYS: u8 = 18;
pub const STAY_DAYS: u8 = 19;
pub const SEED: u8 = 20;
pub const LOSS: u8 = 21;
pub const STRIPS: u8 = 22;
