//! The numbers of a refusal, the same in every call, and what they mean in words.

use std::fmt;

/// Why a call was refused: 01's number under `Numbers of a refusal`, and 02's. `words` has each in full.
#[derive(Clone, Copy, Debug, PartialEq, Eq, PartialOrd, Ord)]
#[repr(u8)]
pub enum Refusal {
    /// The head.
    Head = 1,
    /// The length of a lent list.
    Length,
    /// The slot, day or boundary.
    Place,
    /// The version.
    Version,
    /// The status.
    Status,
    /// The reading.
    Reading,
    /// The output buffer.
    Buffer,
    /// The file's length, distance, head or layout.
    Layout,
    /// A record, count or sum of the file.
    Broken,
    /// An equal version with other content.
    Conflict,
    /// A cell or count.
    Cell,
    /// The agreed value.
    Agreed,
    /// The table of demand limits.
    Table,
    /// The meter identifier of an export.
    Identifier,
    /// A text, the creation time or a method code of an export.
    Text,
    /// A half byte of packed decimal.
    HalfByte,
    /// The width.
    Width,
    /// The number of stays.
    Pairs,
    /// A stay's days.
    Pair,
    /// The seed of a simulation.
    Seed,
    /// The loss rate of a simulation.
    Loss,
    /// The length of a table or of its strips.
    Strips,
}

use Refusal::*;

/// All refusals, in the order of their numbers.
pub const ALL: [Refusal; 22] = [
    Head, Length, Place, Version, Status, Reading, Buffer, Layout, Broken, Conflict, Cell, Agreed,
    Table, Identifier, Text, HalfByte, Width, Pairs, Pair, Seed, Loss, Strips,
];

impl Refusal {
    /// The refusal with this number, 1 to 22.
    pub fn of(number: u64) -> Option<Refusal> {
        let place = usize::try_from(number).ok()?.checked_sub(1)?;
        ALL.get(place).copied()
    }

    /// Its number.
    pub fn number(self) -> u8 {
        self as u8
    }

    /// What it means.
    pub fn words(self) -> &'static str {
        match self {
            Head => "head outside its bounds",
            Length => "a lent list of the wrong length",
            Place => "slot, day or boundary outside the book",
            Version => "version 0",
            Status => "status over 7",
            Reading => "reading over 99,999,999",
            Buffer => "output buffer shorter than the file",
            Layout => "length, distance, head or layout of the file wrong",
            Broken => "a record, count or sum of the file broken",
            Conflict => "conflict: equal version, other content",
            Cell => "a cell or count that no calls could leave",
            Agreed => "agreed value over 99,999,999",
            Table => "not a table of 1 to 24 rising demand limits up to 1,000,000",
            Identifier => "identifier that is not ten characters of A to Z without I and O, 0 to 9",
            Text => {
                "text with a comma or a byte outside 0x20 to 0x7E, creation time that is not 14 digits, or method code over 99"
            }
            HalfByte => "a half byte above 9",
            Width => "width over 9,999",
            Pairs => "more than 64 stays, or a stay without its end",
            Pair => "a stay that does not begin before it ends, or ends outside the file",
            Seed => "a seed of 0",
            Loss => "a loss rate over 1000",
            Strips => "not 6 bytes a slot for 1 to 400 whole days",
        }
    }
}

impl fmt::Display for Refusal {
    fn fmt(&self, f: &mut fmt::Formatter<'_>) -> fmt::Result {
        write!(f, "refused {}: {}", self.number(), self.words())
    }
}

impl std::error::Error for Refusal {}
