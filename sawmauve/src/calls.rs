//! One safe function for each export of the library, in the header's words and order, for lists of any length. What each answers, and which
//! lists it changes, `include/sawmauve.h` says. The only unsafe code of the library.

#![allow(unsafe_code, reason = "the exports are called here")]
#![allow(
    clippy::too_many_arguments,
    reason = "a function has the arguments of its export"
)]

use crate::Head;

/// Declares an export and the safe function over it. Of the arguments `head` is the head, `fill x: T` a list that the call may write,
/// `read x: T` one that it reads, `fill book` and `read book` the ten lists of a book, and `x: T` a number.
macro_rules! export {
    ($(#[$doc:meta])* $name:ident = $symbol:ident($($rest:tt)*) -> $answer:ty) => {
        export!(@ [$(#[$doc])* $name $symbol $answer] [] [] [] $($rest)*);
    };
    (@ [$($of:tt)*] [$($declared:tt)*] [$($taken:tt)*] [$($given:tt)*] head, $($rest:tt)*) => {
        export!(@ [$($of)*]
            [$($declared)* _: u32, _: u32, _: u32, _: u32, _: u32, _: u32, _: u32,]
            [$($taken)* head: Head,]
            [$($given)* head.year, head.month, head.day, head.days, head.interval, head.limit, head.tolerance,]
            $($rest)*);
    };
    (@ $of:tt $declared:tt $taken:tt $given:tt fill book, $($rest:tt)*) => {
        export!(@ $of $declared $taken $given
            fill values: u32, fill versions: u32, fill statuses: u8, fill holidays: u8, fill readings: u32, fill read_versions: u32,
            fill agreed: u32, fill agreed_versions: u32, fill counts: u16, fill widths: u16, $($rest)*);
    };
    (@ $of:tt $declared:tt $taken:tt $given:tt read book, $($rest:tt)*) => {
        export!(@ $of $declared $taken $given
            read values: u32, read versions: u32, read statuses: u8, read holidays: u8, read readings: u32, read read_versions: u32,
            read agreed: u32, read agreed_versions: u32, read counts: u16, read widths: u16, $($rest)*);
    };
    (@ $of:tt [$($declared:tt)*] [$($taken:tt)*] [$($given:tt)*] fill $list:ident: $item:ty, $($rest:tt)*) => {
        export!(@ $of
            [$($declared)* _: *mut $item, _: usize,]
            [$($taken)* $list: &mut [$item],]
            [$($given)* $list.as_mut_ptr(), $list.len(),]
            $($rest)*);
    };
    (@ $of:tt [$($declared:tt)*] [$($taken:tt)*] [$($given:tt)*] read $list:ident: $item:ty, $($rest:tt)*) => {
        export!(@ $of
            [$($declared)* _: *const $item, _: usize,]
            [$($taken)* $list: &[$item],]
            [$($given)* $list.as_ptr(), $list.len(),]
            $($rest)*);
    };
    (@ $of:tt [$($declared:tt)*] [$($taken:tt)*] [$($given:tt)*] $number:ident: $kind:ty, $($rest:tt)*) => {
        export!(@ $of
            [$($declared)* _: $kind,]
            [$($taken)* $number: $kind,]
            [$($given)* $number,]
            $($rest)*);
    };
    (@ [$(#[$doc:meta])* $name:ident $symbol:ident $answer:ty] [$($declared:tt)*] [$($taken:tt)*] [$($given:tt)*]) => {
        $(#[$doc])*
        #[inline]
        pub fn $name($($taken)*) -> $answer {
            unsafe extern "C" {
                fn $symbol($($declared)*) -> $answer;
            }
            // SAFETY: each pointer and length are those of one slice, which lives as long as the call; a list that is written is borrowed
            // alone, so no two overlap; the library keeps no pointer and writes within the lists it is lent.
            unsafe { $symbol($($given)*) }
        }
    };
}

export!(
    /// The demand limit in W at a place of a table.
    limit = sawmauve_limit(read table: u32, kind: u32,) -> u32
);
export!(
    /// Opens a book.
    open = sawmauve_open(head, fill book,) -> u32
);
export!(
    /// A delivery for a slot.
    deliver = sawmauve_deliver(
        head, fill values: u32, fill versions: u32, fill statuses: u8, fill counts: u16, slot: u32, version: u32, value: u32, status: u32,
    ) -> u32
);
export!(
    /// A value agreed with the skipper for a slot.
    agree = sawmauve_agree(head, fill agreed: u32, fill agreed_versions: u32, slot: u32, version: u32, value: u32,) -> u32
);
export!(
    /// A holiday.
    holiday = sawmauve_holiday(head, fill holidays: u8, holiday: u32,) -> u32
);
export!(
    /// A register read at a boundary.
    register = sawmauve_register(
        head, fill readings: u32, fill read_versions: u32, fill widths: u16, boundary: u32, version: u32, reading: u32, width: u32,
    ) -> u32
);
export!(
    /// Writes the file of a book.
    publish = sawmauve_publish(head, read book, fill out: u8,) -> u64
);
export!(
    /// Explains a slot.
    explain = sawmauve_explain(head, read book, slot: u32, fill fields: u64,) -> u32
);
export!(
    /// Checks a file.
    check = sawmauve_check(read bytes: u8,) -> u32
);
export!(
    /// Reads a file.
    read = sawmauve_read(read bytes: u8, fill figures: u64,) -> u32
);
export!(
    /// How many of a file's first bytes are its two tables.
    tables = sawmauve_tables(read bytes: u8,) -> u64
);
export!(
    /// 01's line of a file.
    line = sawmauve_line(read file: u8, fill out: u8,) -> u64
);
export!(
    /// A reading in packed decimal.
    pack = sawmauve_pack(reading: u32, fill bytes: u8,) -> u32
);
export!(
    /// The reading of four bytes in packed decimal.
    unpack = sawmauve_unpack(read bytes: u8,) -> u32
);
export!(
    /// Lays a slot table out for storage.
    to_strips = sawmauve_to_strips(interval: u32, read table: u8, fill out: u8,) -> u32
);
export!(
    /// The slot table of strips.
    from_strips = sawmauve_from_strips(interval: u32, read strips: u8, fill out: u8,) -> u32
);
export!(
    /// Totals stays in a file.
    stays = sawmauve_stays(read file: u8, read pairs: u32, fill totals: u64,) -> u32
);
export!(
    /// Exports a file as NEM12.
    nem12 = sawmauve_nem12(
        read file: u8, read identifier: u8, read from: u8, read to: u8, read configuration: u8, read register_id: u8, read suffix: u8,
        read stream: u8, read serial: u8, read next_read: u8, read reason: u8, read created: u8,
        method_2: u32, method_3: u32, method_5: u32, method_18: u32, method_19: u32, fill out: u8,
    ) -> u64
);
export!(
    /// Runs a berth on paper.
    simulate = sawmauve_simulate(head, seed: u32, loss: u32, fill book, fill out: u8, fill report: i64,) -> u32
);
export!(
    /// What the bytes of a text log are.
    log = sawmauve_log(read log: u8, fill figures: u64,) -> u32
);
export!(
    /// The number of the line for which the bytes are no log.
    log_line = sawmauve_log_line(read log: u8,) -> u64
);
export!(
    /// Plays a whole log.
    play = sawmauve_play(read log: u8, fill book, fill answers: u8,) -> u32
);
export!(
    /// One line of a log as numbers.
    call = sawmauve_call(read line: u8, fill fields: u32,) -> u32
);
export!(
    /// The slot that a date and a minute of the day name.
    slot = sawmauve_slot(head, at_year: u32, at_month: u32, at_day: u32, minute: u32,) -> u32
);
export!(
    /// The date of a day number.
    date = sawmauve_date(day: u32,) -> u32
);
