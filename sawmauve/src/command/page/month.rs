//! What a page shows of one log: its book, the file that it publishes, and what the library answers about them.

use super::super::times::Times;
use super::cells::Cell;
use sawmauve::{Date, Error, File, Head, Log, Played, Slot, Time};
use std::ffi::OsStr;
use std::os::unix::ffi::OsStrExt;

/// The most days of which a page has a cell for each slot and a curve for each day.
const MOST_DAYS: u32 = 62;

/// A log, played and published.
pub struct Month<'a> {
    pub name: &'a OsStr,
    pub log: Log<'a>,
    pub played: Played,
    pub file: File,
    /// The slots as filled before any span was fitted to the dial.
    pub before: Vec<Slot>,
    /// The totals of the days in Wh.
    pub totals: Vec<u64>,
}

/// The total of each day; the library takes up to 64 at a time.
fn totals(file: &File) -> Result<Vec<u64>, Error> {
    let days: Vec<(u32, u32)> = (0..file.figures().days).map(|day| (day, day + 1)).collect();
    let parts: Result<Vec<_>, Error> = days.chunks(64).map(|days| file.stays(days)).collect();
    Ok(parts?.concat())
}

impl<'a> Month<'a> {
    pub fn of(name: &'a OsStr, bytes: &'a [u8]) -> Result<Month<'a>, Error> {
        let log = Log::read(bytes)?;
        let played = log.play()?;
        let file = File::read(played.book.publish()?)?;
        let unread = File::read(played.book.unread().publish()?)?;
        Ok(Month {
            name,
            log,
            before: unread.slots().to_vec(),
            totals: totals(&file)?,
            played,
            file,
        })
    }

    pub fn head(&self) -> Head {
        self.log.head()
    }

    pub fn slots(&self) -> &[Slot] {
        self.file.slots()
    }

    pub fn times(&self) -> Times {
        Times::of(self.file.figures())
    }

    /// The log's name without its folders.
    pub fn title(&self) -> &[u8] {
        let name = self.name.as_bytes();
        match name.rsplit(|byte| *byte == b'/').next() {
            Some(b"-") | None => b"standard input",
            Some(last) => last,
        }
    }

    /// Over 62 days a cell is a half hour, and a curve a week.
    pub fn is_long(&self) -> bool {
        self.head().days > MOST_DAYS
    }

    /// How many slots a cell has.
    pub fn slots_per_cell(&self) -> u32 {
        match self.is_long() {
            true => 30_u32.checked_div(self.head().interval).unwrap_or(1).max(1),
            false => 1,
        }
    }

    pub fn cells_per_day(&self) -> usize {
        (self.head().slots_per_day() / self.slots_per_cell()).max(1) as usize
    }

    /// The times of some slots from one on, which end on the same day.
    pub fn period(&self, first: u32, slots: u32) -> String {
        let head = self.head();
        let minute = first % head.slots_per_day().max(1) * head.interval;
        let until = Time(minute + slots * head.interval);
        format!("{} to {until}", self.times().slot(first))
    }

    /// The times of a cell.
    pub fn period_of(&self, cell: &Cell) -> String {
        self.period(cell.first, self.slots_per_cell())
    }

    pub fn cells(&self) -> impl Iterator<Item = Cell<'_>> {
        let size = self.slots_per_cell() as usize;
        let parts = self.slots().chunks(size).zip(self.before.chunks(size));
        (0..)
            .step_by(size)
            .zip(parts)
            .map(|(first, (slots, before))| Cell {
                first,
                slots,
                before,
            })
    }

    /// The day's weekday, from 0 for Monday: day number 0, 2000-01-01, was a Saturday.
    pub fn weekday(&self, day: u32) -> u32 {
        (self.file.figures().first + day + 5) % 7
    }

    /// The date with its weekday, the year apart so that a narrow page can leave it out.
    pub fn date(&self, day: u32) -> String {
        let weekday = ["Mon", "Tue", "Wed", "Thu", "Fri", "Sat", "Sun"][self.weekday(day) as usize];
        let date = Date::of(self.file.figures().first + day);
        date.map_or_else(String::new, |Date { year, month, day }| {
            format!("<span class=\"year\">{year:04}-</span>{month:02}-{day:02} <span class=\"weekday\">{weekday}</span>")
        })
    }
}
