//! How often each class occurred; every class is listed from the start, with 0.

use std::collections::BTreeMap;
use std::fmt;

use crate::census::days;
use crate::census::fits;
use crate::census::ranges;
use crate::compare::calls::{Act, Book};
use crate::compare::side::Answer;
use crate::number::narrowed;
use crate::second::book::{Filed, MOST_AGREED};
use crate::second::head::{Head, Shape};
use crate::second::lists::{Agreement, Delivery, List, Lists};
use crate::second::reader::{Fault, Figures};
use crate::second::refusal;

type Class = (&'static str, &'static str);

#[derive(Clone, Debug)]
pub struct Counts(BTreeMap<Class, u64>);

const CLASSES: &[(&str, &[&str])] = &[
    (
        "book days",
        &[
            "1", "2", "7", "8", "29", "31", "64", "365", "366", "400", "other",
        ],
    ),
    (
        "book slots",
        &["48", "to 1,500", "to 20,000", "to 115,199", "115,200"],
    ),
    ("book head", &["L 5", "L 15", "L 30", "refused"]),
    ("book limit", LIMITS),
    ("limit refused, 1", &["0", "1,000,001", "another"]),
    ("book tolerance", &["0", "small", "1,000,000", "other"]),
    (
        "book first day",
        &[
            "2000-01-01",
            "leap day",
            "month end",
            "ends 2099-12-31",
            "other",
        ],
    ),
    ("answer to open", &["done", "1", "2"]),
    (
        "answer to deliver",
        &[
            "stored", "late", "repeat", "1", "2", "3", "4", "5", "10", "11",
        ],
    ),
    ("status over 255", &["5", "lower number"]),
    (
        "answer to holiday",
        &["stored", "repeat", "1", "2", "3", "11"],
    ),
    (
        "answer to register",
        &[
            "stored", "late", "repeat", "1", "2", "3", "4", "6", "10", "11", "17",
        ],
    ),
    (
        "answer to agree",
        &[
            "stored", "late", "repeat", "1", "2", "3", "4", "10", "11", "12",
        ],
    ),
    ("answer to publish", &["length", "1", "2", "7", "11"]),
    ("answer of the reader", &["figures", "8", "9"]),
    (
        "list of a wrong length",
        &[
            "values",
            "versions",
            "statuses",
            "holidays",
            "readings",
            "read versions",
            "agreed",
            "agreed versions",
            "counts",
            "widths",
        ],
    ),
    (
        "cause",
        &["good", "gap", "time change", "partial", "demand"],
    ),
    ("quality", &["A", "S", "N", "F"]),
    ("method", &["0", "1", "2", "3", "5", "18", "19"]),
    ("span state", &["0", "1", "2", "3"]),
    (
        "outage zero",
        &[
            "before",
            "after",
            "both sides",
            "run at the first slot",
            "run at the last slot",
        ],
    ),
    ("run between good slots, L 5", LENGTHS),
    ("run between good slots, L 15", LENGTHS.split_at(9).0),
    ("run between good slots, L 30", LENGTHS.split_at(5).0),
    (
        "line",
        &[
            "falling",
            "rising",
            "level",
            "falling, rounded",
            "rising, rounded",
            "mixed causes",
            "all four causes",
            "beside an outage",
            "of delivered slots",
            "over a day's end",
            "over a span's end",
            "part of it scaled",
        ],
    ),
    (
        "no line",
        &[
            "at the first slot",
            "at the last slot",
            "agreed before",
            "agreed after",
            "zeroed before",
            "zeroed after",
            "short, but references",
            "longer, S and N in it",
            "none from a filled neighbour",
        ],
    ),
    (
        "references",
        &[
            "0",
            "1",
            "2",
            "3",
            "4",
            "only 52 weeks back",
            "only 53 weeks back",
            "behind three gaps",
            "behind four gaps",
            "behind eight gaps",
        ],
    ),
    (HOLIDAYS[0], FOUND),
    (HOLIDAYS[1], FOUND),
    (HOLIDAYS[2], FOUND),
    (HOLIDAYS[3], FOUND),
    (HOLIDAYS[4], FOUND),
    (HOLIDAYS[5], FOUND),
    (HOLIDAYS[6], FOUND),
    (LATE_HOLIDAYS[0], FOUND),
    (LATE_HOLIDAYS[1], FOUND),
    (LATE_HOLIDAYS[2], FOUND),
    (LATE_HOLIDAYS[3], FOUND),
    (LATE_HOLIDAYS[4], FOUND),
    (LATE_HOLIDAYS[5], FOUND),
    (LATE_HOLIDAYS[6], FOUND),
    (
        "Sundays",
        &[
            "370 days back",
            "only 370 days back",
            "365 to 369 days back",
            "364 days back, of a Sunday",
            "none 371 days back",
            "none from the 54th or a Sunday's 53rd",
            "a holiday passed over",
            "an outage passed over",
            "no Sunday in the book",
            "none from its own weekday",
            "where the week before has none",
        ],
    ),
    (
        "earlier week skipped",
        &["holiday", "outage", "gap", "failed"],
    ),
    ("demand, limit 1", AROUND),
    ("demand, limit 40,000", AROUND),
    ("demand, limit 70,000", AROUND),
    ("demand, limit 1,000,000", AROUND),
    ("demand, another limit", AROUND),
    ("demand", &["highest value"]),
    (
        "span",
        &[
            "dial wrapped",
            "R 0",
            "E 0",
            "R = V, scaled",
            "R = V - 1, disagrees",
            "R = V + t",
            "R = V + t + 1",
            "R = V - t",
            "R = V - t - 1",
            "slots outside",
            "new value over the limit",
        ],
    ),
    (
        "agreed",
        &[
            "agreed beside a gap",
            "agreed beside a time change",
            "agreed beside a partial interval",
            "agreed beside a demand",
            "agreed on a good slot",
            "agreed inside a run beside an outage",
            "outage zero beyond an agreed gap",
            "no line from an agreed neighbour",
            "no reference from an agreed week",
            "F in a span of state 0",
            "F in a span of state 1",
            "F in a span of state 2",
            "F in a span of state 3",
            "F outside spans",
            "F of value 0",
            "F of value 99,999,999",
            "F over the demand limit",
            "R = V + t with an F",
            "R = V with an F, scaled",
            "R = V - 1 with an F, disagrees",
            "agree refused 11, over 99,999,999",
            "agree refused 11, beside version 0",
            "publish refused 11, agreed over 99,999,999",
            "publish refused 11, agreed beside version 0",
        ],
    ),
    (fits::FRACTIONS, fits::FRACTION_NAMES),
    (fits::FOURS, fits::FOUR_NAMES),
    (
        "shape",
        &[
            "fitted otherwise than by rounded means",
            "two Wh apart from rounded means",
            "fitted as by rounded means, though a remainder",
            "lines beside a remainder",
            "means of 0, but E not 0",
            "E 0 of references",
            "E 0 of lines",
            "E 0 of both",
            "T × E over 63 bits",
            "remainder, open span",
            "remainder, disagrees",
            "remainder outside spans",
        ],
    ),
    (days::FIRST, days::FIRST_NAMES),
    (days::PUBLISH, days::PUBLISH_NAMES),
    (
        "count",
        &[
            "day filled by a first delivery",
            "room for one on an emptier day",
            "raised though wrong",
            "later version on a full day",
            "late on a full day",
            "repeat on a full day",
            "conflict on a full day",
            "later version, count over n",
            "empty day published",
            "full day published",
            "count over 255 published",
        ],
    ),
    (ranges::RANGES, ranges::RANGE_NAMES),
    (ranges::PLACES, ranges::PLACE_NAMES),
    (ranges::EDGES, ranges::EDGE_NAMES),
    (ranges::READS, ranges::READ_NAMES),
    (
        "layout",
        &[
            "3 published without an F",
            "3 published with an F",
            "1 read",
            "2 read",
            "3 read without spans",
            "3 read with spans",
        ],
    ),
    (
        "damaged file",
        &[
            "damage to a file of layout 1",
            "damage to a file of layout 2",
            "damage to a file of layout 3",
            "damaged, layout 1 accepted",
            "damaged, layout 2 accepted",
            "damaged, layout 3 accepted",
            "refused 8, layout byte made 3",
            "refused 8, layout byte 3 made 1 or 2",
            "refused 9, layout 3",
            "layout 1 or 2 made 3",
            "layout 3 made 1 or 2",
            "scaled sum below the lowest",
            "scaled sum above the highest",
            "scaled sum at the lowest",
            "scaled sum at the highest",
            "layout byte 1 made 2",
            "layout byte 2 made 1",
            "F in layout 1",
            "no F in layout 2",
            "(F,5) of 99,999,999 accepted",
            "(F,5) of 100,000,000",
            "F with another method",
            "5 with another letter",
        ],
    ),
    (
        "reader's fault",
        &[
            "Short",
            "FirstDay",
            "Days",
            "Interval",
            "Layout",
            "Distance",
            "Length",
            "Record",
            "AgreedInLayout1",
            "NoneAgreedInLayout2",
            "SpanBounds",
            "SpanChain",
            "Advance",
            "AdvanceOrder",
            "State",
            "LastByte",
            "OpenState",
            "ScaledState",
            "ScaledMixed",
            "ScaledSum",
            "AgreesWithSubstituted",
            "ScaledOutside",
            "Counts",
            "Sum",
        ],
    ),
];

pub const NUMBERS: &[&str] = &[
    "0", "1", "2", "3", "4", "5", "6", "7", "8", "9", "10", "11", "12", "13", "14", "15", "16",
    "17", "18", "19", "20", "21", "22", "23", "24", "25",
];

const LIMITS: &[&str] = &["1", "40,000", "70,000", "1,000,000", "another"];

/// Values at and one above what passes the demand test.
const AROUND: &[&str] = &[
    "L 5, at the limit",
    "L 5, one above",
    "L 15, at the limit",
    "L 15, one above",
    "L 30, at the limit",
    "L 30, one above",
];

/// References found.
const FOUND: &[&str] = NUMBERS.split_at(5).0;

/// Groups of holidays' slots by weekday, from the one that has a Sunday just before it.
pub const HOLIDAYS: [&str; 7] = [
    "references of a holiday, Monday",
    "references of a holiday, Tuesday",
    "references of a holiday, Wednesday",
    "references of a holiday, Thursday",
    "references of a holiday, Friday",
    "references of a holiday, Saturday",
    "references of a holiday, Sunday",
];

/// The same, in books with 370 days before the holiday.
pub const LATE_HOLIDAYS: [&str; 7] = [
    "references of a late holiday, Monday",
    "references of a late holiday, Tuesday",
    "references of a late holiday, Wednesday",
    "references of a late holiday, Thursday",
    "references of a late holiday, Friday",
    "references of a late holiday, Saturday",
    "references of a late holiday, Sunday",
];

/// g from 1 to one more than the longest line of L 5.
const LENGTHS: &[&str] = NUMBERS.split_at(1).1;

impl Default for Counts {
    fn default() -> Counts {
        let classes = CLASSES
            .iter()
            .flat_map(|&(group, names)| names.iter().map(move |&name| ((group, name), 0)));
        Counts(classes.collect())
    }
}

impl Counts {
    pub fn add(&mut self, group: &'static str, name: &'static str) {
        *self.0.entry((group, name)).or_insert(0) += 1;
    }

    pub fn add_if(&mut self, occurred: bool, group: &'static str, name: &'static str) {
        if occurred {
            self.add(group, name);
        }
    }

    pub fn of(&self, group: &'static str, name: &'static str) -> u64 {
        self.0.get(&(group, name)).copied().unwrap_or(0)
    }

    /// The classes that never occurred.
    pub fn missing(&self) -> Vec<String> {
        let unseen = self.0.iter().filter(|&(_, &count)| count == 0);
        unseen
            .map(|((group, name), _)| format!("{group}: {name}"))
            .collect()
    }

    pub fn book(&mut self, book: &Book) {
        let head = book.head;
        let Ok(shape) = head.shape() else {
            self.add("book head", "refused");
            return;
        };
        let named = CLASSES[0].1.iter();
        let days = named.copied().find(|name| *name == head.days.to_string());
        self.add("book days", days.unwrap_or("other"));
        let slots = match shape.slots {
            ..=48 => "48",
            49..=1500 => "to 1,500",
            1501..=20_000 => "to 20,000",
            20_001..115_200 => "to 115,199",
            _ => "115,200",
        };
        self.add("book slots", slots);
        let interval = match head.interval {
            5 => "L 5",
            15 => "L 15",
            _ => "L 30",
        };
        self.add("book head", interval);
        self.add("book limit", limit_class(head.limit));
        let tolerance = match head.tolerance {
            0 => "0",
            1..=100 => "small",
            1_000_000 => "1,000,000",
            _ => "other",
        };
        self.add("book tolerance", tolerance);
        self.add("book first day", first_day_class(&shape));
    }

    pub fn answer(&mut self, act: &Act, answer: Answer) {
        let group = match act {
            Act::Open => "answer to open",
            Act::Deliver(_) => "answer to deliver",
            Act::Holiday { .. } => "answer to holiday",
            Act::Register(_) => "answer to register",
            Act::Agree(_) => "answer to agree",
            Act::Publish { .. } => "answer to publish",
            Act::Write { .. } => return,
        };
        let name = match answer {
            Answer::Done => "done",
            Answer::Filed(Filed::Stored) => "stored",
            Answer::Filed(Filed::Late) => "late",
            Answer::Filed(Filed::Repeat) => "repeat",
            Answer::Length(_) => "length",
            Answer::Refused(number) => NUMBERS
                .get(narrowed::<usize>(number))
                .unwrap_or(&"odd number"),
        };
        self.add(group, name);
        if matches!(act, Act::Deliver(Delivery { status: 256.., .. })) {
            let by_status = answer == Answer::Refused(refusal::STATUS.into());
            let name = if by_status { "5" } else { "lower number" };
            self.add("status over 255", name);
        }
    }

    /// Why the agreed lists, and no other cell, gave 11.
    pub fn impossible_agreed(&mut self, act: &Act, lists: &Lists) {
        let slots = match *act {
            Act::Agree(Agreement { slot, .. }) => slot as usize..slot as usize + 1,
            Act::Publish { .. } => 0..lists.agreed.len(),
            _ => return,
        };
        let over = slots.clone().any(|i| lists.agreed[i] > MOST_AGREED);
        let beside = slots
            .into_iter()
            .any(|i| lists.agreed[i] != 0 && lists.agreed_versions[i] == 0);
        let names = match act {
            Act::Agree(_) => [
                "agree refused 11, over 99,999,999",
                "agree refused 11, beside version 0",
            ],
            _ => [
                "publish refused 11, agreed over 99,999,999",
                "publish refused 11, agreed beside version 0",
            ],
        };
        self.add_if(over, "agreed", names[0]);
        self.add_if(beside, "agreed", names[1]);
    }

    /// A head that was refused: whether its limit alone is out of bounds.
    pub fn limit_refused(&mut self, head: Head) {
        let limit = 40_000;
        if head.limit == limit || (Head { limit, ..head }).shape().is_err() {
            return;
        }
        let name = match head.limit {
            0 => "0",
            1_000_001 => "1,000,001",
            _ => "another",
        };
        self.add("limit refused, 1", name);
    }

    /// A delivered value that is the highest to pass the demand test, or one above.
    pub fn around_the_limit(&mut self, shape: &Shape, above: bool) {
        let group = match shape.limit {
            1 => "demand, limit 1",
            40_000 => "demand, limit 40,000",
            70_000 => "demand, limit 70,000",
            1_000_000 => "demand, limit 1,000,000",
            _ => "demand, another limit",
        };
        let place = match shape.interval {
            5 => 0,
            15 => 2,
            _ => 4,
        };
        self.add(group, AROUND[place + usize::from(above)]);
    }

    pub fn resized(&mut self, list: List) {
        let name = match list {
            List::Values => "values",
            List::Versions => "versions",
            List::Statuses => "statuses",
            List::Holidays => "holidays",
            List::Readings => "readings",
            List::ReadVersions => "read versions",
            List::Agreed => "agreed",
            List::AgreedVersions => "agreed versions",
            List::Counts => "counts",
            List::Widths => "widths",
        };
        self.add("list of a wrong length", name);
    }

    pub fn reader(&mut self, checked: Result<Figures, Fault>) {
        let fault = match checked {
            Ok(figures) => {
                self.add("answer of the reader", "figures");
                let name = match (figures.layout, figures.spans) {
                    (1, _) => "1 read",
                    (2, _) => "2 read",
                    (_, 0) => "3 read without spans",
                    _ => "3 read with spans",
                };
                self.add("layout", name);
                return;
            }
            Err(fault) => fault,
        };
        self.add("answer of the reader", NUMBERS[fault.number() as usize]);
        let position = Fault::ALL.iter().position(|&other| other == fault);
        let names = CLASSES[CLASSES.len() - 1].1;
        self.add("reader's fault", names[position.unwrap_or(0)]);
    }
}

fn limit_class(limit: u32) -> &'static str {
    match limit {
        1 => "1",
        40_000 => "40,000",
        70_000 => "70,000",
        1_000_000 => "1,000,000",
        _ => "another",
    }
}

fn first_day_class(shape: &Shape) -> &'static str {
    let (_, month, day) = crate::second::head::date(shape.first_day);
    let last = shape.first_day + narrowed::<u32>(shape.days) - 1;
    if last == crate::second::head::LAST_DAY {
        "ends 2099-12-31"
    } else if shape.first_day == 0 {
        "2000-01-01"
    } else if (month, day) == (2, 29) {
        "leap day"
    } else if crate::second::head::date(shape.first_day + 1).2 == 1 {
        "month end"
    } else {
        "other"
    }
}

impl fmt::Display for Counts {
    fn fmt(&self, f: &mut fmt::Formatter) -> fmt::Result {
        for &(group, names) in CLASSES {
            write!(f, "{group}:")?;
            for name in names.iter().copied() {
                write!(f, "  {name} {},", self.of(group, name))?;
            }
            writeln!(f)?;
        }
        Ok(())
    }
}
