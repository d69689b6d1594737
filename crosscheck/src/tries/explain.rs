//! Compares the ways of single slots with another build's, in the random books of `compare`.

use crate::compare::calls::Act;
use crate::compare::heads;
use crate::compare::random;
use crate::compare::rng::Rng;
use crate::compare::side::{Answer, Second, Side, apply};
use crate::number::narrowed;
use crate::second::explain::{
    self, C, CAUSE, DAYS, E, FIELDS, FILLED, FIRST, HIGHEST, LAST, LEFT, LENGTH, LOWEST, METHOD,
    NUMBER, OUTCOME, P, PLACE, QUALITY, R, RIGHT, RULE, SCALED, SPAN, STATE, T, V, VALUES,
};
use crate::second::file::SLOT_BYTES;
use crate::second::head::{DIAL, Head, MOST_LIMIT, Shape};
use crate::second::lists::{List, Lists};
use crate::second::rules::{FARTHEST, LINE_MINUTES};
use crate::tries::{Tally, misfit};

/// The calls of one build: the way of a slot, 0 or the refusal; and publishing.
#[derive(Clone, Copy)]
pub struct Explains {
    pub explain: fn(Head, &Lists, u32, &mut [u64]) -> u32,
    pub publish: fn(Head, &Lists, &mut [u8]) -> Answer,
}

pub const SECOND: Explains = Explains {
    explain: explain::explain_code,
    publish: |head, lists, out| Second.publish(head, lists, out),
};

pub const CLASSES: &[&str] = &[
    "L 5",
    "L 15",
    "L 30",
    "D 1",
    "D 2 to 364",
    "D over 364",
    "first slot",
    "last slot",
    "good",
    "gap",
    "time change",
    "partial",
    "demand",
    "delivered",
    "outage zero",
    "linear",
    "same day",
    "none",
    "agreed",
    "linear, not a gap",
    "same day, not a gap",
    "none, not a gap",
    "agreed gap",
    "agreed, not a gap",
    "agreed good slot, delivered",
    "line rising",
    "line falling",
    "line level",
    "line of one slot",
    "line of two hours",
    "line, first of several",
    "line, last of several",
    "line, in the middle",
    "line rounded down, falling",
    "1 reference",
    "2 references",
    "3 references",
    "4 references",
    "reference on day 0",
    "reference 7 days back",
    "nearest reference over 7 days back",
    "reference 364 days back",
    "mean rounded down",
    "Sunday reference",
    "Sunday reference, a week or more back",
    "4 Sunday references",
    "Sunday reference over 364 days back",
    "in no span",
    "S in no span",
    "state 0",
    "state 1",
    "state 2",
    "state 3",
    "span of several days",
    "range of one advance",
    "range of several advances",
    "range cut at 0",
    "wrapped range",
    "R is the lowest, above V",
    "R is V, within",
    "R is the highest, below V",
    "S, state 2",
    "S, state 3",
    "A or F, state 1",
    "scaled linear",
    "scaled same day",
    "shapes all 0",
    "shapes all 0, several slots",
    "shape 0 among others",
    "T 0",
    "P 0, E more than C",
    "C is E, P above 0",
    "E over 4,294,967,295",
    "T × C over 63 bits",
    "scaled to less",
    "scaled to more",
    "A 0",
    "A 1",
    "S 2",
    "S 3",
    "S 18",
    "S 19",
    "F 5",
    "N 0",
    "refused 1",
    "refused 2",
    "refused 3",
    "refused 11",
    "1 before 2",
    "1 before 3",
    "1 before 11",
    "2 before 3",
    "2 before 11",
    "3 before 11",
    "2: values",
    "2: versions",
    "2: statuses",
    "2: holidays",
    "2: readings",
    "2: read versions",
    "2: agreed",
    "2: agreed versions",
    "2: counts",
    "2: widths",
    "2: fields of 0",
    "2: fields of 33",
    "2: fields of 35",
    "3: N",
    "3: 4,294,967,295",
    "3: another",
    "11: status over 7",
    "11: holiday over 1",
    "11: reading over 99,999,999",
    "11: agreed value over 99,999,999",
    "11: width over 9,999",
    "11: value beside version 0",
    "11: status beside version 0",
    "11: reading beside version 0",
    "11: agreed value beside version 0",
    "11: width beside version 0",
    "11: count too high",
    "11: count too low",
    "as the random book left it, refused 1",
    "as the random book left it, refused 2",
    "as the random book left it, refused 11",
];

/// How many slots are asked for where a book is published, of long books more, as there are
/// few; and how many spoilt questions come after.
const SLOTS: u64 = 8;
const LONG_SLOTS: u64 = 24;
const SPOILT: u64 = 3;

/// What `fields` holds before a call.
const UNWRITTEN: u64 = 0xA5C3_96E1_5A3C_691E;

/// Compares at most `most` slots of the `index`th random book; how many there were.
pub fn book(
    seed: u64,
    index: u64,
    most: u64,
    other: Option<Explains>,
    tally: &mut Tally,
) -> Result<u64, String> {
    // Not the draws that the book was made by.
    let mut rng = Rng::new(!seed, index);
    let mut made = 0;
    let points = if index % 40 == YEAR {
        vec![year(&mut rng)]
    } else {
        publishings(seed, index)
    };
    for (head, lists) in points {
        let published = published(head, &lists, other.unwrap_or(SECOND))?;
        let point = Point {
            head,
            lists,
            other,
            published,
        };
        made += point.slots(&mut rng, most - made, tally)?;
    }
    Ok(made)
}

/// Books of this number in forty are years.
const YEAR: u64 = 21;

/// A year that refers to its first days, with high values and with holidays at its end: such
/// figures are rare in other books.
fn year(rng: &mut Rng) -> (Head, Lists) {
    let head = Head {
        limit: MOST_LIMIT,
        ..heads::random(rng, 400, 30)
    };
    let shape = head.shape().expect("a head made to be in bounds");
    let early = shape.days - FARTHEST;
    let mut lists = Lists::zeroed(shape.slots, shape.days);
    let most = shape.limit * shape.interval / 60;
    let (least, lost) = (rng.pick(&[most, most, 0]), rng.pick(&[0, 0, 6]));
    for slot in 0..early * shape.slots_a_day {
        if !rng.one_in(lost) {
            (lists.values[slot], lists.versions[slot]) = (rng.between(least, most), 1);
        }
    }
    lists.recount(shape.slots_a_day);
    for day in FARTHEST..shape.days {
        lists.holidays[day] = u8::from(rng.one_in(2));
    }
    let (reading, any) = (rng.word() % DIAL, rng.word() % DIAL);
    let advance = rng.pick(&[DIAL - 1, DIAL - 1, any]);
    for (boundary, advance) in [(early, 0), (shape.days, advance)] {
        lists.read_versions[boundary] = 1;
        lists.readings[boundary] = (reading + advance) % DIAL;
    }
    (head, lists)
}

/// Head and lists where a random book is published, the lists filled by the second build.
fn publishings(seed: u64, index: u64) -> Vec<(Head, Lists)> {
    let book = random::book(seed, index);
    let mut lists = Lists::unopened(book.slots, book.days);
    let mut points = Vec::new();
    for call in &book.calls {
        match (call.act, call.resized) {
            (Act::Publish { .. }, resized) => {
                let mut lent = lists.clone();
                if let Some((list, len)) = resized {
                    lent.resize(list, len);
                }
                points.push((call.head, lent));
            }
            (_, None) => {
                apply(&Second, call, &mut lists, &mut []);
            }
            // Other lists, lent for that call only.
            (_, Some(_)) => {}
        }
    }
    // Some are published again with more room.
    points.dedup();
    points
}

/// The file of these lists, or the refusal.
fn published(head: Head, lists: &Lists, side: Explains) -> Result<Published, String> {
    let room = SLOT_BYTES * lists.values.len() + 14 * lists.readings.len() + 32;
    let mut out = vec![0; room];
    match (side.publish)(head, lists, &mut out) {
        Answer::Length(length) => {
            out.truncate(narrowed(length));
            Ok(Published::File(out))
        }
        Answer::Refused(number) => Ok(Published::Refused(number)),
        answer => Err(format!("published: {answer:?}; {head:?}")),
    }
}

enum Published {
    File(Vec<u8>),
    Refused(u64),
}

/// Lists as they are where a book is published.
struct Point {
    head: Head,
    lists: Lists,
    other: Option<Explains>,
    published: Published,
}

impl Point {
    fn slots(&self, rng: &mut Rng, most: u64, tally: &mut Tally) -> Result<u64, String> {
        match &self.published {
            Published::File(file) => self.accepted(rng, file, most, tally),
            &Published::Refused(number) => self.refused(rng, number, most, tally),
        }
    }

    fn question(&self, slot: u32) -> Question {
        Question {
            head: self.head,
            lists: self.lists.clone(),
            slot,
            fields: FIELDS,
        }
    }

    fn accepted(
        &self,
        rng: &mut Rng,
        file: &[u8],
        most: u64,
        tally: &mut Tally,
    ) -> Result<u64, String> {
        let shape = self.head.shape().map_err(|_| "published, but head bad")?;
        let records = Records::of(&shape, &self.lists, file);
        let many = most.min(if shape.days > FARTHEST {
            LONG_SLOTS
        } else {
            SLOTS
        });
        for _ in 0..many {
            let question = self.question(narrowed(records.slot(rng)));
            let fields = question.answered(self.other)?.accepted()?;
            checked(&question, &fields, file)?;
            counted(&shape, &question, &fields, tally);
        }
        let spoilt = (most - many).min(SPOILT);
        for _ in 0..spoilt {
            let mut question = self.question(narrowed(rng.below(shape.slots)));
            let faults = question.spoilt(rng, &shape);
            let code = question.answered(self.other)?.code;
            refused(&question, &shape, &faults, code, tally);
        }
        Ok(many + spoilt)
    }

    /// What can't be published can't be explained, for the same reason but for the slot's.
    fn refused(
        &self,
        rng: &mut Rng,
        number: u64,
        most: u64,
        tally: &mut Tally,
    ) -> Result<u64, String> {
        let slots = self.head.shape().map_or(usize::MAX, |shape| shape.slots);
        let question = self.question(narrowed(rng.below(slots.min(1 << 32))));
        if most == 0 {
            return Ok(0);
        }
        let code = question.answered(self.other)?.code;
        if u64::from(code) != number {
            let print = question.print();
            return Err(format!("answer: {code}, publishing {number}; {print}"));
        }
        tally.add(&format!("refused {code}"));
        tally.add(&format!("as the random book left it, refused {code}"));
        Ok(1)
    }
}

/// The records of a slot table, for drawing a slot.
struct Records<'a> {
    table: &'a [u8],
    /// Each letter and method that occurs.
    kinds: Vec<&'a [u8]>,
    slots_a_day: usize,
    holidays: &'a [u8],
}

impl<'a> Records<'a> {
    fn of(shape: &Shape, lists: &'a Lists, file: &'a [u8]) -> Records<'a> {
        let table = &file[..SLOT_BYTES * shape.slots];
        let records = table.chunks(SLOT_BYTES);
        let mut kinds: Vec<&[u8]> = records.map(|record| &record[4..]).collect();
        kinds.sort_unstable();
        kinds.dedup();
        Records {
            table,
            kinds,
            slots_a_day: shape.slots_a_day,
            holidays: &lists.holidays,
        }
    }

    /// Any slot, or one of a letter and method drawn first: of some there are few.
    fn slot(&self, rng: &mut Rng) -> usize {
        let slots = self.table.len() / SLOT_BYTES;
        if rng.one_in(30) {
            return rng.pick(&[0, slots - 1]);
        }
        if rng.one_in(4) {
            return rng.below(slots);
        }
        let kind = rng.pick(&self.kinds);
        let day = |slot: &usize| slot / self.slots_a_day;
        let all: Vec<usize> = (0..slots)
            .filter(|slot| &self.table[SLOT_BYTES * slot + 4..][..2] == kind)
            .collect();
        let all = often(rng, all, |slot| day(slot) >= FARTHEST);
        let all = often(rng, all, |slot| self.holidays[day(slot)] == 1);
        rng.pick(&all)
    }
}

/// Half of the time, those that are kept, where there are any.
fn often(rng: &mut Rng, all: Vec<usize>, kept: impl Fn(&usize) -> bool) -> Vec<usize> {
    let few: Vec<usize> = all.iter().copied().filter(kept).collect();
    if few.is_empty() || rng.one_in(2) {
        return all;
    }
    few
}

/// One call without what it writes.
#[derive(Clone, Debug)]
struct Question {
    head: Head,
    lists: Lists,
    slot: u32,
    fields: usize,
}

/// What a call leaves.
#[derive(Clone, Debug, PartialEq, Eq)]
struct Explained {
    code: u32,
    fields: Vec<u64>,
}

impl Question {
    fn asked(&self, side: Explains) -> Explained {
        let mut fields = vec![UNWRITTEN; self.fields];
        let code = (side.explain)(self.head, &self.lists, self.slot, &mut fields);
        Explained { code, fields }
    }

    /// The answer, of both builds alike.
    fn answered(&self, other: Option<Explains>) -> Result<Explained, String> {
        let answer = self.asked(SECOND);
        let others = other.map(|other| self.asked(other));
        if let Some(what) = others.and_then(|others| answer.difference(&others)) {
            return Err(format!("{what}; {}", self.print()));
        }
        let unwritten = answer.fields.iter().all(|&field| field == UNWRITTEN);
        if answer.code != 0 && !unwritten {
            return Err(format!("refused, but changed; {}", self.print()));
        }
        Ok(answer)
    }

    fn print(&self) -> String {
        let (head, slot, fields) = (self.head, self.slot, self.fields);
        format!("{head:?}, slot {slot}, {fields} fields")
    }
}

impl Explained {
    fn difference(&self, other: &Explained) -> Option<String> {
        if self.code != other.code {
            return Some(format!("answer: {}, other {}", self.code, other.code));
        }
        let at = (0..self.fields.len()).find(|&at| self.fields[at] != other.fields[at])?;
        let (one, two) = (&self.fields, &other.fields);
        Some(format!(
            "place {at}: {}, other {}; all: {one:?}, other {two:?}",
            one[at], two[at]
        ))
    }

    fn accepted(self) -> Result<Vec<u64>, String> {
        match self.code {
            0 => Ok(self.fields),
            code => Err(format!("published, but refused {code}")),
        }
    }
}

/// Places 31 to 33 are the slot's record in the file, and the figures before give them.
fn checked(question: &Question, fields: &[u64], file: &[u8]) -> Result<(), String> {
    let record = &file[SLOT_BYTES * question.slot as usize..][..SLOT_BYTES];
    let value = (0..4).map(|at| u64::from(record[at]) << (8 * at)).sum();
    let published = [value, record[4].into(), record[5].into()];
    if fields[OUTCOME..] != published {
        let print = question.print();
        return Err(format!("{fields:?}, but published {published:?}; {print}"));
    }
    if !fits(fields) {
        let print = question.print();
        return Err(format!(
            "the figures give another value: {fields:?}; {print}"
        ));
    }
    Ok(())
}

/// Whether l, r, j and g, the references, the range, and T, E, P and C give the values.
fn fits(fields: &[u64]) -> bool {
    let filled = match fields[RULE] {
        2 => {
            let [l, r, j, g] = [LEFT, RIGHT, PLACE, LENGTH].map(|place| fields[place]);
            let steps = g + 1;
            (l * (steps - j) + r * j) / steps
        }
        3 => fields[VALUES..SPAN].iter().sum::<u64>() / fields[NUMBER],
        1 | 4 => 0,
        _ => fields[FILLED],
    };
    let [lowest, highest, r, v] = [LOWEST, HIGHEST, R, V].map(|place| fields[place]);
    let held = r == v.max(lowest).min(highest);
    let wide = |place: usize| u128::from(fields[place]);
    let [t, e, p, c] = [T, E, P, C].map(wide);
    let outcome = match fields[SCALED] {
        1 => t * c / e - t * p / e,
        _ => filled.into(),
    };
    let held = held || fields[SPAN] == 0;
    held && filled == fields[FILLED] && outcome == wide(OUTCOME)
}

// Refusals

#[derive(Clone, Copy, PartialEq, Eq)]
enum Fault {
    Head,
    List,
    Fields,
    Slot,
    Cell(&'static str),
}

const CELLS: [&str; 12] = [
    "11: status over 7",
    "11: holiday over 1",
    "11: reading over 99,999,999",
    "11: agreed value over 99,999,999",
    "11: width over 9,999",
    "11: value beside version 0",
    "11: status beside version 0",
    "11: reading beside version 0",
    "11: agreed value beside version 0",
    "11: width beside version 0",
    "11: count too high",
    "11: count too low",
];

impl Fault {
    fn number(self) -> u32 {
        match self {
            Fault::Head => 1,
            Fault::List | Fault::Fields => 2,
            Fault::Slot => 3,
            Fault::Cell(_) => 11,
        }
    }
}

impl Question {
    /// Makes one to three faults.
    fn spoilt(&mut self, rng: &mut Rng, shape: &Shape) -> Vec<Fault> {
        let cell = Fault::Cell(rng.pick(&CELLS));
        let mut faults = vec![Fault::Head, Fault::List, Fault::Fields, Fault::Slot, cell];
        rng.shuffle(&mut faults);
        faults.truncate(rng.pick(&[1, 1, 1, 2, 2, 3]));
        // A cell is most often alone, as there are many kinds.
        if rng.one_in(3) {
            faults = vec![cell];
        }
        for &fault in &faults {
            self.spoil(rng, fault, shape);
        }
        faults
    }

    fn spoil(&mut self, rng: &mut Rng, fault: Fault, shape: &Shape) {
        match fault {
            Fault::Head => self.head = heads::broken(rng, self.head),
            Fault::List => misfit(rng, &mut self.lists, shape),
            Fault::Fields => self.fields = rng.pick(&[0, FIELDS - 1, FIELDS + 1]),
            Fault::Slot => {
                let slots = narrowed(shape.slots);
                let any = rng.between(slots, u32::MAX);
                self.slot = rng.pick(&[slots, u32::MAX, any]);
            }
            Fault::Cell(name) => spoil_cell(rng, &mut self.lists, name, shape),
        }
    }
}

/// Leaves a cell or a count that no calls could leave, of any slot, day or boundary.
fn spoil_cell(rng: &mut Rng, lists: &mut Lists, name: &str, shape: &Shape) {
    let slot = rng.below(shape.slots);
    let day = slot / shape.slots_a_day;
    for (list, index, value) in writes(rng, name, slot, shape) {
        lists.write(list, index, value);
    }
    lists.recount(shape.slots_a_day);
    let count = lists.counts.get(day).map_or(0, |&count| u32::from(count));
    match name {
        "11: count too high" => lists.write(List::Counts, day, count + 1),
        "11: count too low" => lists.write(List::Counts, day, count.saturating_sub(1)),
        _ => {}
    }
}

/// The cells to write: list, index and value. But for a count they are wrong in one point.
fn writes(rng: &mut Rng, name: &str, slot: usize, shape: &Shape) -> Vec<(List, usize, u32)> {
    let at = rng.below(shape.days + 1);
    let byte = u32::from(rng.byte());
    let over = rng.pick(&[DIAL, DIAL + 1, u32::MAX]);
    let width = rng.pick(&[10_000, 65_535]);
    let delivery = |version, value, status| {
        let values = [(List::Versions, version), (List::Values, value)];
        let all = values.into_iter().chain([(List::Statuses, status)]);
        all.map(|(list, value)| (list, slot, value)).collect()
    };
    let read = |version, reading, width| {
        let values = [(List::ReadVersions, version), (List::Readings, reading)];
        let all = values.into_iter().chain([(List::Widths, width)]);
        all.map(|(list, value)| (list, at, value)).collect()
    };
    let agreed = |version, value| {
        vec![
            (List::AgreedVersions, slot, version),
            (List::Agreed, slot, value),
        ]
    };
    match name {
        "11: status over 7" => delivery(1, 0, 8 + byte % 248),
        "11: holiday over 1" => vec![(List::Holidays, slot / shape.slots_a_day, 2 + byte % 254)],
        "11: reading over 99,999,999" => read(1, over, 0),
        "11: agreed value over 99,999,999" => agreed(1, over),
        "11: width over 9,999" => read(1, 0, width),
        "11: value beside version 0" => delivery(0, 1, 0),
        "11: status beside version 0" => delivery(0, 0, 1 + byte % 7),
        "11: reading beside version 0" => read(0, 1, 0),
        "11: agreed value beside version 0" => agreed(0, 1),
        "11: width beside version 0" => read(0, 0, 1),
        // So that there is one to leave out.
        "11: count too low" => delivery(1, 0, 0),
        _ => Vec::new(),
    }
}

fn refused(question: &Question, shape: &Shape, faults: &[Fault], code: u32, tally: &mut Tally) {
    tally.add_refused(code, faults.iter().map(|fault| fault.number()));
    match code {
        2 => {
            tally.add_misfits(&question.lists, shape);
            if question.fields != FIELDS {
                tally.add(&format!("2: fields of {}", question.fields));
            }
        }
        3 => tally.add(match question.slot {
            u32::MAX => "3: 4,294,967,295",
            slot if slot as usize == shape.slots => "3: N",
            _ => "3: another",
        }),
        11 => {
            for fault in faults {
                if let Fault::Cell(name) = fault {
                    tally.add(name);
                }
            }
        }
        _ => {}
    }
}

// Accepted slots

fn counted(shape: &Shape, question: &Question, fields: &[u64], tally: &mut Tally) {
    let slot = question.slot as usize;
    tally.add(&format!("L {}", shape.interval));
    tally.add(match shape.days {
        1 => "D 1",
        2..=364 => "D 2 to 364",
        _ => "D over 364",
    });
    tally.add_if(slot == 0, "first slot");
    tally.add_if(slot + 1 == shape.slots, "last slot");
    let letter = char::from(narrowed::<u8>(fields[QUALITY]));
    tally.add(&format!("{letter} {}", fields[METHOD]));
    count_filling(question, fields, tally);
    match fields[RULE] {
        2 => count_line(shape, fields, tally),
        3 => count_references(shape, question, fields, tally),
        _ => {}
    }
    if fields[SPAN] == 0 {
        tally.add("in no span");
        tally.add_if(letter == 'S', "S in no span");
        return;
    }
    count_span(question, fields, tally);
    if fields[SCALED] == 1 {
        count_scaled(fields, tally);
    }
}

fn count_filling(question: &Question, fields: &[u64], tally: &mut Tally) {
    let causes = ["good", "gap", "time change", "partial", "demand"];
    let rules = [
        "delivered",
        "outage zero",
        "linear",
        "same day",
        "none",
        "agreed",
    ];
    tally.add(causes[narrowed::<usize>(fields[CAUSE])]);
    tally.add(rules[narrowed::<usize>(fields[RULE])]);
    let gap = fields[CAUSE] == 1;
    match fields[RULE] {
        0 => {
            let agreed = question.lists.agreed_versions[question.slot as usize] > 0;
            tally.add_if(agreed, "agreed good slot, delivered");
        }
        2 => tally.add_if(!gap, "linear, not a gap"),
        3 => tally.add_if(!gap, "same day, not a gap"),
        4 => tally.add_if(!gap, "none, not a gap"),
        5 => tally.add(if gap {
            "agreed gap"
        } else {
            "agreed, not a gap"
        }),
        _ => {}
    }
}

fn count_line(shape: &Shape, fields: &[u64], tally: &mut Tally) {
    let [l, r, j, g] = [LEFT, RIGHT, PLACE, LENGTH].map(|place| fields[place]);
    tally.add(match l.cmp(&r) {
        std::cmp::Ordering::Less => "line rising",
        std::cmp::Ordering::Equal => "line level",
        std::cmp::Ordering::Greater => "line falling",
    });
    let rounded = l > r && !((l - r) * j).is_multiple_of(g + 1);
    tally.add_if(rounded, "line rounded down, falling");
    let whole = narrowed::<usize>(g) * shape.interval as usize == LINE_MINUTES;
    tally.add_if(whole, "line of two hours");
    tally.add(match j {
        1 if g == 1 => "line of one slot",
        1 => "line, first of several",
        _ if j == g => "line, last of several",
        _ => "line, in the middle",
    });
}

fn count_references(shape: &Shape, question: &Question, fields: &[u64], tally: &mut Tally) {
    let number = narrowed(fields[NUMBER]);
    let day = u64::from(question.slot) / shape.slots_a_day as u64;
    let days = &fields[DAYS..DAYS + number];
    let sum: u64 = fields[VALUES..SPAN].iter().sum();
    tally.add(match number {
        1 => "1 reference",
        2 => "2 references",
        3 => "3 references",
        _ => "4 references",
    });
    tally.add_if(!sum.is_multiple_of(number as u64), "mean rounded down");
    tally.add_if(days.contains(&0), "reference on day 0");
    if question.lists.holidays[narrowed::<usize>(day)] == 1 {
        tally.add("Sunday reference");
        let far = day - days[0] >= 7;
        tally.add_if(far, "Sunday reference, a week or more back");
        tally.add_if(number == 4, "4 Sunday references");
        let farther = day - days[number - 1] > 364;
        tally.add_if(farther, "Sunday reference over 364 days back");
        return;
    }
    tally.add(if day - days[0] == 7 {
        "reference 7 days back"
    } else {
        "nearest reference over 7 days back"
    });
    tally.add_if(day - days[number - 1] == 364, "reference 364 days back");
}

fn count_span(question: &Question, fields: &[u64], tally: &mut Tally) {
    let [first, last] = [FIRST, LAST].map(|place| narrowed::<usize>(fields[place]));
    let [lowest, highest] = [LOWEST, HIGHEST].map(|place| fields[place]);
    let [r, v, state] = [R, V, STATE].map(|place| fields[place]);
    tally.add(&format!("state {state}"));
    tally.add_if(last - first > 1, "span of several days");
    tally.add(if lowest == highest {
        "range of one advance"
    } else {
        "range of several advances"
    });
    let Lists {
        readings, widths, ..
    } = &question.lists;
    let dial = u64::from(DIAL);
    let g = (u64::from(readings[last]) + dial - u64::from(readings[first])) % dial;
    let wrapped = g + u64::from(widths[last]) >= dial;
    tally.add_if(wrapped, "wrapped range");
    tally.add_if(!wrapped && g < widths[first].into(), "range cut at 0");
    tally.add_if(r == lowest && r > v, "R is the lowest, above V");
    tally.add_if(lowest < v && v < highest, "R is V, within");
    tally.add_if(r == highest && r < v, "R is the highest, below V");
    let substituted = matches!(fields[RULE], 2 | 3);
    tally.add_if(substituted && state == 2, "S, state 2");
    tally.add_if(substituted && state == 3, "S, state 3");
    tally.add_if(!substituted && state == 1, "A or F, state 1");
}

fn count_scaled(fields: &[u64], tally: &mut Tally) {
    let [t, e, p, c] = [T, E, P, C].map(|place| fields[place]);
    tally.add(match fields[RULE] {
        2 => "scaled linear",
        _ => "scaled same day",
    });
    let all_zero = fields[FILLED] == 0 && c - p == 1;
    tally.add_if(all_zero, "shapes all 0");
    tally.add_if(all_zero && e > 1, "shapes all 0, several slots");
    tally.add_if(c == p, "shape 0 among others");
    tally.add_if(t == 0, "T 0");
    tally.add_if(p == 0 && c < e, "P 0, E more than C");
    tally.add_if(c == e && p > 0, "C is E, P above 0");
    tally.add_if(e > u32::MAX.into(), "E over 4,294,967,295");
    let product = u128::from(t) * u128::from(c);
    tally.add_if(product >= 1 << 63, "T × C over 63 bits");
    tally.add_if(fields[OUTCOME] < fields[FILLED], "scaled to less");
    tally.add_if(fields[OUTCOME] > fields[FILLED], "scaled to more");
}

#[cfg(test)]
mod tests {
    use super::*;
    use crate::second::explain::{FILLED_METHOD, LINE};

    fn run(other: Explains) -> Result<Tally, String> {
        let mut tally = Tally::new(CLASSES);
        // The large books come at 7 and 107.
        for index in (8..107).chain(108..200) {
            book(1, index, u64::MAX, Some(other), &mut tally)?;
        }
        Ok(tally)
    }

    #[test]
    fn no_difference_from_itself() {
        let tally = run(SECOND).expect("no difference");
        let missing = tally.missing();
        assert!(missing.len() < 10, "{missing:?}");
    }

    /// A build whose accepted fields are changed.
    macro_rules! meddled {
        ($change:expr) => {
            Explains {
                explain: |head, lists, slot, fields| {
                    let code = (SECOND.explain)(head, lists, slot, fields);
                    if code == 0 {
                        let change: fn(&mut [u64]) = $change;
                        change(fields);
                    }
                    code
                },
                ..SECOND
            }
        };
    }

    const MEDDLED: [Explains; 14] = [
        // j from 0.
        meddled!(|fields| fields[PLACE] = fields[PLACE].saturating_sub(1)),
        // l and r the other way round.
        meddled!(|fields| fields.swap(LEFT, RIGHT)),
        // Of two or more references the farthest first.
        meddled!(|fields| {
            let number: usize = narrowed(fields[NUMBER]);
            fields[DAYS..DAYS + number].reverse();
        }),
        // Sixteen more than the method before scaling, too.
        meddled!(|fields| fields[FILLED_METHOD] = fields[METHOD]),
        // The value as published before scaling, too.
        meddled!(|fields| fields[FILLED] = fields[OUTCOME]),
        // An agreed value is none.
        meddled!(|fields| fields[RULE] = fields[RULE].min(4)),
        // R is the highest.
        meddled!(|fields| fields[R] = fields[HIGHEST]),
        // E of shapes that are all 0 is 0.
        meddled!(|fields| fields[E] *= u64::from(fields[VALUES..SPAN].iter().sum::<u64>() > 0)),
        // P is C.
        meddled!(|fields| fields[P] = fields[C]),
        // T where nothing is scaled.
        meddled!(|fields| fields[T] = fields[R].saturating_sub(fields[V])),
        // Cleared though refused.
        Explains {
            explain: |head, lists, slot, fields| {
                let code = (SECOND.explain)(head, lists, slot, fields);
                if code == 3 {
                    fields.fill(0);
                }
                code
            },
            ..SECOND
        },
        // 11 before 3.
        Explains {
            explain: |head, lists, slot, fields| match explain::explain(head, lists, 0) {
                Err(11) if fields.len() == FIELDS => 11,
                _ => (SECOND.explain)(head, lists, slot, fields),
            },
            ..SECOND
        },
        // More fields than 34 are fine.
        Explains {
            explain: |head, lists, slot, fields| {
                let most = fields.len().min(FIELDS);
                (SECOND.explain)(head, lists, slot, &mut fields[..most])
            },
            ..SECOND
        },
        // Another value in the file.
        Explains {
            publish: |head, lists, out| {
                let answer = (SECOND.publish)(head, lists, out);
                out[0] ^= 1;
                answer
            },
            ..SECOND
        },
    ];

    #[test]
    fn meddled_builds_are_found() {
        for (i, meddled) in MEDDLED.into_iter().enumerate() {
            assert!(run(meddled).is_err(), "{i}");
        }
    }

    /// What a slot's own figures give is held against its value.
    #[test]
    fn figures_that_give_another_value_are_found() {
        let mut fields = [0; FIELDS];
        fields[..LINE].copy_from_slice(&[1, 2, 8, 83, 2]);
        fields[LINE..NUMBER].copy_from_slice(&[10, 4, 1, 3]);
        fields[OUTCOME..].copy_from_slice(&[8, 83, 2]);
        assert!(fits(&fields));
        for (place, value) in [
            (LEFT, 11),
            (RIGHT, 9),
            (PLACE, 2),
            (LENGTH, 1),
            (FILLED, 7),
            (OUTCOME, 7),
        ] {
            let mut other = fields;
            other[place] = value;
            assert!(!fits(&other), "place {place}");
        }
    }
}
