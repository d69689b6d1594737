//! Compares runs of a berth on paper, W12, with a restatement and another build.

use crate::compare::definition::Definition;
use crate::compare::heads;
use crate::compare::rng::Rng;
use crate::number::narrowed;
use crate::second::contents::Contents;
use crate::second::file::{self, Frame};
use crate::second::head::{Head, MOST_LIMIT, Shape};
use crate::second::lists::Lists;
use crate::second::rules;
use crate::second::simulate::{self, MOST_LOSS};
use crate::tries::{Tally, hex, misfit};

/// The call of one build: head, seed, loss rate, lists, output, report; 0 or the refusal.
pub type Simulate = fn(Head, u32, u32, &mut Lists, &mut [u8], &mut [i64]) -> u32;

pub const SECOND: Simulate = simulate::simulate_code;

// Places of the report.
const STATE: usize = 0;
const DIFFERENCE: usize = 1;

pub const CLASSES: &[&str] = &[
    "seed 1",
    "seed 2",
    "seed 4,294,967,295",
    "another seed",
    "loss 0",
    "loss 1",
    "loss 999",
    "loss 1000",
    "another loss",
    "L 5",
    "L 15",
    "L 30",
    "D 1",
    "D 2 to 60",
    "D 400",
    "limit 1",
    "limit 1,000,000",
    "another limit",
    "limit × L no multiple of 60",
    "highest value sent",
    "value 0 sent",
    "all sent",
    "some sent",
    "nothing sent",
    "state 0",
    "state 1",
    "state 2",
    "state 3",
    "state 0 or 1, loss over 0",
    "difference 0",
    "difference below 0",
    "difference above 0",
    "difference below -4,294,967,295",
    "total over 99,999,999",
    "total over 4,294,967,295",
    "total over 99,999,999, scaled",
    "buffer of the exact length",
    "buffer longer, bytes after it unchanged",
    "lists of the run before",
    "refused 1",
    "refused 2",
    "refused 7",
    "refused 20",
    "refused 21",
    "1 before 2",
    "1 before 7",
    "1 before 20",
    "1 before 21",
    "2 before 7",
    "2 before 20",
    "2 before 21",
    "7 before 20",
    "7 before 21",
    "20 before 21",
    "2: values",
    "2: versions",
    "2: statuses",
    "2: holidays",
    "2: readings",
    "2: read versions",
    "2: agreed",
    "2: agreed versions",
    "2: counts",
    "2: widths",
    "2: report of 0",
    "2: report of 1",
    "2: report of 3",
    "7: one byte short",
    "7: no byte",
    "7: another length",
    "21: 1001",
    "21: 4,294,967,295",
    "21: another",
];

/// Runs of more slots are restated by `rules`: a scaled span takes `definition` long.
const DEFINED_SLOTS: usize = 1500;

/// What the output and the report hold before a call.
const BYTE: u8 = 0x5A;
const UNWRITTEN: i64 = 0x5A3C_691E_25C3_96E1;

/// One call without what it writes.
#[derive(Clone, Debug)]
struct Question {
    head: Head,
    seed: u32,
    loss: u32,
    lists: Lists,
    room: usize,
    report: usize,
}

/// What a call leaves.
#[derive(Clone, Debug, PartialEq, Eq)]
struct Answer {
    code: u32,
    lists: Lists,
    out: Vec<u8>,
    report: Vec<i64>,
}

impl Question {
    fn asked(&self, side: Simulate) -> Answer {
        let mut lists = self.lists.clone();
        let mut out = vec![BYTE; self.room];
        let mut report = vec![UNWRITTEN; self.report];
        let code = side(
            self.head,
            self.seed,
            self.loss,
            &mut lists,
            &mut out,
            &mut report,
        );
        Answer {
            code,
            lists,
            out,
            report,
        }
    }

    /// The answer, of all builds alike.
    fn answered(&self, other: Option<Simulate>) -> Result<Answer, String> {
        let answer = self.asked(SECOND);
        let other = other.map(|other| ("other", other));
        for (name, side) in [("restated", restated as Simulate)]
            .into_iter()
            .chain(other)
        {
            let others = self.asked(side);
            if let Some(what) = answer.difference(&others) {
                return Err(format!("second and {name}, {what}; {}", self.print()));
            }
        }
        let unchanged = Answer {
            code: answer.code,
            ..self.asked(|_, _, _, _, _, _| 0)
        };
        if answer.code != 0 && answer != unchanged {
            return Err(format!("refused, but changed; {}", self.print()));
        }
        Ok(answer)
    }

    fn print(&self) -> String {
        format!(
            "{:?}, seed {}, loss {}, {} bytes, report of {}",
            self.head, self.seed, self.loss, self.room, self.report
        )
    }
}

impl Answer {
    fn difference(&self, other: &Answer) -> Option<String> {
        if self.code != other.code {
            return Some(format!("answer: {} and {}", self.code, other.code));
        }
        if self.report != other.report {
            return Some(format!("report: {:?} and {:?}", self.report, other.report));
        }
        if let Some(cell) = self.lists.difference(&other.lists) {
            return Some(cell);
        }
        let at = (0..self.out.len()).find(|&i| self.out[i] != other.out[i])?;
        let near = |out: &[u8]| hex(&out[at..out.len().min(at + 8)]);
        let (one, two) = (near(&self.out), near(&other.out));
        Some(format!("from byte {at}: {one} and {two}"))
    }
}

/// One try: which kind it is goes by its number.
pub fn one(
    rng: &mut Rng,
    index: u64,
    other: Option<Simulate>,
    tally: &mut Tally,
) -> Result<(), String> {
    let (head, loss) = berth(rng, index);
    let shape = head.shape().expect("a head made to be in bounds");
    let length = file::length(file::LAYOUT, shape.slots, 1);
    let any = rng.word().max(1);
    let mut question = Question {
        head,
        seed: rng.pick(&[1, 2, u32::MAX, any, any, any]),
        loss,
        lists: Lists::unopened(shape.slots, shape.days),
        room: length + rng.pick(&[0, 0, 1, 40]),
        report: 2,
    };
    if index % 8 > 5 {
        let faults = question.spoilt(rng, &shape);
        let answer = question.answered(other)?;
        refused(&question, &faults, answer.code, length, tally);
        return Ok(());
    }
    let answer = question.answered(other)?;
    accepted(&question, &shape, &answer, length, tally);
    if rng.one_in(8) {
        question.lists = answer.lists.clone();
        let again = question.answered(other)?;
        if again != answer {
            return Err(format!("another run; {}", question.print()));
        }
        tally.add("lists of the run before");
    }
    Ok(())
}

/// A head and a loss rate.
fn berth(rng: &mut Rng, index: u64) -> (Head, u32) {
    let any = rng.between(1, 60);
    let days = rng.pick(&[1, 1, 1, 2, 3, 8, 8, 15, any]);
    let interval = rng.pick(&[5, 15, 30, 30]);
    let (few, any) = (rng.between(1, 60), rng.between(0, MOST_LOSS));
    let loss = rng.pick(&[0, 0, 1, 999, 1000, few, few, few, any, any]);
    match index % 40 {
        LARGE => {
            let head = heads::random(rng, 400, interval);
            let limit = rng.pick(&[head.limit, MOST_LIMIT]);
            (Head { limit, ..head }, loss)
        }
        // The dial goes round, and what is lost is more than that: lines are long in
        // slots of 5 minutes, so there are spans to be scaled.
        ROUND => {
            let limit = MOST_LIMIT;
            let head = heads::random(rng, 16, 5);
            (Head { limit, ..head }, rng.between(500, 700))
        }
        _ => (heads::random(rng, days, interval), loss),
    }
}

/// Tries of this number in forty.
const LARGE: u64 = 11;
const ROUND: u64 = 21;

// Refusals

#[derive(Clone, Copy, PartialEq, Eq)]
enum Fault {
    Head,
    List,
    Report,
    Short,
    Seed,
    Loss,
}

const FAULTS: [Fault; 6] = [
    Fault::Head,
    Fault::List,
    Fault::Report,
    Fault::Short,
    Fault::Seed,
    Fault::Loss,
];

impl Fault {
    fn number(self) -> u32 {
        match self {
            Fault::Head => 1,
            Fault::List | Fault::Report => 2,
            Fault::Short => 7,
            Fault::Seed => 20,
            Fault::Loss => 21,
        }
    }
}

impl Question {
    /// Makes one to three faults.
    fn spoilt(&mut self, rng: &mut Rng, shape: &Shape) -> Vec<Fault> {
        let mut faults = FAULTS.to_vec();
        rng.shuffle(&mut faults);
        faults.truncate(rng.pick(&[1, 1, 2, 2, 3]));
        for &fault in &faults {
            self.spoil(rng, fault, shape);
        }
        faults
    }

    fn spoil(&mut self, rng: &mut Rng, fault: Fault, shape: &Shape) {
        match fault {
            Fault::Head => self.head = heads::broken(rng, self.head),
            Fault::List => misfit(rng, &mut self.lists, shape),
            Fault::Report => self.report = rng.pick(&[0, 1, 3]),
            Fault::Short => {
                let least = file::length(file::LAYOUT, shape.slots, 1);
                let any = rng.below(least);
                self.room = rng.pick(&[least - 1, least - 14, least - 4, 0, any]);
            }
            Fault::Seed => self.seed = 0,
            Fault::Loss => {
                let any = rng.between(1001, u32::MAX);
                self.loss = rng.pick(&[1001, 1001, any, u32::MAX]);
            }
        }
    }
}

fn refused(question: &Question, faults: &[Fault], code: u32, length: usize, tally: &mut Tally) {
    tally.add_refused(code, faults.iter().map(|fault| fault.number()));
    let Ok(shape) = question.head.shape() else {
        return;
    };
    tally.add_misfits(&question.lists, &shape);
    match code {
        2 if question.report != 2 => tally.add(&format!("2: report of {}", question.report)),
        7 => tally.add(match question.room {
            0 => "7: no byte",
            room if room + 1 == length => "7: one byte short",
            _ => "7: another length",
        }),
        21 => tally.add(match question.loss {
            1001 => "21: 1001",
            u32::MAX => "21: 4,294,967,295",
            _ => "21: another",
        }),
        _ => {}
    }
}

// Runs

fn accepted(question: &Question, shape: &Shape, answer: &Answer, length: usize, tally: &mut Tally) {
    arguments(question, tally);
    let most = shape.limit * shape.interval / 60;
    let delivered = |slot: &usize| answer.lists.versions[*slot] > 0;
    let sent = (0..shape.slots).filter(delivered).count();
    let value = |value: u32| {
        let mut slots = (0..shape.slots).filter(delivered);
        slots.any(|slot| answer.lists.values[slot] == value)
    };
    tally.add_if(value(most), "highest value sent");
    tally.add_if(value(0), "value 0 sent");
    tally.add(match sent {
        0 => "nothing sent",
        _ if sent == shape.slots => "all sent",
        _ => "some sent",
    });
    tally.add(if question.room == length {
        "buffer of the exact length"
    } else {
        "buffer longer, bytes after it unchanged"
    });
    reported(question, answer, tally);
}

/// The report, beside the true total.
fn reported(question: &Question, answer: &Answer, tally: &mut Tally) {
    let [state, difference] = answer.report[..] else {
        unreachable!("a report of two");
    };
    tally.add(&format!("state {state}"));
    let agrees = state < 2 && question.loss > 0;
    tally.add_if(agrees, "state 0 or 1, loss over 0");
    tally.add(match difference {
        0 => "difference 0",
        ..0 => "difference below 0",
        _ => "difference above 0",
    });
    let far = difference < -i64::from(u32::MAX);
    tally.add_if(far, "difference below -4,294,967,295");
    let total = totalled(&steps(question.head, question.seed, question.loss));
    tally.add_if(total > 99_999_999, "total over 99,999,999");
    tally.add_if(total > u64::from(u32::MAX), "total over 4,294,967,295");
    let wrapped = total > 99_999_999 && state == 1;
    tally.add_if(wrapped, "total over 99,999,999, scaled");
}

fn arguments(question: &Question, tally: &mut Tally) {
    let head = question.head;
    tally.add(match question.seed {
        1 => "seed 1",
        2 => "seed 2",
        u32::MAX => "seed 4,294,967,295",
        _ => "another seed",
    });
    tally.add(match question.loss {
        0 => "loss 0",
        1 => "loss 1",
        999 => "loss 999",
        1000 => "loss 1000",
        _ => "another loss",
    });
    tally.add(&format!("L {}", head.interval));
    tally.add(match head.days {
        1 => "D 1",
        400 => "D 400",
        _ => "D 2 to 60",
    });
    tally.add(match head.limit {
        1 => "limit 1",
        1_000_000 => "limit 1,000,000",
        _ => "another limit",
    });
    let whole = (head.limit * head.interval).is_multiple_of(60);
    tally.add_if(!whole, "limit × L no multiple of 60");
}

// W12's sentences again

/// A draw is the number before it, xored with itself times 2^13, then by 2^17, then
/// times 2^5, each modulo 2^32.
fn draws(seed: u32) -> impl Iterator<Item = u64> {
    const WORDS: u64 = 1 << 32;
    let next = |&x: &u64| {
        let x = x ^ (x * 8192 % WORDS);
        let x = x ^ (x / 131_072);
        Some(x ^ (x * 32 % WORDS))
    };
    std::iter::successors(Some(seed.into()), next).skip(1)
}

/// Whether each slot is sent, and its true value.
fn steps(head: Head, seed: u32, loss: u32) -> Vec<(bool, u64)> {
    let slots = (1440 / head.interval * head.days) as usize;
    let values = u64::from(head.limit) * u64::from(head.interval) / 60 + 1;
    let draws: Vec<u64> = draws(seed).take(2 * slots).collect();
    let pairs = draws.chunks(2);
    pairs
        .map(|pair| (pair[0] % 1000 >= loss.into(), pair[1] % values))
        .collect()
}

fn totalled(steps: &[(bool, u64)]) -> u64 {
    steps.iter().map(|&(_, value)| value).sum()
}

fn restated(
    head: Head,
    seed: u32,
    loss: u32,
    lists: &mut Lists,
    out: &mut [u8],
    report: &mut [i64],
) -> u32 {
    let Ok(shape) = head.shape() else {
        return 1;
    };
    if !lists.fit(&shape) || report.len() != 2 {
        return 2;
    }
    let length = 6 * shape.slots + 14 + 32;
    if out.len() < length {
        return 7;
    }
    if seed == 0 {
        return 20;
    }
    if loss > 1000 {
        return 21;
    }
    let steps = steps(head, seed, loss);
    *lists = cells(&shape, &steps);
    let contents = contents(&shape, lists);
    out[..length].copy_from_slice(&contents.file());
    let published: u64 = contents
        .slots
        .iter()
        .map(|slot| u64::from(slot.value))
        .sum();
    // The state is the last but one byte of the one span.
    report[STATE] = i64::from(out[length - file::TRAILER_BYTES - 2]);
    report[DIFFERENCE] = published as i64 - totalled(&steps) as i64;
    0
}

/// The cells after the run: what was sent, the days' counts and the two reads.
fn cells(shape: &Shape, steps: &[(bool, u64)]) -> Lists {
    let mut lists = Lists::zeroed(shape.slots, shape.days);
    for (slot, &(sent, value)) in steps.iter().enumerate() {
        if sent {
            lists.values[slot] = narrowed(value);
            lists.versions[slot] = 1;
            lists.counts[slot / shape.slots_a_day] += 1;
        }
    }
    lists.read_versions[0] = 1;
    lists.read_versions[shape.days] = 1;
    lists.readings[shape.days] = (totalled(steps) % 100_000_000) as u32;
    lists
}

fn contents(shape: &Shape, lists: &Lists) -> Contents {
    let cells = lists.cells();
    let (slots, spans) = if shape.slots <= DEFINED_SLOTS {
        Definition::new(*shape, cells).outcomes()
    } else {
        rules::outcomes(shape, &cells)
    };
    Contents {
        frame: Frame::published(shape),
        slots,
        spans,
    }
}

#[cfg(test)]
mod tests {
    use super::*;

    fn run(other: Simulate) -> Result<Tally, String> {
        let mut tally = Tally::new(CLASSES);
        for index in 0..2400 {
            let mut rng = Rng::new(1, index);
            if index % 40 != LARGE {
                one(&mut rng, index, Some(other), &mut tally)?;
            }
        }
        Ok(tally)
    }

    #[test]
    fn every_class_but_the_largest_occurs() {
        let tally = run(SECOND).expect("no difference");
        let large = [
            "D 400",
            "total over 4,294,967,295",
            "difference below -4,294,967,295",
        ];
        let missing: Vec<&str> = tally.missing();
        assert!(
            missing.iter().all(|class| large.contains(class)),
            "{missing:?}"
        );
    }

    /// Whether what a run sends goes by another seed or rate in the place of these.
    macro_rules! meddled {
        ($change:expr) => {
            |head, seed, loss, lists, out, report| {
                let (seed, loss) = $change(seed, loss);
                SECOND(head, seed, loss, lists, out, report)
            }
        };
    }

    const MEDDLED: [Simulate; 9] = [
        // A draw is lost.
        meddled!(|seed: u32, loss| (if seed > 2 { simulate::draw(seed) } else { seed }, loss)),
        // Seed 0 is 1.
        meddled!(|seed: u32, loss| (seed.max(1), loss)),
        // 1001 is 1000.
        meddled!(|seed, loss: u32| (seed, if loss == 1001 { 1000 } else { loss })),
        // At the loss rate nothing is sent either.
        meddled!(|seed, loss: u32| (seed, if loss < 1000 { loss + 1 } else { loss })),
        // The report is written though refused.
        |head, seed, loss, lists, out, report| {
            let code = SECOND(head, seed, loss, lists, out, report);
            if code == 20 {
                report.fill(0);
            }
            code
        },
        // The lists are cleared though refused, 7.
        |head, seed, loss, lists, out, report| {
            let code = SECOND(head, seed, loss, lists, out, report);
            if code == 7 {
                lists.clear();
            }
            code
        },
        // The difference the other way round.
        |head, seed, loss, lists, out, report| {
            let code = SECOND(head, seed, loss, lists, out, report);
            if code == 0 {
                report[DIFFERENCE] = -report[DIFFERENCE];
            }
            code
        },
        // 21 before 20.
        |head, seed, loss, lists, out, report| match SECOND(head, seed, loss, lists, out, report) {
            20 if loss > 1000 => 21,
            code => code,
        },
        // 20 before 7.
        |head, seed, loss, lists, out, report| match SECOND(head, seed, loss, lists, out, report) {
            7 if seed == 0 => 20,
            code => code,
        },
    ];

    #[test]
    fn meddled_builds_are_found() {
        for (i, meddled) in MEDDLED.into_iter().enumerate() {
            assert!(run(meddled).is_err(), "{i}");
        }
    }
}
