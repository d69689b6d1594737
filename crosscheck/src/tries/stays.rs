//! Compares stays, W11, with a restatement and another build.

use crate::compare::acceptance;
use crate::compare::damage::{self, Bases};
use crate::compare::random;
use crate::compare::rng::Rng;
use crate::compare::side::{Second, Side};
use crate::number::narrowed;
use crate::second::book::MOST_AGREED;
use crate::second::contents;
use crate::second::head::Head;
use crate::second::lists::Lists;
use crate::second::stays::{self, MOST_STAYS};
use crate::second::trailer;
use crate::tries::{Tally, hex};

/// The call of one build: file, pairs, totals; 0 or the refusal.
pub type Stays = fn(&[u8], &[u32], &mut [u64]) -> u32;

pub const SECOND: Stays = stays::stays_code;

pub const CLASSES: &[&str] = &[
    "0 pairs",
    "1 pair",
    "64 pairs",
    "another number of pairs",
    "65 pairs refused",
    "odd list refused",
    "fewer totals refused",
    "more totals refused",
    "overlapping pairs",
    "nested pairs",
    "equal pairs",
    "touching pairs",
    "pairs in falling order",
    "pair of a single day",
    "pair of the whole book",
    "second = D",
    "second = D + 1 refused",
    "first = second refused",
    "first > second refused",
    "pair of 4,294,967,295 refused",
    "stays in a book of 1 day",
    "stays in a book of 400 days",
    "stays in a file of layout 1",
    "stays in a file of layout 2",
    "stays in a file of layout 3",
    "stays in a damaged file",
    "total over 4,294,967,295",
    "stays refused 8",
    "stays refused 9",
    "stays refused 18",
    "stays refused 19",
    "8 before 18",
    "8 before 19",
    "9 before 18",
    "9 before 19",
    "18 before 19",
    "stays refused, totals unchanged",
];

/// What `totals` holds before a call.
const UNWRITTEN: u64 = 0x5A3C_691E_A5C3_96E1;

/// Small files, whole and damaged, and a few large or heavy ones.
pub struct Files {
    seed: u64,
    small: Bases,
    large: Vec<Vec<u8>>,
}

impl Files {
    pub fn new(seed: u64) -> Files {
        let sizes = [(400, 30), (400, 15), (31, 5), (366, 30)];
        let large = sizes.into_iter().zip(0..).flat_map(|(size, index)| {
            let file = random::file_of(Rng::new(seed ^ 0x57A7, index), size.0, size.1);
            [contents::before(&file).expect("a published file"), file]
        });
        Files {
            seed,
            small: Bases::new(seed ^ 0x57A7, 60),
            large: large.chain([heavy_file()]).collect(),
        }
    }

    fn whole(&self, rng: &mut Rng) -> Vec<u8> {
        if rng.one_in(40) {
            self.large[rng.below(self.large.len())].clone()
        } else {
            self.small.whole(rng).to_vec()
        }
    }
}

/// Three days of the highest agreed values: a day's total takes more than 32 bits.
fn heavy_file() -> Vec<u8> {
    let head = Head {
        year: 2024,
        month: 2,
        day: 28,
        days: 3,
        interval: 30,
        limit: 40_000,
        tolerance: 0,
    };
    let mut lists = Lists::zeroed(144, 3);
    lists.agreed.fill(MOST_AGREED);
    lists.agreed_versions.fill(1);
    let mut file = vec![0; 6 * 144 + 32];
    Second.publish(head, &lists, &mut file);
    file
}

/// One question: a file, the pairs, and how many totals.
struct Question {
    file: Vec<u8>,
    pairs: Vec<u32>,
    totals: usize,
}

/// One try: which kind it is goes by its number.
pub fn one(
    files: &Files,
    rng: &mut Rng,
    index: u64,
    other: Option<Stays>,
    tally: &mut Tally,
) -> Result<(), String> {
    let damaged = matches!(index % 8, 6 | 7);
    let file = if damaged {
        files.small.damaged(files.seed, index).file()
    } else {
        files.whole(rng)
    };
    let days = days_of(&file);
    let pairs = pairs(rng, days);
    let mut question = Question {
        totals: pairs.len() / 2,
        file,
        pairs,
    };
    match index % 8 {
        4 => wrong_lists(rng, days, &mut question),
        5 => wrong_pair(rng, days, &mut question),
        7 if rng.one_in(2) => wrong_lists(rng, days, &mut question),
        7 => wrong_pair(rng, days, &mut question),
        _ => {}
    }
    let (code, totals) = answered(&question, other)?;
    let mut count = Count {
        question: &question,
        days,
        tally,
    };
    if code == 0 {
        count.accepted(&totals, damaged);
    } else {
        count.refused(code);
    }
    Ok(())
}

/// D as the trailer has it, accepted or not; never 0, for making pairs.
fn days_of(file: &[u8]) -> u32 {
    narrowed(
        trailer::get(file, trailer::DAYS)
            .unwrap_or(1)
            .clamp(1, 1000),
    )
}

// Pairs

/// 0 to 64 pairs in the book.
fn pairs(rng: &mut Rng, days: u32) -> Vec<u32> {
    let any = rng.below(MOST_STAYS + 1);
    let many = rng.pick(&[0, 1, 1, 2, 3, 5, 8, 63, 64, 64, any]);
    (0..many).flat_map(|_| pair(rng, days)).collect()
}

fn pair(rng: &mut Rng, days: u32) -> [u32; 2] {
    let first = rng.between(0, days - 1);
    let second = match rng.below(8) {
        0 => return [0, days],
        1 | 2 => first + 1,
        3 => days,
        _ => rng.between(first + 1, days),
    };
    [first, second]
}

/// Other lists than 02 asks for; a pair of days out of bounds now and then.
fn wrong_lists(rng: &mut Rng, days: u32, question: &mut Question) {
    if rng.one_in(3) {
        wrong_pair(rng, days, question);
    }
    let Question { pairs, totals, .. } = question;
    match rng.below(6) {
        0 => {
            while pairs.len() < 2 * (MOST_STAYS + 1) {
                pairs.extend(pair(rng, days));
            }
            *totals = MOST_STAYS + 1;
        }
        1 => pairs.push(rng.between(0, days)),
        2 => {
            pairs.pop();
            // One total for each pair that is begun, or that is whole.
            *totals = rng.pick(&[pairs.len() / 2, pairs.len().div_ceil(2)]);
        }
        3 => *totals = totals.saturating_sub(1),
        4 => *totals += 1,
        _ => *totals = rng.pick(&[0, 1, 64, 65, 128]),
    }
}

/// Breaks one pair of the list.
fn wrong_pair(rng: &mut Rng, days: u32, question: &mut Question) {
    let Question { pairs, totals, .. } = question;
    if pairs.is_empty() {
        pairs.extend(pair(rng, days));
        *totals = 1;
    }
    let day = rng.between(0, days);
    let bad = rng.pick(&[
        [day, day],
        [days, days],
        [day + 1, day],
        [days, days - 1],
        [0, days + 1],
        [days - 1, days + 1],
        [days, days + 1],
        [0, u32::MAX],
        [u32::MAX, u32::MAX],
        [u32::MAX, 0],
    ]);
    let at = 2 * rng.below(pairs.len() / 2);
    pairs[at..at + 2].copy_from_slice(&bad);
}

// The calls

/// The answer and totals, of all builds alike.
fn answered(question: &Question, other: Option<Stays>) -> Result<(u32, Vec<u64>), String> {
    let call = |side: Stays| {
        let mut totals = vec![UNWRITTEN; question.totals];
        let code = side(&question.file, &question.pairs, &mut totals);
        (code, totals)
    };
    let (code, totals) = call(SECOND);
    let other = other.map(|other| ("other", other));
    for (name, side) in [("restated", restated as Stays)].into_iter().chain(other) {
        let (others_code, others) = call(side);
        let at = (0..totals.len()).find(|&i| totals[i] != others[i]);
        if code != others_code || at.is_some() {
            return Err(format!(
                "stays: {code}, {name} {others_code}, first other total {at:?}; {}",
                question.print()
            ));
        }
    }
    if code != 0 && totals.iter().any(|&total| total != UNWRITTEN) {
        return Err(format!(
            "stays: {code}, totals changed; {}",
            question.print()
        ));
    }
    Ok((code, totals))
}

impl Question {
    /// The question in full where the file is short; the seed and the try give the others.
    fn print(&self) -> String {
        let file = if self.file.len() <= 8192 {
            hex(&self.file)
        } else {
            "(long)".to_string()
        };
        format!(
            "pairs {:?}, {} totals, a file of {} bytes: {file}",
            self.pairs,
            self.totals,
            self.file.len()
        )
    }

    fn pairs(&self) -> impl Iterator<Item = (u32, u32)> {
        self.pairs.as_chunks::<2>().0.iter().map(|&[a, b]| (a, b))
    }
}

/// W11's sentences again: each stay summed by itself, slot by slot.
fn restated(file: &[u8], pairs: &[u32], totals: &mut [u64]) -> u32 {
    let figures = match acceptance::read(file) {
        Ok(figures) => figures,
        Err(number) => return number.into(),
    };
    if pairs.len() > 128 || pairs.len() % 2 == 1 || totals.len() * 2 != pairs.len() {
        return 18;
    }
    let days = narrowed(figures.days);
    let (pairs, _) = pairs.as_chunks::<2>();
    if pairs
        .iter()
        .any(|&[first, second]| first >= second || second > days)
    {
        return 19;
    }
    let slots_a_day = 1440 / narrowed::<usize>(figures.interval);
    for (&[first, second], total) in pairs.iter().zip(totals) {
        *total = 0;
        for slot in first as usize * slots_a_day..second as usize * slots_a_day {
            for (place, &byte) in file[6 * slot..6 * slot + 4].iter().enumerate() {
                *total += u64::from(byte) << (8 * place);
            }
        }
    }
    0
}

// Classes

struct Count<'a> {
    question: &'a Question,
    days: u32,
    tally: &'a mut Tally,
}

impl Count<'_> {
    fn accepted(&mut self, totals: &[u64], damaged: bool) {
        let (question, days) = (self.question, self.days);
        let any =
            |holds: fn(u32, (u32, u32)) -> bool| question.pairs().any(|pair| holds(days, pair));
        let single = any(|_, (first, second)| first + 1 == second);
        let whole = any(|days, pair| pair == (0, days));
        let to_the_end = any(|days, (_, second)| second == days);
        let layout = damage::layout(&question.file);
        let tally = &mut self.tally;
        tally.add(match question.pairs.len() / 2 {
            0 => "0 pairs",
            1 => "1 pair",
            64 => "64 pairs",
            _ => "another number of pairs",
        });
        tally.add_if(single, "pair of a single day");
        tally.add_if(whole, "pair of the whole book");
        tally.add_if(to_the_end, "second = D");
        tally.add_if(days == 1, "stays in a book of 1 day");
        tally.add_if(days == 400, "stays in a book of 400 days");
        tally.add_if(layout == 1, "stays in a file of layout 1");
        tally.add_if(layout == 2, "stays in a file of layout 2");
        tally.add_if(layout == 3, "stays in a file of layout 3");
        tally.add_if(damaged, "stays in a damaged file");
        let large = totals.iter().any(|&total| total > u64::from(u32::MAX));
        tally.add_if(large, "total over 4,294,967,295");
        self.relations();
    }

    /// How the pairs of a list lie to each other.
    fn relations(&mut self) {
        let pairs: Vec<(u32, u32)> = self.question.pairs().collect();
        let mut seen = [false; 5];
        for (i, &(a, b)) in pairs.iter().enumerate() {
            for &(c, d) in &pairs[i + 1..] {
                let equal = (a, b) == (c, d);
                let nested = a <= c && d <= b || c <= a && b <= d;
                let overlapping = a < c && c < b && b < d || c < a && a < d && d < b;
                seen[0] |= overlapping;
                seen[1] |= nested && !equal;
                seen[2] |= equal;
                seen[3] |= b == c || d == a;
                seen[4] |= c < a;
            }
        }
        let names = [
            "overlapping pairs",
            "nested pairs",
            "equal pairs",
            "touching pairs",
            "pairs in falling order",
        ];
        for (seen, name) in seen.into_iter().zip(names) {
            self.tally.add_if(seen, name);
        }
    }

    fn refused(&mut self, code: u32) {
        let (question, days) = (self.question, self.days);
        let many = question.pairs.len() / 2;
        let odd = question.pairs.len() % 2 == 1;
        let other_totals = question.totals != many;
        let lists = odd || many > MOST_STAYS || other_totals;
        let bad_pair = question.pairs().any(|(a, b)| a >= b || b > days);
        let tally = &mut self.tally;
        tally.add_if(question.totals > 0, "stays refused, totals unchanged");
        tally.add(&format!("stays refused {code}"));
        match code {
            8 | 9 => {
                tally.add_if(lists, &format!("{code} before 18"));
                tally.add_if(!lists && bad_pair, &format!("{code} before 19"));
            }
            18 => {
                tally.add_if(bad_pair, "18 before 19");
                tally.add_if(odd, "odd list refused");
                tally.add_if(many == 65 && !odd && !other_totals, "65 pairs refused");
                tally.add_if(!odd && question.totals < many, "fewer totals refused");
                tally.add_if(!odd && question.totals > many, "more totals refused");
            }
            _ => self.refused_pair(),
        }
    }

    fn refused_pair(&mut self) {
        let (question, days) = (self.question, self.days);
        let any = |holds: &dyn Fn(u32, u32) -> bool| {
            question.pairs().any(|(first, second)| holds(first, second))
        };
        let beyond = any(&|a, b| a < b && b == days + 1);
        self.tally.add_if(beyond, "second = D + 1 refused");
        let equal = any(&|a, b| a == b && b <= days);
        self.tally.add_if(equal, "first = second refused");
        let falling = any(&|a, b| a > b && a <= days);
        self.tally.add_if(falling, "first > second refused");
        let most = any(&|_, second| second == u32::MAX);
        self.tally.add_if(most, "pair of 4,294,967,295 refused");
    }
}

#[cfg(test)]
mod tests {
    use super::*;

    fn run(files: &Files, other: Stays) -> Result<Tally, String> {
        let mut tally = Tally::new(CLASSES);
        for index in 0..1000 {
            let mut rng = Rng::new(1, index);
            one(files, &mut rng, index, Some(other), &mut tally)?;
        }
        Ok(tally)
    }

    #[test]
    fn nearly_every_class_occurs() {
        let tally = run(&Files::new(1), SECOND).expect("no difference");
        assert!(tally.missing().len() < 4, "{:?}", tally.missing());
    }

    const MEDDLED: [Stays; 6] = [
        // Takes 65 pairs.
        |file, pairs, totals| match pairs.len() {
            130 => 0,
            _ => SECOND(file, pairs, totals),
        },
        // 19 before 18.
        |file, pairs, totals| match pairs {
            [first, second, ..] if first >= second && SECOND(file, &[], &mut []) == 0 => 19,
            _ => SECOND(file, pairs, totals),
        },
        // 18 before 8 and 9.
        |file, pairs, totals| match pairs.len() % 2 {
            1 => 18,
            _ => SECOND(file, pairs, totals),
        },
        // Writes on refusal.
        |file, pairs, totals| {
            let code = SECOND(file, pairs, totals);
            if code == 19 {
                totals.fill(0);
            }
            code
        },
        // The day after the last counts too.
        |file, pairs, totals| {
            let code = SECOND(file, pairs, totals);
            let days = days_of(file);
            let longer: Vec<u32> = pairs
                .chunks(2)
                .flat_map(|pair| [pair[0], days.min(*pair.last().unwrap_or(&0) + 1)])
                .collect();
            if code == 0 {
                SECOND(file, &longer, totals);
            }
            code
        },
        // A stay that was asked before is not totalled again.
        |file, pairs, totals| {
            let code = SECOND(file, pairs, totals);
            if code == 0 && pairs.len() > 2 && pairs[..2] == pairs[2..4] {
                totals[1] = 0;
            }
            code
        },
    ];

    #[test]
    fn meddled_builds_are_found() {
        let files = Files::new(1);
        for (i, meddled) in MEDDLED.into_iter().enumerate() {
            assert!(run(&files, meddled).is_err(), "{i}");
        }
    }
}
