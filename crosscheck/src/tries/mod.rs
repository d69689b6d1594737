//! What the smaller comparisons share: their arguments, their classes and their end.

pub mod dates;
pub mod dials;
pub mod explain;
pub mod limits;
pub mod logs;
pub mod nem12;
pub mod reach;
pub mod reconcile;
pub mod simulate;
pub mod stays;
pub mod strips;

use std::collections::BTreeSet;
use std::fmt;
use std::process::ExitCode;
use std::time::Instant;

use crate::compare::rng::Rng;
use crate::guard;
use crate::second::head::Shape;
use crate::second::lists::{List, Lists};

/// How often each class of a list occurred.
pub struct Tally {
    names: &'static [&'static str],
    counts: Vec<u64>,
}

impl Tally {
    pub fn new(names: &'static [&'static str]) -> Tally {
        Tally {
            names,
            counts: vec![0; names.len()],
        }
    }

    /// A class that isn't listed is a slip of the comparison itself.
    pub fn add(&mut self, name: &str) {
        let listed = self.names.iter().position(|&other| other == name);
        let at = listed.unwrap_or_else(|| panic!("not a class: {name}"));
        self.counts[at] += 1;
    }

    pub fn add_if(&mut self, occurred: bool, name: &str) {
        if occurred {
            self.add(name);
        }
    }

    /// A refusal, and each higher one of the faults that it goes before.
    pub fn add_refused(&mut self, code: u32, faults: impl Iterator<Item = u32>) {
        self.add(&format!("refused {code}"));
        let later: BTreeSet<u32> = faults.filter(|&number| number > code).collect();
        for number in later {
            self.add(&format!("{code} before {number}"));
        }
    }

    /// The lists that are not as long as a book of this shape asks for.
    pub fn add_misfits(&mut self, lists: &Lists, shape: &Shape) {
        for (list, name) in List::ALL.into_iter().zip(LISTS) {
            self.add_if(lists.len_of(list) != list.wanted(shape), name);
        }
    }

    /// The classes that never occurred.
    pub fn missing(&self) -> Vec<&'static str> {
        let counted = self.names.iter().zip(&self.counts);
        counted
            .filter(|&(_, &count)| count == 0)
            .map(|(&name, _)| name)
            .collect()
    }
}

impl fmt::Display for Tally {
    fn fmt(&self, f: &mut fmt::Formatter) -> fmt::Result {
        for (name, count) in self.names.iter().zip(&self.counts) {
            writeln!(f, "{name}: {count}")?;
        }
        Ok(())
    }
}

/// A comparison made of many small tries, each from the seed and its number.
pub struct Comparison {
    /// Its verb.
    pub name: &'static str,
    pub classes: &'static [&'static str],
    /// Made unless told otherwise; from this many on, a class that never occurred is a failure.
    pub tries: u64,
}

impl Comparison {
    /// Makes the tries that the words ask for and stops at a difference.
    pub fn run(
        &self,
        words: &[String],
        one: impl Fn(&mut Rng, u64, &mut Tally) -> Result<(), String>,
    ) -> ExitCode {
        self.run_with(
            words,
            |_| (),
            |(), rng, index, tally| one(rng, index, tally),
        )
    }

    /// As `run`, with something made of the seed first, for all tries.
    pub fn run_with<T>(
        &self,
        words: &[String],
        prepare: impl Fn(u64) -> T,
        one: impl Fn(&T, &mut Rng, u64, &mut Tally) -> Result<(), String>,
    ) -> ExitCode {
        let (mut seed, mut tries, mut from) = (1, self.tries, 0);
        let mut places = [
            ("--seed", &mut seed),
            ("--tries", &mut tries),
            ("--from", &mut from),
        ];
        let Some(trace) = options(words, &mut places) else {
            let name = self.name;
            return usage(&format!("{name} --seed S --tries N [--from I] [--trace]"));
        };
        let start = Instant::now();
        let mut tally = Tally::new(self.classes);
        let prepared = prepare(seed);
        for index in from..from + tries {
            if trace {
                eprintln!("try {index}");
            }
            guard::turn(index);
            let mut rng = Rng::new(seed, index);
            if let Err(what) = one(&prepared, &mut rng, index, &mut tally) {
                println!("difference: seed {seed}, try {index}");
                println!("  {what}");
                return ExitCode::from(1);
            }
        }
        print!("{tally}");
        let made = format!("{tries} tries of {}, seed {seed}", self.name);
        end(&tally.missing(), LINKED, start, &made, tries >= self.tries)
    }
}

/// What a comparison is held against.
pub const LINKED: &str = "libsawmauve.a and the restatement";

/// Wrong arguments: 2.
pub fn usage(verb: &str) -> ExitCode {
    eprintln!("crosscheck {verb}");
    ExitCode::from(2)
}

/// Sets the numbers that the words name, and tells whether `--trace` is among them; none for any
/// other word.
pub fn options(words: &[String], places: &mut [(&str, &mut u64)]) -> Option<bool> {
    let mut trace = false;
    let mut words = words.iter();
    while let Some(word) = words.next() {
        if word == "--trace" {
            trace = true;
            continue;
        }
        let (_, place) = places.iter_mut().find(|(name, _)| name == word)?;
        **place = words.next()?.parse().ok()?;
    }
    Some(trace)
}

/// The end of a run without a difference: 2 where it was large enough and a class never occurred.
pub fn end(
    missing: &[impl fmt::Display],
    against: &str,
    start: Instant,
    made: &str,
    enough: bool,
) -> ExitCode {
    for class in missing {
        println!("never occurred: {class}");
    }
    let seconds = start.elapsed().as_secs_f64();
    println!("compared with {against} in {seconds:.1} s");
    println!("0 differences in {made}");
    if enough && !missing.is_empty() {
        return ExitCode::from(2);
    }
    ExitCode::SUCCESS
}

/// Makes one of the lists shorter or longer.
pub fn misfit(rng: &mut Rng, lists: &mut Lists, shape: &Shape) {
    let list = rng.pick(&List::ALL);
    let len = list.wanted(shape);
    let wrong = rng.pick(&[len - 1, len + 1, 0, 2 * len]);
    lists.resize(list, wrong);
}

/// Bytes as a report prints them.
pub fn hex(bytes: &[u8]) -> String {
    bytes.iter().map(|byte| format!("{byte:02x}")).collect()
}

/// Any bytes.
pub fn noise(rng: &mut Rng, len: usize) -> Vec<u8> {
    (0..len).map(|_| rng.byte()).collect()
}

/// Names of `List::ALL`, as the classes of 2 have them.
pub const LISTS: [&str; 10] = [
    "2: values",
    "2: versions",
    "2: statuses",
    "2: holidays",
    "2: readings",
    "2: read versions",
    "2: agreed",
    "2: agreed versions",
    "2: counts",
    "2: widths",
];
