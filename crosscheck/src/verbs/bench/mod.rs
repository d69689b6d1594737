//! Times publishing, reading, delivering, strips and stays of both builds on the same
//! books, and the playing of a log.

mod samples;
mod straight;
mod timing;
pub mod work;

use std::hint::black_box;
use std::process::ExitCode;

use crosscheck::compare::side::{Second, Side};
use crosscheck::host::{self, Host};
use crosscheck::second::lists::Lists;
use crosscheck::tries;
use crosscheck::tries::logs::{self, Play};
use crosscheck::tries::stays::{self, Stays};
use crosscheck::tries::strips;

use samples::{KINDS, Kind, Sample};
use timing::{RUNS, Sides, medians, print_row, timed};

/// Slots a run should go over at least, by repeating small books.
const SLOTS_A_RUN: usize = 60_000;

pub fn run(words: &[String]) -> ExitCode {
    if !words.is_empty() {
        return tries::usage("bench");
    }
    let sides: Sides<&dyn Side> = [("second", &Second), ("host", &Host)];
    println!("median of {RUNS} runs, ns per slot (deliver: per delivery, play: per line)");
    print!("{:<15} {:>4} {:>3}  {:<11}", "book", "D", "L", "call");
    sides.iter().for_each(|(name, _)| print!(" {name:>10}"));
    println!("  host/second");
    for (kind, name) in KINDS {
        for (days, interval) in [(1, 5), (1, 30), (31, 5), (31, 30), (400, 5), (400, 30)] {
            book_rows(&sides, kind, name, &Sample::new(kind, days, interval));
        }
    }
    play_row();
    ExitCode::SUCCESS
}

fn book_rows(sides: &Sides<&dyn Side>, kind: Kind, name: &str, sample: &Sample) {
    let repeats = SLOTS_A_RUN.div_ceil(sample.slots);
    let mut out = vec![0; sample.file.len()];
    let mut lists = Lists::zeroed(sample.slots, sample.days);
    let publish = medians(sides, sample.slots, repeats, |side| {
        out.fill(0);
        timed(|| work::publish(sample, side, &mut out))
    });
    let read = medians(sides, sample.slots, repeats, |side| {
        timed(|| work::read(sample, side))
    });
    let deliver = medians(sides, sample.deliveries.len(), repeats, |side| {
        lists.clear();
        timed(|| work::deliver(sample, side, &mut lists))
    });
    print_row(name, &sample.head, "publish", &publish);
    print_row(name, &sample.head, "read", &read);
    print_row(name, &sample.head, "deliver", &deliver);
    if kind == Kind::Ordinary {
        straight_row(name, sample, repeats);
        strips_rows(name, sample, repeats);
    }
    if kind == Kind::Ordinary && sample.head.days == 400 {
        stays_rows(name, sample);
    }
}

/// How near publishing comes to the least that a slot takes.
fn straight_row(name: &str, sample: &Sample, repeats: usize) {
    let mut out = vec![0; 6 * sample.slots];
    let times = medians(&[("straight", ())], sample.slots, repeats, |()| {
        out.fill(0);
        timed(|| work::straight(sample, &mut out))
    });
    print_row(name, &sample.head, "straight", &times);
}

fn strips_rows(name: &str, sample: &Sample, repeats: usize) {
    let sides = [("second", strips::SECOND), ("host", host::STRIPS)];
    let table = &sample.file[..6 * sample.slots];
    let interval = sample.head.interval;
    let mut strips = vec![0; table.len()];
    (strips::SECOND.to)(interval, table, &mut strips);
    let mut out = vec![0; table.len()];
    let to = medians(&sides, sample.slots, repeats, |side| {
        timed(|| (side.to)(interval, black_box(table), &mut out))
    });
    let from = medians(&sides, sample.slots, repeats, |side| {
        timed(|| (side.from)(interval, black_box(&strips), &mut out))
    });
    print_row(name, &sample.head, "to_strips", &to);
    print_row(name, &sample.head, "from_strips", &from);
}

/// One stay of 200 days, and 64 of three weeks that overlap.
fn stays_rows(name: &str, sample: &Sample) {
    let sides: Sides<Stays> = [("second", stays::SECOND), ("host", host::stays)];
    let many: Vec<u32> = (0..64).flat_map(|i| [5 * i, 5 * i + 21]).collect();
    for (pairs, call) in [(&[100, 300][..], "stays of 1"), (&many, "stays of 64")] {
        let mut totals = vec![0; pairs.len() / 2];
        let times = medians(&sides, sample.slots, 1, |side| {
            timed(|| side(black_box(&sample.file), black_box(pairs), &mut totals))
        });
        print_row(name, &sample.head, call, &times);
    }
}

/// A log of 400 days of 5 minutes: an opening and 115,200 deliveries.
fn play_row() {
    let sample = Sample::new(Kind::AllGap, 400, 5);
    let log = samples::log_of(&sample);
    let mut answers = vec![0; sample.slots + 1];
    let mut lists = Lists::zeroed(sample.slots, sample.days);
    let sides: Sides<Play> = [("second", logs::SECOND.play), ("host", host::play)];
    let times = medians(&sides, answers.len(), 1, |side| {
        timed(|| side(black_box(log.as_bytes()), &mut lists, &mut answers))
    });
    assert!(answers[1..].iter().all(|&answer| answer == 0));
    print_row("log", &sample.head, "play", &times);
}
