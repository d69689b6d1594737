//! One measurement's work so many times, for counting its instructions.

use std::hint::black_box;
use std::process::ExitCode;

use crosscheck::compare::side::{Answer, Second, Side};
use crosscheck::host::{self, Host};
use crosscheck::second::lists::Lists;
use crosscheck::second::reader::Figures;
use crosscheck::tries;
use crosscheck::tries::logs;

use super::samples::{self, KINDS, Kind, Sample};
use super::straight;

pub const OPTIONS: &str = "publish|read|deliver|straight|play BOOK second|host REPEATS";

#[derive(Clone, Copy, Debug, PartialEq, Eq)]
enum Call {
    Publish,
    Read,
    Deliver,
    Straight,
    Play,
}

const CALLS: [(Call, &str); 5] = [
    (Call::Publish, "publish"),
    (Call::Read, "read"),
    (Call::Deliver, "deliver"),
    (Call::Straight, "straight"),
    (Call::Play, "play"),
];

pub fn publish(sample: &Sample, side: &dyn Side, out: &mut [u8]) -> Answer {
    side.publish(sample.head, black_box(&sample.lists), out)
}

pub fn read(sample: &Sample, side: &dyn Side) -> Result<Figures, u64> {
    side.read(black_box(&sample.file))
}

pub fn deliver(sample: &Sample, side: &dyn Side, lists: &mut Lists) {
    for &delivery in black_box(&sample.deliveries) {
        black_box(side.deliver(sample.head, lists, delivery));
    }
}

pub fn straight(sample: &Sample, out: &mut [u8]) {
    straight::pass(&sample.head, black_box(&sample.lists), out);
    black_box(out);
}

/// Does the work on a book of 400 days of 5 minutes, and prints how many items it has once.
pub fn run(words: &[String]) -> ExitCode {
    match asked(words) {
        Some((call, kind, host, repeats)) => {
            println!("{}", done(call, kind, host, repeats));
            ExitCode::SUCCESS
        }
        None => tries::usage(&format!("work {OPTIONS}")),
    }
}

fn asked(words: &[String]) -> Option<(Call, Kind, bool, usize)> {
    let [call, book, side, repeats] = words else {
        return None;
    };
    let &(call, _) = CALLS.iter().find(|(_, name)| name == call)?;
    let &(kind, _) = KINDS.iter().find(|(_, name)| name == book)?;
    let host = ["second", "host"].iter().position(|name| name == side)? == 1;
    Some((call, kind, host, repeats.parse().ok()?))
}

/// The items, after so many times the work. What is made ready is the same for each call but the log.
fn done(call: Call, kind: Kind, host: bool, repeats: usize) -> usize {
    let sample = Sample::new(kind, 400, 5);
    let side: &dyn Side = if host { &Host } else { &Second };
    let mut out = vec![0; sample.file.len()];
    let mut lists = Lists::zeroed(sample.slots, sample.days);
    match call {
        Call::Publish => times(repeats, || publish(&sample, side, &mut out)),
        Call::Read => times(repeats, || read(&sample, side)),
        Call::Straight => times(repeats, || straight(&sample, &mut out)),
        Call::Deliver => {
            times(repeats, || {
                lists.clear();
                deliver(&sample, side, &mut lists);
            });
            return sample.deliveries.len();
        }
        Call::Play => return played(&sample, &mut lists, host, repeats),
    }
    sample.slots
}

fn times<T>(repeats: usize, mut work: impl FnMut() -> T) {
    for _ in 0..repeats {
        black_box(work());
    }
}

/// The lines of the log, after playing it so many times.
fn played(sample: &Sample, lists: &mut Lists, host: bool, repeats: usize) -> usize {
    let log = samples::log_of(sample);
    let play = if host { host::play } else { logs::SECOND.play };
    let mut answers = vec![0; sample.slots + 1];
    times(repeats, || {
        play(black_box(log.as_bytes()), lists, &mut answers)
    });
    answers.len()
}
