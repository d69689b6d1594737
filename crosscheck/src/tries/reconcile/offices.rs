//! Random pairs of logs over one truth: losses, repeats, late figures, conflicts, agreed values,
//! widths, other orders and other heads.

use crate::compare::heads;
use crate::compare::rng::Rng;
use crate::second::head::{DIAL, Head};
use crate::second::log::Filling;

/// How an office's radio and clerks change the truth; each happens to one call in so many, never at 0.
struct Habits {
    loss: usize,
    repeat: usize,
    swap: usize,
    shuffled: bool,
    morning: bool,
}

/// A call's line.
pub fn line(call: Filling) -> String {
    let (keyword, numbers): (&str, &[u32]) = match &call {
        Filling::Delivery(numbers) => ("delivery", numbers),
        Filling::Agreed(numbers) => ("agreed", numbers),
        Filling::Holiday(day) => ("holiday", std::slice::from_ref(day)),
        Filling::Register(numbers) => ("register", numbers),
    };
    let numbers: String = numbers.iter().map(|number| format!(" {number}")).collect();
    format!("{keyword}{numbers}")
}

/// The logs of two offices that heard of one meter.
pub fn pair(rng: &mut Rng) -> (Vec<u8>, Vec<u8>) {
    let days = rng.pick(&[1, 1, 1, 2, 3, 8, 9]);
    let interval = if days > 3 {
        30
    } else {
        rng.pick(&[30, 30, 30, 15, 5])
    };
    let head = heads::random(rng, days, interval);
    let other = if rng.one_in(3) {
        other(rng, head)
    } else {
        head
    };
    let truth = truth(rng, head);
    let ours = heard(rng, &truth, head);
    let theirs = match rng.below(12) {
        0 => turned(heard(rng, &truth, head)),
        1..4 => [&ours[..], &ours[..ours.len() / 2]].concat(),
        _ => heard(rng, &truth, head),
    };
    (log(rng, head, ours), log(rng, other, theirs))
}

/// The same of a dial that stands 700 Wh further.
fn turned(mut calls: Vec<Filling>) -> Vec<Filling> {
    for call in &mut calls {
        if let Filling::Register([_, _, reading, _]) = call
            && *reading < DIAL
        {
            *reading = (*reading + 700) % DIAL;
        }
    }
    calls
}

/// A good head that differs in one of its parts.
fn other(rng: &mut Rng, head: Head) -> Head {
    let mut other = head;
    match rng.below(7) {
        0 => other.interval = if head.interval == 30 { 15 } else { 30 },
        1 if head.days > 1 => other.days -= 1,
        2 => (other.year, other.month, other.day) = (2001, 3, 1 + rng.between(0, 27)),
        3 | 4 => other.limit = rng.pick(&[1000, 40_000, 70_000]),
        _ => other.tolerance = rng.pick(&[0, 5, 1_000_000]),
    }
    other
}

/// What there was to hear, in the order of the slots: every slot once, with a second figure or two for
/// some; the dial; and a few agreed values, holidays and calls that no book takes.
fn truth(rng: &mut Rng, head: Head) -> Vec<Filling> {
    let in_day = 1440 / head.interval;
    let most = (u64::from(head.limit) * u64::from(head.interval) / 60).min(3000) as u32;
    let (second, fault) = (rng.pick(&[0, 0, 40, 10]), rng.pick(&[0, 30]));
    let mut dial = rng.pick(&[0, 12_345_678, DIAL - 500]);
    let mut calls = Vec::new();
    for slot in 0..in_day * head.days {
        if slot % in_day == 0 {
            // A dial that is off by a little.
            let off = rng.pick(&[0, 0, 3]);
            calls.extend(at_midnight(rng, slot / in_day, (dial + off) % DIAL));
        }
        let value = rng.between(0, most);
        let status = if rng.one_in(fault) {
            rng.pick(&[1, 2, 4, 7])
        } else {
            0
        };
        dial = (dial + value) % DIAL;
        calls.push(Filling::Delivery([slot, 1, value, status]));
        if rng.one_in(second) {
            calls.extend(second_figures(rng, slot, value));
        }
    }
    calls.push(Filling::Register([head.days, 1, dial, 0]));
    if rng.one_in(3) {
        calls.extend(broken(rng, head, in_day));
    }
    calls
}

/// A read of the dial, through salt or not, and a holiday now and then; a second reading too.
fn at_midnight(rng: &mut Rng, day: u32, dial: u32) -> Vec<Filling> {
    let mut calls = Vec::new();
    match rng.below(6) {
        0 => {}
        1 => calls.push(Filling::Register([day, 1, dial - dial % 100, 99])),
        2 => {
            calls.push(Filling::Register([day, 1, dial, 0]));
            let (version, other) = (rng.between(1, 2), rng.pick(&[dial, (dial + 1) % DIAL]));
            calls.push(Filling::Register([day, version, other, 0]));
        }
        _ => calls.push(Filling::Register([day, 1, dial, 0])),
    }
    if rng.one_in(5) {
        calls.push(Filling::Holiday(day));
    }
    calls
}

/// A correction, a conflict, both, or a value agreed with the skipper.
fn second_figures(rng: &mut Rng, slot: u32, value: u32) -> Vec<Filling> {
    let other = value + rng.between(1, 5);
    let conflict = Filling::Delivery([slot, 1, other, 0]);
    let correction = Filling::Delivery([slot, 2, other, 0]);
    match rng.below(6) {
        0 => vec![conflict],
        1 => vec![correction],
        // Refused first, then late.
        2 => vec![conflict, correction, conflict],
        3 => vec![Filling::Delivery([slot, 2, value, 4])],
        4 => vec![
            Filling::Agreed([slot, 1, value]),
            Filling::Agreed([slot, 2, other]),
        ],
        _ => vec![
            Filling::Agreed([slot, 1, value]),
            Filling::Agreed([slot, 1, other]),
        ],
    }
}

/// Calls that are refused for their numbers.
fn broken(rng: &mut Rng, head: Head, in_day: u32) -> Vec<Filling> {
    let any = [
        Filling::Delivery([in_day * head.days, 1, 5, 0]),
        Filling::Delivery([0, 0, 5, 0]),
        Filling::Delivery([0, 9, 5, 8]),
        Filling::Agreed([0, 9, DIAL]),
        Filling::Holiday(head.days),
        Filling::Register([head.days + 1, 1, 5, 0]),
        Filling::Register([0, 9, DIAL, 0]),
        Filling::Register([0, 9, 5, 10_000]),
    ];
    vec![rng.pick(&any), rng.pick(&any)]
}

/// The calls of the truth that an office heard, in its order.
fn heard(rng: &mut Rng, truth: &[Filling], head: Head) -> Vec<Filling> {
    let habits = Habits {
        loss: rng.pick(&[0, 0, 0, 300, 60, 10]),
        repeat: rng.pick(&[0, 100, 20]),
        swap: rng.pick(&[0, 50, 10]),
        shuffled: rng.one_in(6),
        morning: rng.one_in(4),
    };
    let in_day = 1440 / head.interval;
    let from = rng.between(0, in_day * head.days - 1);
    let lost = from..from + in_day / 6;
    let mut calls = Vec::new();
    for &call in truth {
        let slot = match call {
            Filling::Delivery([slot, ..]) => Some(slot),
            _ => None,
        };
        let away = habits.morning && slot.is_some_and(|slot| lost.contains(&slot));
        if away || rng.one_in(habits.loss) {
            continue;
        }
        calls.push(call);
        if rng.one_in(habits.repeat) {
            calls.insert(rng.below(calls.len()), call);
        }
        if rng.one_in(habits.swap) {
            let (one, next) = (rng.below(calls.len()), calls.len() - 1);
            calls.swap(one, next);
        }
    }
    if habits.shuffled {
        rng.shuffle(&mut calls);
    }
    calls
}

/// The text of a log; a width of 0 is left out now and then.
fn log(rng: &mut Rng, head: Head, calls: Vec<Filling>) -> Vec<u8> {
    let Head {
        year,
        month,
        day,
        days,
        interval,
        limit,
        tolerance,
    } = head;
    let mut text = format!("limits {limit}\n");
    text += &format!("open {year:04}-{month:02}-{day:02} {days} {interval} 1 {tolerance}\n");
    for call in calls {
        if rng.one_in(100) {
            text += "# a comment\n";
        }
        let line = line(call);
        let short = line.strip_suffix(" 0").filter(|_| rng.one_in(2));
        text += match call {
            Filling::Register([.., 0]) => short.unwrap_or(&line),
            _ => &line,
        };
        text += "\n";
    }
    text.into_bytes()
}
