//! Pairs of files, and what differs between them by the second build's reader.

use std::collections::BTreeSet;

use sawmauve::{Comparison, Error, File, Method, Pair, Quality, Slot, Span, State};

use crate::compare::rng::Rng;
use crate::number::narrowed;
use crate::second::contents::Contents;
use crate::second::file::{letter, state_number};
use crate::second::rules;
use crate::tries::nem12::files::Made;
use crate::tries::reconcile::{Verbs, must};
use crate::tries::{Tally, hex};

/// Two files that differ in nothing, in little, or in everything.
pub fn pair(rng: &mut Rng) -> (Vec<u8>, Vec<u8>) {
    let ours = Made::random(rng);
    let mut theirs = ours.clone();
    if rng.one_in(12) {
        theirs = Made::random(rng);
    }
    for _ in 0..rng.pick(&[0, 1, 1, 1, 2, 2, 5]) {
        theirs = theirs.changed(rng);
    }
    (ours.file(), theirs.file())
}

fn read(file: &[u8]) -> Result<File, String> {
    File::read(file.to_vec()).map_err(|error| format!("{error}: {}", hex(file)))
}

/// Compares two files: nothing is listed exactly where their bytes are equal.
pub fn compared(verbs: Verbs, ours: &[u8], theirs: &[u8], tally: &mut Tally) -> Result<(), String> {
    let both = |what: String| format!("{what}\nours {}\ntheirs {}", hex(ours), hex(theirs));
    let found = (verbs.compare)(&read(ours)?, &read(theirs)?);
    let equal = ours == theirs;
    must(found.is_empty() == equal, "nothing listed, or bytes equal").map_err(both)?;
    listed(&found, ours, theirs).map_err(both)?;
    tally.add(if equal {
        "files: equal"
    } else {
        "files: differ"
    });
    count(&found, tally);
    Ok(())
}

fn contents(file: &[u8]) -> Result<Contents, String> {
    Contents::of(file).map_err(|number| format!("the second build refuses {number}"))
}

fn slot(slot: &rules::Slot) -> Result<Slot, Error> {
    Ok(Slot {
        value: slot.value,
        quality: Quality::try_from(letter(slot.quality))?,
        method: Method::try_from(slot.method)?,
    })
}

fn span(span: &rules::Span) -> Result<Span, Error> {
    Ok(Span {
        first: narrowed(span.first),
        last: narrowed(span.last),
        lowest: span.advances.lowest,
        highest: span.advances.highest,
        state: State::try_from(state_number(span.state))?,
    })
}

/// What is listed is what differs between the contents that the second build reads.
pub fn listed(found: &Comparison, ours: &[u8], theirs: &[u8]) -> Result<(), String> {
    let (ours, theirs) = (contents(ours)?, contents(theirs)?);
    let times = |contents: &Contents| {
        let frame = contents.frame;
        (frame.first_day, frame.days, frame.interval)
    };
    let (a, b) = (ours.frame, theirs.frame);
    let layout = Pair {
        ours: a.layout,
        theirs: b.layout,
    };
    let figure = found.figure(|figures| figures.layout);
    must(figure == layout.differing(), "layout")?;
    let same = times(&ours) == times(&theirs);
    must(found.is_of_same_times() == same, "the same times")?;
    let sum = |contents: &Contents| {
        contents
            .slots
            .iter()
            .map(|slot| i128::from(slot.value))
            .sum()
    };
    let sums: (i128, i128) = (sum(&ours), sum(&theirs));
    must(found.sums().difference() == sums.0 - sums.1, "difference")?;
    if !same {
        let nothing = found.spans.len() + found.runs.len() + found.days.len() == 0;
        return must(nothing, "other times: more is listed");
    }
    slots(found, &ours, &theirs)?;
    days(found, &ours, &theirs)?;
    spans(found, &ours, &theirs)
}

/// Every slot that differs, in unbroken runs that do not touch.
fn slots(found: &Comparison, ours: &Contents, theirs: &Contents) -> Result<(), String> {
    let pairs = (0..).zip(ours.slots.iter().zip(&theirs.slots));
    let wanted = pairs
        .filter(|(_, (ours, theirs))| ours != theirs)
        .map(|(at, (ours, theirs))| {
            let (ours, theirs) = (slot(ours)?, slot(theirs)?);
            Ok((at, Pair { ours, theirs }))
        });
    let wanted: Result<Vec<(u32, Pair<Slot>)>, Error> = wanted.collect();
    let runs = found.runs.iter();
    let given: Vec<(u32, Pair<Slot>)> = runs
        .flat_map(|run| (run.first..).zip(run.slots.iter().copied()))
        .collect();
    must(Ok(given) == wanted, "slots")?;
    let apart = found
        .runs
        .windows(2)
        .all(|two| two[0].until() < two[1].first);
    must(apart, "runs that touch")?;
    let differs = |run: &sawmauve::Differing| {
        let differences = run
            .slots
            .iter()
            .map(|pair| i128::from(pair.ours.value) - i128::from(pair.theirs.value));
        run.sums().difference() == differences.sum::<i128>() && !run.slots.is_empty()
    };
    must(found.runs.iter().all(differs), "a run's difference")
}

fn days(found: &Comparison, ours: &Contents, theirs: &Contents) -> Result<(), String> {
    let n = 1440 / ours.frame.interval as usize;
    let mut wanted = Vec::new();
    for day in 0..ours.frame.days {
        let slots = day * n..(day + 1) * n;
        let (a, b) = (&ours.slots[slots.clone()], &theirs.slots[slots]);
        let sum = |slots: &[rules::Slot]| slots.iter().map(|slot| u64::from(slot.value)).sum();
        if a != b {
            wanted.push((narrowed(day), (sum(a), sum(b))));
        }
    }
    let days = found.days.iter();
    let given: Vec<(u32, (u64, u64))> = days
        .map(|day| (day.day, (day.sums.ours, day.sums.theirs)))
        .collect();
    must(given == wanted, "days")
}

/// Each boundary pair that one side alone has, or both with other records, once and in order.
fn spans(found: &Comparison, ours: &Contents, theirs: &Contents) -> Result<(), String> {
    let records = |contents: &Contents| {
        let spans: Result<Vec<Span>, Error> = contents.spans.iter().map(span).collect();
        spans.map_err(|error| error.to_string())
    };
    let (a, b) = (records(ours)?, records(theirs)?);
    let ends: BTreeSet<(u32, u32)> = a
        .iter()
        .chain(&b)
        .map(|span| (span.first, span.last))
        .collect();
    let of = |spans: &[Span], ends: (u32, u32)| {
        let mut spans = spans.iter();
        spans.find(|span| (span.first, span.last) == ends).copied()
    };
    let pairs = ends.into_iter().map(|ends| Pair {
        ours: of(&a, ends),
        theirs: of(&b, ends),
    });
    let wanted: Vec<Pair<Option<Span>>> = pairs.filter(|pair| pair.ours != pair.theirs).collect();
    must(found.spans == wanted, "spans")
}

fn count(found: &Comparison, tally: &mut Tally) {
    for figures in [found.figures.ours, found.figures.theirs] {
        tally.add(&format!("files: layout {}", figures.layout));
    }
    let layout = found.figure(|figures| figures.layout).is_some();
    let (spans, runs) = (!found.spans.is_empty(), !found.runs.is_empty());
    tally.add_if(
        layout && !spans && !runs && found.is_of_same_times(),
        "files: layout alone",
    );
    tally.add_if(
        layout && spans && !runs,
        "files: layout and nothing but spans",
    );
    let first = found.figure(|figures| figures.first).is_some();
    tally.add_if(first, "files: other first day");
    let days = found.figure(|figures| figures.days).is_some();
    tally.add_if(days, "files: other days");
    let interval = found.figure(|figures| figures.interval).is_some();
    tally.add_if(interval, "files: other interval");
    for pair in &found.spans {
        let (Some(ours), Some(theirs)) = (pair.ours, pair.theirs) else {
            tally.add("files: span on one side");
            continue;
        };
        tally.add("files: span on both sides");
        let advances = (ours.lowest, ours.highest) == (theirs.lowest, theirs.highest);
        tally.add_if(advances, "files: span's state alone");
    }
    count_runs(found, tally);
}

fn count_runs(found: &Comparison, tally: &mut Tally) {
    let in_day = found.figures.ours.slots_per_day();
    tally.add_if(found.runs.len() > 1, "files: several runs");
    let still = !found.runs.is_empty() && found.sums().difference() == 0;
    tally.add_if(still, "files: difference 0");
    for run in &found.runs {
        tally.add_if(run.slots.len() == 1, "files: run of one slot");
        let over = run.first / in_day != (run.until() - 1) / in_day;
        tally.add_if(over, "files: run over midnight");
        for Pair { ours, theirs } in &run.slots {
            let alike = (ours.quality, ours.method) == (theirs.quality, theirs.method);
            tally.add_if(alike, "files: value alone");
            let value = ours.value == theirs.value;
            tally.add_if(value, "files: quality or method alone");
        }
    }
}
