//! Compares `compare` and `reconcile` of the package `sawmauve` with the plain book and the second
//! build's files: random pairs of logs over one truth, and pairs of files of all three layouts.

pub mod files;
pub mod offices;
pub mod played;

use sawmauve::{Comparison, Error, File, Log, Reconciliation};

use crate::compare::rng::Rng;
use crate::second::contents;
use crate::second::head::Head;
use crate::second::log::Filling;
use crate::tries::Tally;
use crate::tries::reconcile::played::{Listed, Played};

/// The functions that are compared.
#[derive(Clone, Copy)]
pub struct Verbs {
    pub compare: fn(&File, &File) -> Comparison,
    pub reconcile: fn(&Log, &Log) -> Result<Reconciliation, Error>,
}

pub const SAWMAUVE: Verbs = Verbs {
    compare: sawmauve::compare,
    reconcile: sawmauve::reconcile,
};

pub const CLASSES: &[&str] = &[
    "same sets, one head",
    "same sets, other bytes",
    "same sets, other limit",
    "same sets, other tolerance",
    "same sets, other limit, other files",
    "same sets, other tolerance, other files",
    "other first day",
    "other days",
    "other interval",
    "calls in ours alone",
    "calls in theirs alone",
    "calls in both alone",
    "listed delivery",
    "listed agreed value",
    "listed holiday",
    "listed register read",
    "listed read with a width",
    "listed on several lines",
    "listed, stands",
    "listed, superseded",
    "listed, refused before it was accepted",
    "refused 10 elsewhere, highest version",
    "refused 10 elsewhere, below it",
    "calls listed, equal files",
    "moved slots",
    "moved spans",
    "slot behind an equal outcome",
    "reading behind equal outcomes",
    "taken out, gone",
    "added, gone",
    "added under other content, gone",
    "added under other content, still there",
    "files: equal",
    "files: differ",
    "files: layout 1",
    "files: layout 2",
    "files: layout 3",
    "files: layout alone",
    "files: layout and nothing but spans",
    "files: span on both sides",
    "files: span on one side",
    "files: span's state alone",
    "files: run of one slot",
    "files: run over midnight",
    "files: several runs",
    "files: value alone",
    "files: quality or method alone",
    "files: difference 0",
    "files: other first day",
    "files: other days",
    "files: other interval",
];

/// One try: of every four, one is a pair of files, the others pairs of logs.
pub fn one(rng: &mut Rng, index: u64, verbs: Verbs, tally: &mut Tally) -> Result<(), String> {
    if index % 4 == 3 {
        let (ours, theirs) = files::pair(rng);
        return files::compared(verbs, &ours, &theirs, tally);
    }
    let (ours, theirs) = offices::pair(rng);
    logs(rng, verbs, &ours, &theirs, tally).map_err(|what| {
        let [ours, theirs] = [&ours, &theirs].map(|log| String::from_utf8_lossy(log));
        format!("{what}\nours:\n{ours}\ntheirs:\n{theirs}")
    })
}

/// What is no difference is Ok.
fn must(holds: bool, what: &str) -> Result<(), String> {
    if holds { Ok(()) } else { Err(what.to_string()) }
}

fn reconciled(verbs: Verbs, ours: &[u8], theirs: &[u8]) -> Result<Reconciliation, String> {
    let read = |log| Log::read(log).map_err(|error| format!("no log: {error}"));
    let found = (verbs.reconcile)(&read(ours)?, &read(theirs)?);
    found.map_err(|error| format!("reconcile: {error}"))
}

fn logs(
    rng: &mut Rng,
    verbs: Verbs,
    ours: &[u8],
    theirs: &[u8],
    tally: &mut Tally,
) -> Result<(), String> {
    let found = reconciled(verbs, ours, theirs)?;
    let (ours, theirs) = (Played::of(ours)?, Played::of(theirs)?);
    files::compared(verbs, &ours.file, &theirs.file, tally)?;
    let times = |head: Head| {
        let date = (head.year, head.month, head.day);
        (date, head.days, head.interval)
    };
    let ((date, days, interval), other) = (times(ours.head()), times(theirs.head()));
    tally.add_if(date != other.0, "other first day");
    tally.add_if(days != other.1, "other days");
    tally.add_if(interval != other.2, "other interval");
    if (date, days, interval) != other {
        let calls = found.calls.ours.len() + found.calls.theirs.len();
        let behind = found.slots.len() + found.readings.len();
        let nothing = calls + behind == 0 && !found.is_of_same_times() && !found.is_empty();
        return must(nothing, "other times: more is listed");
    }
    let listed = (ours.alone(&theirs), theirs.alone(&ours));
    must(played::given(&found.calls.ours) == listed.0, "ours alone")?;
    must(
        played::given(&found.calls.theirs) == listed.1,
        "theirs alone",
    )?;
    sets(&found, &ours, &theirs, tally)?;
    moved(verbs, &found, &ours, &theirs, tally)?;
    count(&listed.0, &ours, tally);
    count(&listed.1, &theirs, tally);
    match rng.one_in(2) {
        true => changed(rng, verbs, (&ours, &theirs), &listed.0, tally),
        false => changed(rng, verbs, (&theirs, &ours), &listed.1, tally),
    }
}

/// Nothing is listed exactly where the accepted calls are the same sets; then, under one head, the
/// files are equal.
fn sets(
    found: &Reconciliation,
    ours: &Played,
    theirs: &Played,
    tally: &mut Tally,
) -> Result<(), String> {
    let same = ours.accepted() == theirs.accepted();
    let (head, other) = (ours.head(), theirs.head());
    must(found.has_same_calls() == same, "the same sets")?;
    must(found.is_empty() == (same && head == other), "empty")?;
    let equal = ours.file == theirs.file;
    if same && head == other {
        tally.add("same sets, one head");
        tally.add_if(ours.text != theirs.text, "same sets, other bytes");
        return must(equal, "the same sets, one head, and other files");
    }
    for (differs, name) in [
        (head.limit != other.limit, "limit"),
        (head.tolerance != other.tolerance, "tolerance"),
    ] {
        tally.add_if(same && differs, &format!("same sets, other {name}"));
        let files = format!("same sets, other {name}, other files");
        tally.add_if(same && differs && !equal, &files);
    }
    let (here, there) = (&found.calls.ours, &found.calls.theirs);
    tally.add_if(!here.is_empty(), "calls in ours alone");
    tally.add_if(!there.is_empty(), "calls in theirs alone");
    let both = !here.is_empty() && !there.is_empty();
    tally.add_if(both, "calls in both alone");
    tally.add_if(!same && equal, "calls listed, equal files");
    Ok(())
}

/// The outcomes that differ are those of the second build's files, and so is what lies behind equal ones.
fn moved(
    verbs: Verbs,
    found: &Reconciliation,
    ours: &Played,
    theirs: &Played,
    tally: &mut Tally,
) -> Result<(), String> {
    let moved = found.moved.as_ref().ok_or("nothing is compared")?;
    files::listed(moved, &ours.file, &theirs.file)?;
    tally.add_if(!moved.runs.is_empty(), "moved slots");
    tally.add_if(!moved.spans.is_empty(), "moved spans");
    let slots: Vec<u32> = found.slots.iter().map(|behind| behind.at).collect();
    let readings: Vec<u32> = found.readings.iter().map(|behind| behind.at).collect();
    must(slots == ours.slots_behind(theirs), "slots behind")?;
    must(readings == ours.readings_behind(theirs), "readings behind")?;
    tally.add_if(!slots.is_empty(), "slot behind an equal outcome");
    tally.add_if(!readings.is_empty(), "reading behind equal outcomes");
    // The same file in the layout it would have had before W10.
    let before = contents::before(&ours.file).map_err(|number| format!("refused {number}"))?;
    files::compared(verbs, &ours.file, &before, tally)
}

fn count(listed: &[Listed], log: &Played, tally: &mut Tally) {
    for one in listed {
        tally.add(match one.call {
            Filling::Delivery(_) => "listed delivery",
            Filling::Agreed(_) => "listed agreed value",
            Filling::Holiday(_) => "listed holiday",
            Filling::Register(_) => "listed register read",
        });
        let width = matches!(one.call, Filling::Register([.., width]) if width > 0);
        tally.add_if(width, "listed read with a width");
        tally.add_if(one.lines.len() > 1, "listed on several lines");
        let stands = one.cell == played::version(one.call);
        tally.add(if stands {
            "listed, stands"
        } else {
            "listed, superseded"
        });
        let refused = log.refused(one.call).is_some();
        tally.add_if(refused, "listed, refused before it was accepted");
        if let Some((_, 10, highest)) = one.refused {
            tally.add(match highest {
                true => "refused 10 elsewhere, highest version",
                false => "refused 10 elsewhere, below it",
            });
        }
    }
}

/// A listed call is gone when every line of it is taken out of its log; so it is when it is added to
/// the other log, unless that has other content under the version.
fn changed(
    rng: &mut Rng,
    verbs: Verbs,
    (ours, theirs): (&Played, &Played),
    listed: &[Listed],
    tally: &mut Tally,
) -> Result<(), String> {
    for _ in 0..listed.len().min(3) {
        let one = &listed[rng.below(listed.len())];
        let is_listed = |ours: &[u8], theirs: &[u8]| {
            let found = reconciled(verbs, ours, theirs)?;
            let listed = played::given(&found.calls.ours);
            Ok::<bool, String>(listed.iter().any(|other| other.call == one.call))
        };
        let left = ours.without(one.call);
        must(!is_listed(&left, &theirs.text)?, "taken out, still there")?;
        tally.add("taken out, gone");
        let still = is_listed(&ours.text, &theirs.with(one.call))?;
        let other = theirs.has_other_content(one.call);
        must(!still || other, "added, still there")?;
        tally.add(match (other, still) {
            (false, _) => "added, gone",
            (true, false) => "added under other content, gone",
            (true, true) => "added under other content, still there",
        });
    }
    Ok(())
}
