//! Pairs of logs and files: the comparison notices each slip of `compare` and `reconcile`.

use crosscheck::compare::rng::Rng;
use crosscheck::second::log::Filling;
use crosscheck::tries::Tally;
use crosscheck::tries::reconcile::offices::line;
use crosscheck::tries::reconcile::played::Played;
use crosscheck::tries::reconcile::{CLASSES, SAWMAUVE, Verbs, one};
use sawmauve::{Comparison, Error, File, Log, Pair, Reconciliation};

/// The first difference in so many tries.
fn tried(verbs: Verbs, tries: u64) -> Result<(), String> {
    let mut tally = Tally::new(CLASSES);
    (0..tries).try_for_each(|index| one(&mut Rng::new(1, index), index, verbs, &mut tally))
}

#[track_caller]
fn is_noticed(verbs: Verbs) {
    assert!(tried(verbs, 600).is_err());
}

fn slip(compare: fn(&File, &File) -> Comparison) -> Verbs {
    Verbs {
        compare,
        ..SAWMAUVE
    }
}

fn log_slip(reconcile: fn(&Log, &Log) -> Result<Reconciliation, Error>) -> Verbs {
    Verbs {
        reconcile,
        ..SAWMAUVE
    }
}

/// `reconcile` with something done to what it gives.
fn after(
    ours: &Log,
    theirs: &Log,
    change: fn(&mut Reconciliation),
) -> Result<Reconciliation, Error> {
    let mut found = sawmauve::reconcile(ours, theirs)?;
    change(&mut found);
    Ok(found)
}

#[test]
fn no_difference() {
    assert_eq!(tried(SAWMAUVE, 400), Ok(()));
}

#[test]
fn slips_of_compare() {
    is_noticed(slip(|ours, _| sawmauve::compare(ours, ours)));
    is_noticed(slip(|ours, theirs| sawmauve::compare(theirs, ours)));
    is_noticed(slip(|ours, theirs| {
        let mut found = sawmauve::compare(ours, theirs);
        found.spans.pop();
        found
    }));
    is_noticed(slip(|ours, theirs| {
        let mut found = sawmauve::compare(ours, theirs);
        found.days.pop();
        found
    }));
    is_noticed(slip(|ours, theirs| {
        let mut found = sawmauve::compare(ours, theirs);
        found.runs.retain(|run| run.sums().difference() != 0);
        found
    }));
    is_noticed(slip(|ours, theirs| {
        let mut found = sawmauve::compare(ours, theirs);
        found.figures.theirs.layout = found.figures.ours.layout;
        found
    }));
}

#[test]
fn slips_of_reconcile() {
    is_noticed(log_slip(|ours, theirs| sawmauve::reconcile(theirs, ours)));
    is_noticed(log_slip(|ours, theirs| {
        after(ours, theirs, |found| {
            found.calls.ours.retain(|call| call.stands());
        })
    }));
    is_noticed(log_slip(|ours, theirs| {
        after(ours, theirs, |found| {
            for call in &mut found.calls.theirs {
                call.lines.truncate(1);
            }
        })
    }));
    is_noticed(log_slip(|ours, theirs| {
        after(ours, theirs, |found| {
            for call in &mut found.calls.ours {
                call.refused = None;
            }
        })
    }));
    is_noticed(log_slip(|ours, theirs| {
        after(ours, theirs, |found| found.slots.clear())
    }));
    is_noticed(log_slip(|ours, theirs| {
        after(ours, theirs, |found| found.readings.clear())
    }));
    is_noticed(log_slip(|ours, theirs| {
        after(ours, theirs, |found| found.calls = Pair::default())
    }));
}

const LOG: &str = "open 2024-05-01 1 30 1 0\ndelivery 0 1 5 0\ndelivery 0 1 6 0\ndelivery 0 2 7 0\ndelivery 0 1 6 0\n";

#[test]
fn a_log_by_hand() {
    let (five, six) = ([0, 1, 5, 0], [0, 1, 6, 0]);
    let log = Played::of(LOG.as_bytes()).unwrap();
    assert_eq!(log.accepted().len(), 3);
    assert_eq!(log.refused(Filling::Delivery(six)), Some((3, 10)));
    assert!(log.has_other_content(Filling::Delivery(five)));
    assert!(!log.has_other_content(Filling::Delivery([0, 2, 7, 0])));
    let empty = Played::of(b"open 2024-05-01 1 30 1 0\n").unwrap();
    let listed = log.alone(&empty);
    let lines: Vec<Vec<u64>> = listed.iter().map(|one| one.lines.clone()).collect();
    assert_eq!(lines, [vec![2], vec![4], vec![5]]);
    assert_eq!(
        log.without(Filling::Delivery(six)),
        b"open 2024-05-01 1 30 1 0\ndelivery 0 1 5 0\ndelivery 0 2 7 0\n"
    );
    assert_eq!(line(Filling::Register([1, 2, 3, 0])), "register 1 2 3 0");
}
