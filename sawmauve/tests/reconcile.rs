//! `reconcile`: two logs side by side.

mod common;

use common::*;
use sawmauve::{Call, Log, Reconciliation, reconcile};
use std::fs;

const OPEN: &str = "open 2024-05-01 1 30 1 0\n";

fn found(ours: &str, theirs: &str) -> Reconciliation {
    let (ours, theirs) = (Log::read(ours.as_bytes()), Log::read(theirs.as_bytes()));
    reconcile(&ours.unwrap(), &theirs.unwrap()).unwrap()
}

/// Asserts what `reconcile` of two logs writes, and its status.
#[track_caller]
fn told(ours: &str, theirs: &str, status: i32, want: &str) {
    let folder = Folder::new();
    let (ours, theirs) = (
        folder.write("ours.log", ours),
        folder.write("theirs.log", theirs),
    );
    let output = run(&[
        "reconcile",
        ours.to_str().unwrap(),
        theirs.to_str().unwrap(),
    ]);
    ends(&output, status, want.as_bytes(), "");
}

const NOTHING: &str = "nothing to list: one head, the same accepted calls, equal files\n";

#[test]
fn the_same_calls_in_another_order() {
    let text = fs::read_to_string(log("drowned")).unwrap();
    told(&text, &text, 0, NOTHING);
    let day = fs::read_to_string(log("quiet-day")).unwrap();
    let (front, calls): (Vec<&str>, Vec<&str>) =
        day.lines().partition(|line| line.starts_with(['#', 'o']));
    let turned: Vec<&str> = front.into_iter().chain(calls.into_iter().rev()).collect();
    told(&day, &turned.join("\r\n"), 0, NOTHING);
    told(
        &day,
        &format!("{day}delivery 0 01 300 0\nregister 0 1 12345678 0\n"),
        0,
        NOTHING,
    );
}

#[test]
fn calls_of_each_kind() {
    let ours = format!(
        "{OPEN}holiday 0\ndelivery 0 1 5 0\ndelivery 0 2 6 0\n\ndelivery 0 1 5 0\nagreed 1 3 7\nregister 0 1 10 4\ndelivery 2 0 1 0\n"
    );
    let want = "\
accepted in ours alone: 5
  line 2: holiday, day 0, 2024-05-01: stands
  lines 3, 6: delivery, slot 0, 2024-05-01 00:00, version 1, 5 Wh, status 0: superseded by version 2
  line 4: delivery, slot 0, 2024-05-01 00:00, version 2, 6 Wh, status 0: stands
  line 7: agreed, slot 1, 2024-05-01 00:30, version 3, 7 Wh: stands
  line 8: register, boundary 0, 2024-05-01, version 1, reading 10, width 4: stands
moved:
2 slots 2024-05-01 00:00 to 2024-05-01 01:00: difference +13 Wh
  2024-05-01 00:00: ours 6 A 0, theirs 0 N 0
  2024-05-01 00:30: ours 7 F 5, theirs 0 N 0
day 2024-05-01: ours 13 Wh, theirs 0 Wh, difference +13 Wh
sum: ours 13 Wh, theirs 0 Wh, difference +13 Wh
other contents, equal outcomes:
  boundary 0, 2024-05-01: ours version 1, reading 10, width 4; theirs nothing came
";
    told(&ours, OPEN, 1, want);
    let output = found(OPEN, &ours);
    assert_eq!((output.calls.ours.len(), output.calls.theirs.len()), (0, 5));
}

#[test]
fn when_order_matters() {
    let (a, b) = ("delivery 9 1 5 0\n", "delivery 9 1 6 0\n");
    let want = "\
accepted in ours alone: 1
  line 2: delivery, slot 9, 2024-05-01 04:30, version 1, 5 Wh, status 0: stands
    theirs line 3: refused 10 at the highest version of its cell: order matters
accepted in theirs alone: 1
  line 2: delivery, slot 9, 2024-05-01 04:30, version 1, 6 Wh, status 0: stands
    ours line 3: refused 10 at the highest version of its cell: order matters
moved:
1 slot 2024-05-01 04:30 to 2024-05-01 05:00: difference -1 Wh
  2024-05-01 04:30: ours 5 A 0, theirs 6 A 0
day 2024-05-01: ours 5 Wh, theirs 6 Wh, difference -1 Wh
sum: ours 5 Wh, theirs 6 Wh, difference -1 Wh
";
    told(&format!("{OPEN}{a}{b}"), &format!("{OPEN}{b}{a}"), 1, want);
    let c = "delivery 9 2 7 0\n";
    let want = "\
accepted in ours alone: 1
  line 2: delivery, slot 9, 2024-05-01 04:30, version 1, 5 Wh, status 0: superseded by version 2
    theirs line 3: refused 10 below the highest version of its cell
accepted in theirs alone: 1
  line 2: delivery, slot 9, 2024-05-01 04:30, version 1, 6 Wh, status 0: superseded by version 2
    ours line 3: refused 10 below the highest version of its cell
moved: nothing, the files are equal
";
    told(
        &format!("{OPEN}{a}{b}{c}"),
        &format!("{OPEN}{b}{a}{c}"),
        1,
        want,
    );
    told(
        &format!("{OPEN}{a}{c}{b}"),
        &format!("{OPEN}{b}{c}{a}"),
        0,
        NOTHING,
    );
}

#[test]
fn behind_equal_outcomes() {
    let ours = format!("{OPEN}register 0 1 0\nregister 1 1 20\ndelivery 4 1 9 4\n");
    let theirs = format!("{OPEN}register 0 1 500\nregister 1 1 520\n");
    let want = "\
accepted in ours alone: 3
  line 2: register, boundary 0, 2024-05-01, version 1, reading 0, width 0: stands
  line 3: register, boundary 1, 2024-05-02, version 1, reading 20, width 0: stands
  line 4: delivery, slot 4, 2024-05-01 02:00, version 1, 9 Wh, status 4: stands
accepted in theirs alone: 2
  line 2: register, boundary 0, 2024-05-01, version 1, reading 500, width 0: stands
  line 3: register, boundary 1, 2024-05-02, version 1, reading 520, width 0: stands
moved: nothing, the files are equal
other contents, equal outcomes:
  slot 4, 2024-05-01 02:00: ours version 1, 9 Wh, status 4; theirs nothing came
  boundary 0, 2024-05-01: ours version 1, reading 0, width 0; theirs version 1, reading 500, width 0
  boundary 1, 2024-05-02: ours version 1, reading 20, width 0; theirs version 1, reading 520, width 0
";
    told(&ours, &theirs, 1, want);
}

#[test]
fn heads_that_differ() {
    let calls = "delivery 0 1 700 0\n";
    let ours = format!("limits 1000 2000\n{OPEN}{calls}");
    let theirs = format!("limits 1000 2000\nopen 2024-05-01 1 30 2 9\n{calls}");
    let want = "\
limit: ours 1000, theirs 2000
tolerance: ours 0, theirs 9
moved:
1 slot 2024-05-01 00:00 to 2024-05-01 00:30: difference -700 Wh
  2024-05-01 00:00: ours 0 N 0, theirs 700 A 0
day 2024-05-01: ours 0 Wh, theirs 700 Wh, difference -700 Wh
sum: ours 0 Wh, theirs 700 Wh, difference -700 Wh
";
    told(&ours, &theirs, 1, want);
    assert!(found(&ours, &theirs).has_same_calls());
    let want = "\
first day: ours 2024-05-01, theirs 2024-05-02
days: ours 1, theirs 2
interval: ours 30, theirs 15
the slots are other times: no more is compared
";
    told(
        &format!("{OPEN}{calls}"),
        "open 2024-05-02 2 15 1 0\n",
        1,
        want,
    );
}

#[test]
fn logs_turned_away() {
    let folder = Folder::new();
    let (good, bad) = (
        folder.write("good.log", OPEN),
        folder.write("bad.log", "x\n"),
    );
    let (good, bad) = (good.to_str().unwrap(), bad.to_str().unwrap());
    is_trouble(&run(&["reconcile", good, bad]), "bad.log:1: not a call");
    is_trouble(&run(&["reconcile", bad, good]), "bad.log:1: not a call");
    is_trouble(
        &run(&["reconcile", good, "none.log"]),
        "none.log: No such file or directory",
    );
    is_trouble(&run(&["reconcile", good]), "reconcile: wants two logs");
    is_trouble(
        &run(&["reconcile", "-", "-"]),
        "only one of the two can be standard input",
    );
    let output = run(&["reconcile", bad, bad]);
    assert_eq!(
        (
            output.status.code(),
            output.stderr.iter().filter(|byte| **byte == b'\n').count()
        ),
        (Some(2), 2)
    );
    ends(
        &shell(&format!("$S reconcile - {good} < {good}")),
        0,
        NOTHING.as_bytes(),
        "",
    );
}

/// A log without the lines of a call.
fn without(log: &str, call: Call) -> String {
    let lines = log
        .lines()
        .filter(|line| Call::read(line.as_bytes()) != Ok(Some(call)));
    lines.map(|line| format!("{line}\n")).collect()
}

#[test]
fn a_listed_call_taken_out_disappears() {
    let read =
        |name: &str| fs::read_to_string(home().join("../examples/two-offices").join(name)).unwrap();
    let (ours, theirs) = (read("ours.log"), read("theirs.log"));
    let listed = found(&ours, &theirs).calls.ours;
    assert_eq!(listed.len(), 5);
    for one in &listed {
        let left = found(&without(&ours, one.call), &theirs).calls;
        assert!(left.ours.iter().all(|other| other.call != one.call));
        let mut lines = (1..).zip(ours.lines());
        let (_, line) = lines.find(|(at, _)| *at == one.lines[0]).unwrap();
        let left = found(&ours, &format!("{theirs}{line}\n")).calls;
        let still = left.ours.iter().any(|other| other.call == one.call);
        assert_eq!(still, one.refused.is_some());
    }
}
