//! The program's verbs and their status.

use std::process::{Command, Output};

const VERBS: [&str; 14] = [
    "compare",
    "dials",
    "strips",
    "stays",
    "limits",
    "nem12",
    "simulate",
    "reach",
    "explain",
    "logs",
    "reconcile",
    "dates",
    "bench",
    "work",
];

fn crosscheck(words: &[&str]) -> Output {
    let mut command = Command::new(env!("CARGO_BIN_EXE_crosscheck"));
    command.args(words).output().unwrap()
}

fn status(words: &[&str]) -> Option<i32> {
    crosscheck(words).status.code()
}

#[test]
fn help_names_every_verb() {
    let help = crosscheck(&["--help"]);
    assert_eq!(help.status.code(), Some(0));
    let text = String::from_utf8(help.stdout).unwrap();
    let named = text
        .lines()
        .filter_map(|line| line.strip_prefix("crosscheck "));
    let named: Vec<&str> = named.filter_map(|line| line.split(' ').next()).collect();
    assert_eq!(named[1..], VERBS);
    for verb in VERBS {
        assert_eq!(status(&[verb, "--help"]), Some(0), "{verb}");
    }
}

#[test]
fn wrong_arguments_are_2_and_told() {
    let mut wrong = vec![vec![], vec!["compared"], vec!["dates", "one", "two"]];
    let verbs = VERBS.iter().filter(|&&verb| verb != "dates");
    wrong.extend(verbs.clone().map(|&verb| vec![verb, "--sead", "1"]));
    let seeded = verbs.filter(|&&verb| verb != "bench" && verb != "work");
    wrong.extend(seeded.clone().map(|&verb| vec![verb, "--seed"]));
    wrong.extend(seeded.map(|&verb| vec![verb, "--seed", "one"]));
    wrong.push(vec!["nem12", "--export", "export"]);
    wrong.push(vec!["dials", "--all", "--seed", "1"]);
    wrong.push(vec!["work", "read", "ordinary", "third", "1"]);
    for words in wrong {
        let output = crosscheck(&words);
        assert_eq!(output.status.code(), Some(2), "{words:?}");
        assert!(output.stdout.is_empty(), "{words:?}");
        assert!(!output.stderr.is_empty(), "{words:?}");
    }
}

#[test]
fn a_short_run_of_each_finds_no_difference() {
    let tried = [
        "dials",
        "strips",
        "stays",
        "limits",
        "nem12",
        "simulate",
        "reach",
        "logs",
        "reconcile",
    ];
    for verb in tried {
        let words = [
            verb, "--seed", "3", "--tries", "4", "--from", "5", "--trace",
        ];
        assert_eq!(status(&words), Some(0), "{verb}");
    }
    assert_eq!(
        status(&["compare", "--books", "3", "--damaged", "20"]),
        Some(0)
    );
    assert_eq!(status(&["explain", "--slots", "20"]), Some(0));
}

#[test]
fn work_tells_its_items() {
    for (call, items) in [
        ("read", "115200\n"),
        ("play", "115201\n"),
        ("deliver", "0\n"),
    ] {
        let output = crosscheck(&["work", call, "all agreed", "second", "1"]);
        assert_eq!(output.status.code(), Some(0), "{call}");
        assert_eq!(String::from_utf8(output.stdout).unwrap(), items, "{call}");
    }
}
