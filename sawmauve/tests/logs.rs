//! Logs that are none, and logs that say the same in other bytes.

mod common;

use common::*;
use std::fs;
use std::path::Path;

const OPEN: &str = "open 2024-05-01 1 30 1 0\n";

/// What is not a log: every verb of a log reports the same, and nothing goes to standard output.
#[track_caller]
fn none(log: impl AsRef<[u8]>, told: &str) {
    let folder = Folder::new();
    let path = folder.write("a.log", log);
    let path = path.to_str().unwrap();
    for words in [
        &["publish", path][..],
        &["answers", path],
        &["days", path],
        &["follow", path, "2024-05-01", "00:00"],
    ] {
        let output = run(words);
        ends(&output, 2, b"", &format!("sawmauve: {path}{told}\n"));
    }
}

#[test]
fn lines_that_are_no_call() {
    none(format!("{OPEN}hello\n"), ":2: not a call");
    none(
        format!("# a comment\n\n{OPEN}holiday 0\nDelivery 0 1 1 0\n"),
        ":5: not a call",
    );
    none(format!("{OPEN}holiday  0\n"), ":2: not a call");
    none(format!("{OPEN}holiday 0 \n"), ":2: not a call");
    none(
        format!("{OPEN}delivery 1 1 4294967296 0\n"),
        ":2: not a call",
    );
    none(format!("{OPEN}holiday {:0248}\n", 0), ":2: not a call");
    none(format!("{OPEN}holiday 0\0\n"), ":2: not a call");
    none(b"\xff\n", ":1: not a call");
}

#[test]
fn openings_and_tables() {
    let head = "refused 1: head outside its bounds";
    none(format!("holiday 0\n{OPEN}"), ":1: not a call");
    none(format!("{OPEN}{OPEN}"), ":2: not a call");
    none(
        format!("\nopen 2024-02-30 1 30 1 0\n{OPEN}"),
        &format!(":2: {head}"),
    );
    none(
        format!("\nlimits 40000\n{}", OPEN.replace("30 1 0", "30 2 0")),
        &format!(":3: {head}"),
    );
    none("# nothing\n", ": no opening");
    none("", ": no opening");
    none("limits 40000\n", ": no opening");
    let table = "refused 13: not a table of 1 to 24 rising demand limits up to 1,000,000";
    none(
        format!("limits 40000 40000\n{OPEN}"),
        &format!(":1: {table}"),
    );
    none(
        format!("limits 40000\nlimits 40000\n{OPEN}"),
        ":2: not a call",
    );
    none(format!("{OPEN}limits 40000\n"), ":2: not a call");
    none(format!("limits\n{OPEN}"), ":1: not a call");
    let many: String = (1..=25).map(|limit| format!(" {limit}")).collect();
    none(format!("limits{many}\n{OPEN}"), ":1: not a call");
}

#[test]
fn the_longest_line_and_the_largest_number() {
    let folder = Folder::new();
    let comment = "x".repeat(1000);
    let calls = "delivery 4294967295 1 0 0\ndelivery 0 1 0 4294967295\n";
    let log = folder.write(
        "a.log",
        format!("#{comment}\n{OPEN}holiday {:0247}\n{calls}", 0),
    );
    let output = run(&["answers", log.to_str().unwrap()]);
    ends(&output, 0, b"done\nstored\nrefused 3\nrefused 5\n", "");
}

/// The quiet day in other bytes: the same file, answers and way of a slot.
#[track_caller]
fn like(log: impl AsRef<[u8]>) {
    let folder = Folder::new();
    let path = folder.write("a.log", log);
    let path = path.to_str().unwrap();
    let read = |name: &str| fs::read(expected(name)).unwrap();
    ends(&run(&["publish", path]), 0, &read("quiet-day.file"), "");
    ends(&run(&["answers", path]), 0, &read("quiet-day.answers"), "");
    let way = |path: &Path| run(&["follow", path.to_str().unwrap(), "2024-05-01", "03:00"]);
    let published = |path: &Path| {
        let text = String::from_utf8(way(path).stdout).unwrap();
        assert!(text.contains(": delivery version "), "{text}");
        text.lines()
            .filter(|line| !line.starts_with("line "))
            .map(String::from)
            .collect::<Vec<_>>()
    };
    assert_eq!(
        published(path.as_ref()),
        published(&common::log("quiet-day"))
    );
}

#[test]
fn the_quiet_day_in_other_bytes() {
    let day = fs::read_to_string(log("quiet-day")).unwrap();
    let opening = day.lines().find(|line| line.starts_with("open")).unwrap();
    like(day.replace('\n', "\r\n"));
    like(day.trim_end());
    like(format!("limits 40000 70000\n{day}"));
    let third = day.replace(opening, "open 2024-05-01 1 30 2 0");
    like(format!("limits 1000 40000 1000000\n{third}"));
}

#[test]
fn several_mb() {
    let folder = Folder::new();
    let month = fs::read_to_string(log("month")).unwrap();
    let calls: String = month
        .lines()
        .filter(|line| !line.starts_with("open"))
        .map(|line| format!("{line}\n"))
        .collect();
    let path = folder.write("a.log", month.clone() + &calls.repeat(120));
    let path = path.to_str().unwrap();
    assert!(run(&["publish", path]).stdout == fs::read(expected("month.file")).unwrap());
    let answers = run(&["answers", path]).stdout;
    let lines = calls
        .lines()
        .filter(|line| line.starts_with(|c: char| c.is_ascii_lowercase()));
    assert_eq!(
        answers.split(|byte| *byte == b'\n').count() - 1,
        1 + 121 * lines.count()
    );
}
