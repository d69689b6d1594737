//! The other verbs: good and bad use, with what the programs of the book wrote.

mod common;

use common::*;
use std::ffi::{OsStr, OsString};
use std::fs;
use std::path::Path;

/// A verb on a file or log, with words after it.
fn on(verb: &str, path: &Path, words: &[&str]) -> std::process::Output {
    let mut all = vec![OsString::from(verb), path.into()];
    all.extend(words.iter().map(OsString::from));
    run(&all)
}

fn file(name: &str) -> std::path::PathBuf {
    expected(&format!("{name}.file"))
}

#[test]
fn answers_days_and_lines_as_the_programs_wrote_them() {
    for name in SAMPLES {
        for verb in ["answers", "days"] {
            let want = fs::read(expected(&format!("{name}.{verb}"))).unwrap();
            ends(&on(verb, &log(name), &[]), 0, &want, "");
        }
        let want = fs::read(expected(&format!("{name}.line"))).unwrap();
        ends(&on("show", &file(name), &[]), 0, &want, "");
    }
}

#[test]
fn refused_calls_with_line_and_words() {
    let want = "line 56: refused 10: conflict: equal version, other content\n\
                line 58: refused 12: agreed value over 99,999,999\n";
    ends(
        &on("answers", &log("drowned"), &["--refused"]),
        0,
        want.as_bytes(),
        "",
    );
    ends(&on("answers", &log("wrap"), &["--refused"]), 0, b"", "");
}

#[test]
fn logs_that_are_none() {
    let folder = Folder::new();
    let bad = folder.write("a.log", "open 2024-05-01 1 30 1 0\n\nholiday  0\n");
    for (verb, words) in [
        ("answers", &[][..]),
        ("days", &[]),
        ("follow", &["2024-05-01", "00:00"]),
    ] {
        is_trouble(&on(verb, &bad, words), "a.log:3: not a call");
        is_trouble(
            &on(verb, &folder.path("none.log"), words),
            "none.log: No such file or directory",
        );
        is_trouble(&on(verb, &folder.0, words), "Is a directory");
        is_trouble(&run(&[verb]), &format!("{verb}: wants a log"));
    }
}

#[test]
fn follow_as_the_program_wrote_it() {
    for (name, log_name, date, time) in [
        ("month-partial", "month", "2024-05-23", "15:10"),
        ("month-morning", "month", "2024-05-11", "05:40"),
        ("drowned", "drowned", "2024-06-10", "18:10"),
    ] {
        let want = fs::read(expected(&format!("{name}.follow"))).unwrap();
        ends(&on("follow", &log(log_name), &[date, time]), 0, &want, "");
    }
}

#[test]
fn follow_of_no_slot() {
    let month = log("month");
    is_trouble(
        &on("follow", &month, &["2024-04-30", "05:00"]),
        "no slot of this log",
    );
    is_trouble(
        &on("follow", &month, &["2024-06-01", "00:00"]),
        "no slot of this log",
    );
    for words in [
        &["2024-05-03"][..],
        &["2024-05-03", "24:00"],
        &["2024-05-03", "5:00"],
        &["2024-02-30", "05:00"],
        &["2024-05-03", "05:00", "05:30"],
    ] {
        is_trouble(&on("follow", &month, words), "a date and a time of day");
    }
}

const SHORT: &str = "refused 8: length, distance, head or layout of the file wrong\n";
const BROKEN: &str = "refused 9: a record, count or sum of the file broken\n";

#[test]
fn several_files_and_a_refused_one() {
    let folder = Folder::new();
    let mut bytes = fs::read(file("wrap")).unwrap();
    folder.write("a", &bytes);
    folder.write("b", "");
    bytes[0] ^= 1;
    folder.write("c", bytes);
    let show = format!("cd {}; $S show", folder.0.display());
    let want = format!(
        "a: 2024-12-31 1 30 48 0 0 25\nb: {SHORT}c: {BROKEN}a: 2024-12-31 1 30 48 0 0 25\n"
    );
    ends(&shell(&format!("{show} a b c a")), 1, want.as_bytes(), "");
    let err = "sawmauve: none: No such file or directory\n";
    ends(
        &shell(&format!("{show} a b none c a")),
        2,
        want.as_bytes(),
        err,
    );
    ends(&shell(&format!("{show} b")), 1, SHORT.as_bytes(), "");
    ends(
        &shell(&format!("{show} /dev/zero")),
        1,
        SHORT.as_bytes(),
        "",
    );
    is_trouble(&run(&["show"]), "wants a file");
    is_trouble(&on("show", &folder.0, &[]), "Is a directory");
}

#[test]
fn tables_as_csv() {
    let month = file("month");
    let slots = String::from_utf8(on("show", &month, &["--slots"]).stdout).unwrap();
    let lines: Vec<&str> = slots.lines().collect();
    assert_eq!(
        (lines.len(), lines[0]),
        (1 + 48 * 31, "date,time,Wh,quality,method")
    );
    assert_eq!(
        (lines[1 + 1086], lines[1 + 491]),
        ("2024-05-23,15:00,459,S,18", "2024-05-11,05:30,269,S,19")
    );
    let spans = String::from_utf8(on("show", &month, &["--spans"]).stdout).unwrap();
    assert!(spans.starts_with("from,until,lowest,highest,state\n"));
    assert!(
        spans.contains("2024-05-22,2024-06-01,250266,250266,scaled\n"),
        "{spans}"
    );
    let two = [
        OsStr::new("show"),
        OsStr::new("--spans"),
        month.as_os_str(),
        month.as_os_str(),
    ];
    let both = String::from_utf8(run(&two).stdout).unwrap();
    assert!(both.starts_with("file,from,until,lowest,highest,state\n"));
    is_trouble(
        &on("show", &month, &["--slots", "--spans"]),
        "exclude each other",
    );
    let output = shell("printf x | $S show --slots -");
    assert_eq!(output.status.code(), Some(1));
    assert!(
        output
            .stderr
            .starts_with(b"sawmauve: standard input: refused 8: ")
    );
}

#[test]
fn stays_by_dates() {
    let month = file("month");
    let words = ["2024-05-01", "2024-05-02", "2024-05-01", "2024-06-01"];
    let want = b"2024-05-01 2024-05-01 25020\n2024-05-01 2024-05-31 773038\n";
    ends(&on("stays", &month, &words), 0, want, "");
    ends(&on("stays", &month, &[]), 0, b"", "");
    let same = ["2024-05-02", "2024-05-02"];
    is_trouble(
        &on("stays", &month, &same),
        "refused 19: a stay that does not begin before it ends",
    );
    is_trouble(
        &on("stays", &month, &["2024-05-02"]),
        "two dates for each stay",
    );
    is_trouble(
        &on("stays", &month, &["2024-04-30", "2024-05-02"]),
        "2024-04-30: outside the file's days",
    );
    is_trouble(
        &on("stays", &month, &["2024-05-01", "2024-06-02"]),
        "2024-06-02: outside the file's days",
    );
    is_trouble(
        &on("stays", &month, &["2024-05-01", "2024-05-32"]),
        "2024-05-32: not a date",
    );
    is_trouble(
        &on("stays", &month, &["2024-05-01", "2024-05-02"].repeat(65)),
        "refused 18: more than 64 stays",
    );
    is_trouble(&run(&["stays"]), "wants a file and stays");
    let output = shell("printf x | $S stays - 2024-05-01 2024-05-02");
    let err =
        "sawmauve: standard input: refused 8: length, distance, head or layout of the file wrong\n";
    ends(&output, 1, b"", err);
}

#[test]
fn a_stay_that_ends_with_the_century() {
    let line = "printf 'open 2099-12-31 1 30 1 0\\ndelivery 0 1 7 0\\n' | $S publish - | $S stays - 2099-12-31 2100-01-01";
    ends(&shell(line), 0, b"2099-12-31 2099-12-31 7\n", "");
}

fn export(path: &Path, fields: &[(&str, &str)], more: &[&str]) -> std::process::Output {
    let options: Vec<String> = fields
        .iter()
        .map(|(name, value)| format!("--{name}={value}"))
        .collect();
    let mut words: Vec<&str> = options.iter().map(String::as_str).collect();
    words.extend(more);
    on("nem12", path, &words)
}

#[test]
fn nem12_as_the_program_wrote_it() {
    let folder = Folder::new();
    let lines: String = FIELDS
        .iter()
        .map(|(name, value)| format!("  {name} =  {value} \n"))
        .collect();
    let office = folder.write("office", format!("# an office\n\n{lines}"));
    let office = office.to_str().unwrap();
    for name in SAMPLES {
        let want = fs::read(expected(&format!("{name}.csv"))).unwrap();
        ends(&export(&file(name), &FIELDS, &[]), 0, &want, "");
        ends(
            &on("nem12", &file(name), &["--fields", office]),
            0,
            &want,
            "",
        );
    }
    let output = on(
        "nem12",
        &file("wrap"),
        &["--fields", office, "--nmi", "NABCDEFGHJ"],
    );
    assert!(
        String::from_utf8(output.stdout)
            .unwrap()
            .contains("\n200,NABCDEFGHJ,")
    );
}

#[test]
fn nem12_turned_away() {
    let folder = Folder::new();
    let wrap = file("wrap");
    let with = |name: &str, value: &'static str| {
        let fields = FIELDS.map(|field| {
            if field.0 == name {
                (field.0, value)
            } else {
                field
            }
        });
        export(&wrap, &fields, &[])
    };
    is_trouble(&with("nmi", "612345678O"), "refused 14: identifier");
    is_trouble(&with("from", "A,B"), "refused 15: text with a comma");
    is_trouble(&with("created", "20240602"), "refused 15: ");
    is_trouble(&with("method-5", "100"), "refused 15: ");
    is_trouble(&with("method-5", "x"), "x: --method-5 wants a number");
    is_trouble(&export(&wrap, &FIELDS[2..], &[]), "missing: nmi, from");
    let office = folder.write("office", "nmi = 6123456789\nname = x\n");
    let office = office.to_str().unwrap();
    is_trouble(
        &on("nem12", &wrap, &["--fields", office]),
        "office:2: no field of nem12",
    );
    fs::write(office, "nmi = 1\nnmi = 2\n").unwrap();
    is_trouble(
        &on("nem12", &wrap, &["--fields", office]),
        "office:2: a field that stands twice",
    );
    fs::write(office, "nmi\n").unwrap();
    is_trouble(
        &on("nem12", &wrap, &["--fields", office]),
        "office:1: not `name = value`",
    );
    let short = folder.write("short.file", "x");
    let output = export(&short, &FIELDS, &[]);
    assert_eq!(output.status.code(), Some(1));
    assert!(output.stdout.is_empty());
}

const RUN: &str =
    "$S simulate --first 2024-05-01 --days 31 --interval 30 --limit 40000 --tolerance 500";

#[test]
fn simulate_as_the_program_wrote_it() {
    let want = b"open -77664 -0.5%\n";
    ends(&shell(&format!("{RUN} --seed 3 --loss 200")), 0, want, "");
    let losses = "0,1,10,50,100,200,300,400,500,700,900,1000";
    let table = fs::read(expected("losses.md")).unwrap();
    ends(
        &shell(&format!("{RUN} --seeds 1,2,3 --losses {losses}")),
        0,
        &table,
        "",
    );
}

#[test]
fn simulate_turned_away() {
    is_trouble(
        &shell(&format!("{RUN} --seed 0 --loss 1")),
        "refused 20: a seed of 0",
    );
    is_trouble(
        &shell(&format!("{RUN} --seed 1 --loss 1001")),
        "refused 21: a loss rate over 1000",
    );
    is_trouble(
        &shell(&format!("{RUN} --seed 1 --losses 1,,2")),
        "--losses wants numbers",
    );
    is_trouble(&shell(&format!("{RUN} --seed 1")), "--loss is missing");
    is_trouble(
        &shell(&format!("{RUN} --seed 1 --seeds 1 --loss 1")),
        "exclude each other",
    );
    is_trouble(
        &shell(&format!("{RUN} --seed 1 --loss 1 x")),
        "takes options alone",
    );
    let day = RUN.replace("2024-05-01", "2024-02-30");
    is_trouble(
        &shell(&format!("{day} --seed 1 --loss 1")),
        "refused 1: head outside its bounds",
    );
    let days = RUN.replace("--days 31", "--days 4000000000");
    is_trouble(
        &shell(&format!("{days} --seed 1 --loss 1")),
        "refused 1: head outside its bounds",
    );
}

#[test]
fn strips_and_back() {
    for name in SAMPLES {
        let path = file(name);
        let line = format!("$S strips {} | $S unstrips - --interval 30", path.display());
        let file = fs::read(&path).unwrap();
        let slots = if name == "month" { 1488 } else { 48 };
        ends(&shell(&line), 0, &file[..6 * slots], "");
    }
    is_trouble(
        &shell("printf x | $S unstrips - --interval 30"),
        "refused 22: not 6 bytes a slot",
    );
    is_trouble(
        &shell("printf x | $S unstrips - --interval 31"),
        "refused 1: ",
    );
    is_trouble(&shell("printf x | $S unstrips -"), "--interval is missing");
    assert_eq!(shell("printf x | $S strips -").status.code(), Some(1));
}

#[test]
fn helps_and_the_version() {
    let verbs = [
        "publish",
        "answers",
        "show",
        "days",
        "follow",
        "stays",
        "nem12",
        "simulate",
        "strips",
        "unstrips",
        "compare",
        "reconcile",
    ];
    let whole = String::from_utf8(run(&["--help"]).stdout).unwrap();
    for verb in verbs {
        let output = run(&[verb, "--help"]);
        let text = String::from_utf8(output.stdout).unwrap();
        assert!(
            text.starts_with(&format!("Usage: sawmauve {verb} ")),
            "{text}"
        );
        assert_eq!((output.status.code(), output.stderr.len()), (Some(0), 0));
        assert!(whole.contains(&format!("\n  {verb} ")), "{whole}");
        assert!(!text.contains("\n--") && !text.contains("\n-o"), "{text}");
        assert!(text.lines().all(|line| line.len() <= 110), "{text}");
        is_trouble(
            &run(&[verb, "--nothing"]),
            &format!("--nothing: no option of {verb}"),
        );
    }
    let version = String::from_utf8(run(&["--version"]).stdout).unwrap();
    assert!(
        version.starts_with("sawmauve 0.3.0 (") && version.len() > 20,
        "{version}"
    );
    is_trouble(&run::<&str>(&[]), "a verb is missing");
    is_trouble(&run(&["publsih"]), "publsih: no verb");
}
