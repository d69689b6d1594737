//! `compare`: files and folders side by side.

mod common;

use common::*;
use sawmauve::{Book, File, Head, Lacks, Log, compare};
use std::fs;
use std::path::{Path, PathBuf};
use std::process::Output;

/// `compare` of two names, with options after them.
fn compared(ours: impl AsRef<Path>, theirs: impl AsRef<Path>, options: &[&str]) -> Output {
    let names = [ours.as_ref(), theirs.as_ref()].map(|path| path.to_str().unwrap());
    run(&[&["compare"], &names[..], options].concat())
}

fn file(name: &str) -> PathBuf {
    expected(&format!("{name}.file"))
}

/// The file of a log.
fn published(log: &str) -> Vec<u8> {
    let played = Log::read(log.as_bytes()).unwrap().play().unwrap();
    played.book.publish().unwrap()
}

/// A sample log with a line put in place of another.
fn changed(name: &str, line: &str, other: &str) -> String {
    let text = fs::read_to_string(log(name)).unwrap();
    assert!(text.contains(line), "{line}");
    text.replacen(line, other, 1)
}

const OPEN: &str = "open 2024-05-01 2 30 1 0\n";

#[test]
fn equal_files_in_one_line() {
    let none = "slots missing 0, spans open 0, disagreeing 0";
    let want = format!("equal: 2024-12-31 1 30 48 0 0 25; {none}\n");
    let wrap = file("wrap");
    ends(&compared(&wrap, &wrap, &[]), 0, want.as_bytes(), "");
    ends(
        &compared(&wrap, &wrap, &["--complete"]),
        0,
        want.as_bytes(),
        "",
    );
    let want =
        "equal: 2024-05-01 31 30 1468 15 5 773038; slots missing 5, spans open 1, disagreeing 0\n";
    let month = file("month");
    ends(&compared(&month, &month, &[]), 0, want.as_bytes(), "");
    ends(
        &compared(&month, &month, &["--complete"]),
        1,
        want.as_bytes(),
        "",
    );
    let line = format!("$S compare - {0} < {0}", month.display());
    ends(&shell(&line), 0, want.as_bytes(), "");
}

#[test]
fn a_disagreeing_span_is_not_complete() {
    let folder = Folder::new();
    let log = changed("wrap", "register 1 1 15", "register 1 1 16");
    let path = folder.write("a.file", published(&log));
    let want = "equal: 2024-12-31 1 30 48 0 0 25; slots missing 0, spans open 0, disagreeing 1\n";
    ends(&compared(&path, &path, &[]), 0, want.as_bytes(), "");
    ends(
        &compared(&path, &path, &["--complete"]),
        1,
        want.as_bytes(),
        "",
    );
}

/// The two files of `slots_spans_and_sums` as CSV.
const SHEET: &str = "\
what,from,until,ours,ours highest,ours quality or state,ours method,\
theirs,theirs highest,theirs quality or state,theirs method,difference Wh
span,2024-05-01,2024-05-02,,,,,10,13,open,,
span,2024-05-01,2024-05-03,20,20,open,,,,,,
run,2024-05-01 23:30,2024-05-02 00:30,11,,,,9,,,,2
slot,2024-05-01 23:30,2024-05-02 00:00,5,,A,0,9,,A,0,-4
slot,2024-05-02 00:00,2024-05-02 00:30,6,,A,0,0,,N,0,6
day,2024-05-01,2024-05-02,12,,,,16,,,,-4
day,2024-05-02,2024-05-03,6,,,,0,,,,6
sum,,,18,,,,16,,,,2
";

#[test]
fn slots_spans_and_sums() {
    let folder = Folder::new();
    let ours = format!(
        "{OPEN}delivery 46 1 7 0\ndelivery 47 1 5 0\ndelivery 48 1 6 0\nregister 0 1 10\nregister 2 1 30\n"
    );
    let theirs =
        format!("{OPEN}delivery 46 1 7 0\ndelivery 47 1 9 0\nregister 0 1 10\nregister 1 1 20 3\n");
    let ours = folder.write("ours.file", published(&ours));
    let theirs = folder.write("theirs.file", published(&theirs));
    let want = "\
span 2024-05-01 to 2024-05-02: advance ours none, theirs 10 to 13 open
span 2024-05-01 to 2024-05-03: advance ours 20 to 20 open, theirs none
2 slots 2024-05-01 23:30 to 2024-05-02 00:30: difference +2 Wh
  2024-05-01 23:30: ours 5 A 0, theirs 9 A 0
  2024-05-02 00:00: ours 6 A 0, theirs 0 N 0
day 2024-05-01: ours 12 Wh, theirs 16 Wh, difference -4 Wh
day 2024-05-02: ours 6 Wh, theirs 0 Wh, difference +6 Wh
sum: ours 18 Wh, theirs 16 Wh, difference +2 Wh
";
    ends(&compared(&ours, &theirs, &[]), 1, want.as_bytes(), "");
    let want = SHEET;
    ends(
        &compared(&ours, &theirs, &["--csv"]),
        1,
        want.as_bytes(),
        "",
    );
    let header = format!("{}\n", want.lines().next().unwrap());
    ends(
        &compared(&ours, &ours, &["--csv"]),
        0,
        header.as_bytes(),
        "",
    );
}

#[test]
fn other_times() {
    let folder = Folder::new();
    let ours = folder.write(
        "ours.file",
        published("open 2099-12-31 1 30 1 0\ndelivery 0 1 5 0\n"),
    );
    let theirs = folder.write(
        "theirs.file",
        published("open 2099-12-30 2 15 1 0\ndelivery 0 1 7 0\n"),
    );
    let want = "\
first day: ours 2099-12-31, theirs 2099-12-30
days: ours 1, theirs 2
interval: ours 30, theirs 15
the slots are other times: no more is compared
sum: ours 5 Wh, theirs 7 Wh, difference -2 Wh
";
    ends(&compared(&ours, &theirs, &[]), 1, want.as_bytes(), "");
    let csv = compared(&ours, &theirs, &["--csv"]).stdout;
    let rows = String::from_utf8(csv).unwrap();
    let rows: Vec<&str> = rows.lines().skip(1).collect();
    assert_eq!(rows[0], "first day,,,2099-12-31,,,,2099-12-30,,,,");
    assert_eq!(rows[3], "sum,,,5,,,,7,,,,-2");
}

#[test]
fn a_layout_alone() {
    let folder = Folder::new();
    let mut bytes = published("open 2024-05-01 1 30 1 0\n");
    let ours = folder.write("ours.file", &bytes);
    let at = bytes.len() - 27;
    bytes[at] = 1;
    let theirs = folder.write("theirs.file", bytes);
    let want = "layout: ours 3, theirs 1\nsum: ours 0 Wh, theirs 0 Wh, difference 0 Wh\n";
    ends(&compared(&ours, &theirs, &[]), 1, want.as_bytes(), "");
}

#[test]
fn the_last_slot_of_the_century() {
    let folder = Folder::new();
    let ours = folder.write(
        "ours.file",
        published("open 2099-12-31 1 30 1 0\ndelivery 47 1 5 0\n"),
    );
    let theirs = folder.write("theirs.file", published("open 2099-12-31 1 30 1 0\n"));
    let output = compared(&ours, &theirs, &[]);
    let text = String::from_utf8(output.stdout).unwrap();
    assert!(
        text.starts_with("1 slot 2099-12-31 23:30 to 2100-01-01 00:00: difference +5 Wh\n"),
        "{text}"
    );
}

#[test]
fn files_turned_away() {
    let folder = Folder::new();
    let (wrap, short) = (file("wrap"), folder.write("short.file", "x"));
    let none = folder.path("none.file");
    let refused = "short.file: refused 8: length, distance, head or layout of the file wrong";
    is_trouble(&compared(&wrap, &short, &[]), refused);
    is_trouble(&compared(&short, &wrap, &[]), refused);
    is_trouble(
        &compared(&wrap, &none, &[]),
        "none.file: No such file or directory",
    );
    let output = compared(&short, &none, &[]);
    let err = String::from_utf8(output.stderr).unwrap();
    assert_eq!(
        (output.status.code(), err.lines().count()),
        (Some(2), 2),
        "{err}"
    );
    let usage = "compare: wants two files or two folders";
    is_trouble(&compared(&wrap, &folder.0, &[]), usage);
    is_trouble(&run(&["compare", "a.file"]), usage);
    is_trouble(
        &run(&["compare", "-", "-"]),
        "only one of the two can be standard input",
    );
}

/// Two folders with a meter of each kind.
fn two_folders() -> (Folder, PathBuf, PathBuf) {
    let folder = Folder::new();
    let (ours, theirs) = (folder.path("ours"), folder.path("theirs"));
    fs::create_dir(&ours).unwrap();
    fs::create_dir(&theirs).unwrap();
    let put = |name: &str, ours_bytes: &[u8], theirs_bytes: &[u8]| {
        fs::write(ours.join(name), ours_bytes).unwrap();
        fs::write(theirs.join(name), theirs_bytes).unwrap();
    };
    let read = |name| fs::read(file(name)).unwrap();
    put("a.file", &read("wrap"), &read("wrap"));
    put("b.file", &read("month"), &read("month"));
    put("c.file", &read("fogged"), &read("quiet-day"));
    put("note.txt", b"x", b"y");
    (folder, ours, theirs)
}

const EQUAL: &str = "\
a.file: equal; slots missing 0, spans open 0, disagreeing 0
b.file: equal; slots missing 5, spans open 1, disagreeing 0
";

#[test]
fn folders_by_name() {
    let (_folder, ours, theirs) = two_folders();
    let last = "only here, 0 only there, 0 refused, 0 not read\n";
    let want = format!("{EQUAL}c.file: differs by -50 Wh\n3 meters: 2 equal, 1 differ, 0 {last}");
    ends(&compared(&ours, &theirs, &[]), 1, want.as_bytes(), "");
    let csv = "\
meter,result,ours Wh,theirs Wh,difference Wh,missing slots,open spans,disagreeing spans
a.file,equal,,,,0,0,0
b.file,equal,,,,5,1,0
c.file,differs,24970,25020,-50,,,
";
    ends(&compared(&ours, &theirs, &["--csv"]), 1, csv.as_bytes(), "");
    fs::remove_file(ours.join("c.file")).unwrap();
    let want = format!(
        "{EQUAL}c.file: only there\n3 meters: 2 equal, 0 differ, 0 only here, 1 only there, 0 refused, 0 not read\n"
    );
    ends(&compared(&ours, &theirs, &[]), 1, want.as_bytes(), "");
    fs::remove_file(theirs.join("c.file")).unwrap();
    let want = format!("{EQUAL}2 meters: 2 equal, 0 differ, 0 {last}");
    ends(&compared(&ours, &theirs, &[]), 0, want.as_bytes(), "");
    ends(
        &compared(&ours, &theirs, &["--complete"]),
        1,
        want.as_bytes(),
        "",
    );
}

#[test]
fn names_of_any_bytes() {
    let folder = Folder::new();
    let wrap = fs::read(file("wrap")).unwrap();
    folder.write("a,b.file", &wrap);
    folder.write("c\n.file", wrap);
    let csv = String::from_utf8(compared(&folder.0, &folder.0, &["--csv"]).stdout).unwrap();
    assert!(csv.contains("\n\"a,b.file\",equal,,,,0,0,0\n"), "{csv}");
    let lines = String::from_utf8(compared(&folder.0, &folder.0, &[]).stdout).unwrap();
    assert!(lines.contains("\nc?.file: equal; "), "{lines}");
}

#[test]
fn folders_in_trouble() {
    let (folder, ours, theirs) = two_folders();
    fs::write(ours.join("c.file"), "x").unwrap();
    let refused = "refused 8: length, distance, head or layout of the file wrong";
    let counts = "3 meters: 2 equal, 0 differ, 0 only here, 0 only there,";
    let want = format!("{EQUAL}c.file: ours {refused}\n{counts} 1 refused, 0 not read\n");
    ends(&compared(&ours, &theirs, &[]), 2, want.as_bytes(), "");
    fs::write(theirs.join("c.file"), "x").unwrap();
    let want = format!(
        "{EQUAL}c.file: ours {refused}, theirs {refused}\n{counts} 1 refused, 0 not read\n"
    );
    ends(&compared(&ours, &theirs, &[]), 2, want.as_bytes(), "");
    fs::remove_file(theirs.join("c.file")).unwrap();
    fs::create_dir(theirs.join("c.file")).unwrap();
    let want = format!("{EQUAL}c.file: not read\n{counts} 0 refused, 1 not read\n");
    let err = format!(
        "sawmauve: {}: Is a directory\n",
        theirs.join("c.file").display()
    );
    ends(&compared(&ours, &theirs, &[]), 2, want.as_bytes(), &err);
    let empty = folder.path("empty");
    fs::create_dir(&empty).unwrap();
    let zeros = "0 meters: 0 equal, 0 differ, 0 only here, 0 only there, 0 refused, 0 not read\n";
    let err = "sawmauve: no two files were compared\n";
    ends(&compared(&empty, &empty, &[]), 2, zeros.as_bytes(), err);
    assert_eq!(compared(&ours, &empty, &[]).status.code(), Some(2));
}

/// Every single bit of a file changed: where the reader still accepts it, something is listed.
#[test]
fn nothing_is_listed_exactly_where_the_bytes_are_equal() {
    let bytes = published(&changed("drowned", "register 1 1", "register 1 2"));
    let good = File::read(bytes.clone()).unwrap();
    assert!(compare(&good, &good).is_empty());
    let mut accepted = 0;
    for at in 0..bytes.len() {
        for bit in 0..8 {
            let mut other = bytes.clone();
            other[at] ^= 1 << bit;
            let Ok(other) = File::read(other) else {
                continue;
            };
            accepted += 1;
            assert!(!compare(&good, &other).is_empty(), "byte {at}, bit {bit}");
        }
    }
    assert!(accepted > 0);
}

#[test]
fn values_of_the_library() {
    let head = Head {
        year: 2024,
        month: 5,
        day: 1,
        days: 1,
        interval: 30,
        limit: 40_000,
        tolerance: 0,
    };
    let mut book = Book::open(head).unwrap();
    let empty = File::read(book.publish().unwrap()).unwrap();
    book.deliver(3, 1, 7, 0).unwrap();
    let one = File::read(book.publish().unwrap()).unwrap();
    let found = compare(&one, &empty);
    assert_eq!(
        (found.runs.len(), found.days.len(), found.spans.len()),
        (1, 1, 0)
    );
    assert_eq!((found.runs[0].first, found.runs[0].until()), (3, 4));
    assert_eq!(
        (found.sums().difference(), found.runs[0].sums().difference()),
        (7, 7)
    );
    assert_eq!(compare(&empty, &one).sums().difference(), -7);
    assert_eq!(Lacks::of(&one).missing, 47);
}
