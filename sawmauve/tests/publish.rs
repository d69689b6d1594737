//! `publish`: good and bad use, one log and many.

mod common;

use common::*;
use std::ffi::{OsStr, OsString};
use std::fs::{self, Permissions};
use std::os::unix::ffi::{OsStrExt, OsStringExt};
use std::os::unix::fs::{PermissionsExt, symlink};

const OPEN: &str = "open 2024-05-01 1 30 1 0\n";

#[test]
fn the_samples_as_the_program_wrote_them() {
    for name in SAMPLES {
        let output = run(&[OsStr::new("publish"), log(name).as_os_str()]);
        assert_eq!(output.status.code(), Some(0));
        assert!(
            output.stdout == fs::read(expected(&format!("{name}.file"))).unwrap(),
            "{name}"
        );
    }
}

#[test]
fn refused_calls_are_counted() {
    let line = |name: &str| {
        let output = shell(&format!("$S publish ../examples/{name}.log > /dev/null"));
        String::from_utf8(output.stderr).unwrap()
    };
    assert_eq!(line("quiet-day"), "");
    assert_eq!(
        line("month"),
        "sawmauve: ../examples/month.log: 9 refused, 2 of them conflicts (10)\n"
    );
    assert_eq!(
        line("drowned"),
        "sawmauve: ../examples/drowned.log: 2 refused, 1 of them a conflict (10)\n"
    );
    let output =
        shell("printf 'open 2024-05-01 1 30 1 0\\nholiday 9\\n' | $S publish - > /dev/null");
    let err = "sawmauve: standard input: 1 refused, none of them a conflict (10)\n";
    ends(&output, 0, b"", err);
}

#[test]
fn a_file_takes_the_place_of_the_old_one() {
    let folder = Folder::new();
    let file = folder.write("a.file", "old");
    let output = run(&[
        OsStr::new("publish"),
        log("wrap").as_os_str(),
        OsStr::new("-o"),
        file.as_os_str(),
    ]);
    ends(&output, 0, b"", "");
    assert!(fs::read(&file).unwrap() == fs::read(expected("wrap.file")).unwrap());
    assert_eq!(folder.names(), ["a.file"]);
    let output = shell(&format!(
        "cd {}; $S publish - -o b.file < {}",
        folder.0.display(),
        log("wrap").display()
    ));
    ends(&output, 0, b"", "");
    assert_eq!(folder.names(), ["a.file", "b.file"]);
}

#[test]
fn the_permissions_of_the_old_file_stay() {
    let folder = Folder::new();
    let file = folder.write("a.file", "old");
    fs::set_permissions(&file, Permissions::from_mode(0o640)).unwrap();
    let output = shell(&format!(
        "$S publish ../examples/wrap.log -o {}",
        file.display()
    ));
    ends(&output, 0, b"", "");
    assert_eq!(
        fs::metadata(&file).unwrap().permissions().mode() & 0o777,
        0o640
    );
}

#[test]
fn a_link_stays_and_what_it_leads_to_is_replaced() {
    let folder = Folder::new();
    let file = folder.write("real.file", "old");
    let link = folder.path("link.file");
    symlink(&file, &link).unwrap();
    let output = run(&[
        OsStr::new("publish"),
        log("wrap").as_os_str(),
        OsStr::new("-o"),
        link.as_os_str(),
    ]);
    ends(&output, 0, b"", "");
    assert!(fs::symlink_metadata(&link).unwrap().is_symlink());
    assert!(fs::read(&file).unwrap() == fs::read(expected("wrap.file")).unwrap());
}

#[test]
fn a_bad_log_leaves_the_old_file() {
    let folder = Folder::new();
    let file = folder.write("a.file", "old");
    for (text, line) in [
        (format!("{OPEN}hello\n"), ":2: not a call"),
        (format!("holiday 0\n{OPEN}"), ":1: not a call"),
        (format!("{OPEN}{OPEN}"), ":2: not a call"),
        (
            format!("\nopen 2024-02-30 1 30 1 0\n{OPEN}"),
            ":2: refused 1: head outside its bounds",
        ),
        (format!("limits 4 4\n{OPEN}"), ":1: refused 13: not a table"),
        ("# nothing\n".to_string(), ": no opening"),
        (String::new(), ": no opening"),
    ] {
        let log = folder.write("a.log", text);
        let output = run(&[
            OsStr::new("publish"),
            log.as_os_str(),
            OsStr::new("-o"),
            file.as_os_str(),
        ]);
        is_trouble(&output, &format!("a.log{line}"));
        assert_eq!(fs::read(&file).unwrap(), b"old");
    }
    assert_eq!(folder.names(), ["a.file", "a.log"]);
}

#[test]
fn strict_writes_no_file_of_a_log_with_a_refused_call() {
    let folder = Folder::new();
    let file = folder.path("a.file");
    let publish = |name: &str| {
        let log = log(name);
        run(&[
            OsStr::new("publish"),
            OsStr::new("--strict"),
            log.as_os_str(),
            OsStr::new("-o"),
            file.as_os_str(),
        ])
    };
    let output = publish("month");
    assert_eq!(output.status.code(), Some(1));
    assert!(
        output
            .stderr
            .ends_with(b"9 refused, 2 of them conflicts (10)\n")
    );
    assert!(folder.names().is_empty());
    ends(&publish("wrap"), 0, b"", "");
    assert_eq!(folder.names(), ["a.file"]);
    let many = Folder::new();
    let output = shell(&format!(
        "$S publish --strict ../examples -d {}",
        many.0.display()
    ));
    assert_eq!(output.status.code(), Some(1));
    assert_eq!(
        many.names(),
        ["fogged.file", "marina.file", "quiet-day.file", "wrap.file"]
    );
}

#[test]
fn many_logs_and_a_folder_of_them() {
    let folder = Folder::new();
    for jobs in ["1", "2", "9"] {
        let mut words: Vec<OsString> =
            ["publish", "-d", folder.0.to_str().unwrap(), "--jobs", jobs]
                .map(OsString::from)
                .to_vec();
        words.push(home().join("../examples").into());
        let output = run(&words);
        assert_eq!(output.status.code(), Some(0));
        let err = String::from_utf8(output.stderr).unwrap();
        let lines: Vec<&str> = err.lines().collect();
        assert!(
            lines.len() == 2 && lines[0].contains("drowned.log: 2 refused"),
            "{err}"
        );
        assert!(lines[1].contains("month.log: 9 refused"), "{err}");
        for name in SAMPLES {
            let file = folder.path(format!("{name}.file"));
            assert!(
                fs::read(&file).unwrap() == fs::read(expected(&format!("{name}.file"))).unwrap()
            );
            fs::remove_file(file).unwrap();
        }
        assert!(folder.names().is_empty());
    }
}

#[test]
fn a_bad_one_of_many_is_named_and_the_others_are_published() {
    let (logs, out) = (Folder::new(), Folder::new());
    logs.write("a.log", OPEN);
    logs.write("b.log", "hello\n");
    logs.write("c.log", format!("{OPEN}holiday 7\n"));
    logs.write("d.log", OPEN);
    fs::create_dir(logs.path("e.log")).unwrap();
    let publish = |more: &str| {
        let line = format!(
            "$S publish -d {} {more} {}",
            out.0.display(),
            logs.0.display()
        );
        let output = shell(&line);
        assert_eq!(output.status.code(), Some(2));
        String::from_utf8(output.stderr).unwrap()
    };
    let at = logs.0.display();
    let refused = format!("sawmauve: {at}/c.log: 1 refused, none of them a conflict (10)\n");
    let err = format!(
        "sawmauve: {at}/b.log:1: not a call\n{refused}sawmauve: {at}/e.log: Is a directory\n"
    );
    assert_eq!(publish(""), err);
    assert_eq!(out.names(), ["a.file", "c.file", "d.file"]);
    fs::remove_file(out.path("c.file")).unwrap();
    assert_eq!(publish("--strict"), err);
    assert_eq!(out.names(), ["a.file", "d.file"]);
}

#[test]
fn two_logs_with_one_output_name_are_trouble_before_anything_is_written() {
    let (one, two, out) = (Folder::new(), Folder::new(), Folder::new());
    for folder in [&one, &two] {
        folder.write("x.log", OPEN);
    }
    one.write("y.log", OPEN);
    let (a, b) = (one.0.display(), two.0.display());
    let output = shell(&format!("$S publish {a} {b}/x.log -d {}", out.0.display()));
    is_trouble(
        &output,
        &format!("{a}/x.log and {b}/x.log: one output name"),
    );
    let output = shell(&format!(
        "$S publish {a}/x.log {a}/x -d {}",
        out.0.display()
    ));
    is_trouble(&output, "one output name");
    assert!(out.names().is_empty());
    let file = out.write("x.file", "old");
    symlink(&file, out.path("y.file")).unwrap();
    let output = shell(&format!("$S publish {a} -d {}", out.0.display()));
    is_trouble(
        &output,
        &format!("{a}/x.log and {a}/y.log: one output name"),
    );
    assert_eq!(fs::read(file).unwrap(), b"old");
}

#[test]
fn names_with_spaces_and_bytes_that_are_no_utf8() {
    let (logs, out) = (Folder::new(), Folder::new());
    let names = [
        &b"two words.log"[..],
        b"\xff\xfe.log",
        b"-dash.log",
        b".log",
    ];
    for name in names {
        logs.write(OsStr::from_bytes(name), OPEN);
    }
    let output = run(&[
        OsStr::new("publish"),
        logs.0.as_os_str(),
        OsStr::new("-d"),
        out.0.as_os_str(),
    ]);
    ends(&output, 0, b"", "");
    for name in [&b"two words.file"[..], b"\xff\xfe.file", b"-dash.file"] {
        assert!(out.path(OsStr::from_bytes(name)).is_file());
    }
    let bad = logs.write(OsString::from_vec(b"bad\xff\n.log".to_vec()), "hello\n");
    let output = run(&[OsStr::new("publish"), bad.as_os_str()]);
    assert_eq!(output.status.code(), Some(2));
    assert!(output.stderr.ends_with(b"/bad\xff?.log:1: not a call\n"));
    let output = shell(&format!(
        "cd {}; $S publish -- -dash.log | $S show -",
        logs.0.display()
    ));
    ends(&output, 0, b"2024-05-01 1 30 0 0 48 0\n", "");
}

#[test]
fn what_cannot_be_read_or_written() {
    let folder = Folder::new();
    let wrap = log("wrap");
    let wrap = wrap.to_str().unwrap();
    let here = folder.0.to_str().unwrap();
    let missing = folder.path("none/a.file");
    is_trouble(
        &run(&["publish", "none.log"]),
        "none.log: No such file or directory",
    );
    is_trouble(&run(&["publish", here]), "Is a directory");
    is_trouble(&run(&["publish", wrap, "-o", here]), "is a directory");
    is_trouble(
        &run(&["publish", wrap, "-o", missing.to_str().unwrap()]),
        "No such file or directory",
    );
    is_trouble(
        &run(&["publish", wrap, "-o", "/proc/self/a.file"]),
        "/proc/self/a.file: ",
    );
    is_trouble(
        &run(&["publish", wrap, "-d", "/proc/self"]),
        "/proc/self/wrap.file: ",
    );
    is_trouble(
        &run(&["publish", wrap, "-d", missing.to_str().unwrap()]),
        "not a folder",
    );
    is_trouble(&run(&["publish", here, "-d", here]), "no *.log in it");
    is_trouble(
        &run(&["publish", wrap, "-o", "/dev/full"]),
        "/dev/full: No space left on device",
    );
    assert!(folder.names().is_empty());
}

#[test]
fn a_log_is_not_written_over() {
    let folder = Folder::new();
    let log = folder.write("a.log", OPEN);
    let log = log.to_str().unwrap();
    is_trouble(&run(&["publish", log, "-o", log]), "a.log: the log itself");
    assert_eq!(fs::read(log).unwrap(), OPEN.as_bytes());
}

#[test]
fn usage() {
    for words in [
        &["publish"][..],
        &["publish", "a.log", "b.log"],
        &["publish", "a.log", "b.log", "-o", "c"],
        &["publish", "a.log", "-o", "b", "-d", "c"],
        &["publish", "a.log", "-o"],
        &["publish", "a.log", "-o", "b", "-o", "c"],
        &["publish", "a.log", "--fast"],
        &["publish", "a.log", "--strict=yes"],
        &["publish", "a.log", "-d", ".", "--jobs", "0"],
        &["publish", "a.log", "-d", ".", "--jobs", "x"],
        &["publish", "a.log", "--jobs", "2"],
        &["publish", "-", "-d", "."],
        &["publish", "-d", "."],
    ] {
        is_trouble(&run(words), "");
    }
}
