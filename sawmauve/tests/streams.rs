//! Standard streams that are closed, full, or go away.

mod common;

use common::*;
use std::io::pipe;

#[test]
fn standard_input_closed() {
    for words in [
        "publish -",
        "answers -",
        "days -",
        "follow - 2024-05-01 00:00",
        "strips -",
        "compare - tests/expected/wrap.file",
        "reconcile ../examples/wrap.log -",
    ] {
        is_trouble(&shell(&format!("$S {words} <&-")), "standard input: closed");
    }
    is_trouble(&shell("$S show - <&-"), "standard input: closed");
    is_trouble(&shell("$S publish - < /"), "standard input: Is a directory");
}

#[test]
fn standard_output_closed() {
    for words in ["publish", "answers", "days"] {
        is_trouble(
            &shell(&format!("$S {words} ../examples/wrap.log >&-")),
            "standard output: closed",
        );
    }
    is_trouble(
        &shell("$S show tests/expected/wrap.file >&-"),
        "standard output: closed",
    );
    let (file, log) = ("tests/expected/wrap.file", "../examples/wrap.log");
    for words in [
        format!("compare {file} {file}"),
        format!("reconcile {log} {log}"),
    ] {
        let closed = shell(&format!("$S {words} >&-"));
        is_trouble(&closed, "standard output: closed");
        let full = shell(&format!("$S {words} > /dev/full"));
        is_trouble(&full, "standard output: No space left on device");
    }
    is_trouble(&shell("$S --help >&-"), "standard output: closed");
}

#[test]
fn closed_streams_that_are_not_used() {
    let folder = Folder::new();
    let line = format!(
        "$S publish ../examples/wrap.log -o {}/a.file <&- >&- 2>&-",
        folder.0.display()
    );
    ends(&shell(&line), 0, b"", "");
    assert_eq!(folder.names(), ["a.file"]);
}

#[test]
fn standard_error_closed_leaves_the_status() {
    let output = shell("$S publish none.log 2>&-");
    ends(&output, 2, b"", "");
}

#[test]
fn nowhere_is_no_trouble() {
    ends(
        &shell("$S answers ../examples/wrap.log > /dev/null"),
        0,
        b"",
        "",
    );
    ends(
        &shell("$S answers ../examples/wrap.log 1<> /dev/null"),
        0,
        b"",
        "",
    );
}

#[test]
fn a_full_disk() {
    let line = "standard output: No space left on device";
    for words in [
        "publish ../examples/wrap.log",
        "answers ../examples/wrap.log",
        "show tests/expected/wrap.file",
    ] {
        is_trouble(&shell(&format!("$S {words} > /dev/full")), line);
    }
    is_trouble(
        &shell("$S publish ../examples/wrap.log -o /dev/full"),
        "/dev/full: No space left on device",
    );
}

#[test]
fn a_broken_pipe_ends_quietly() {
    let month = log("month");
    let file = expected("month.file");
    for words in [
        ["publish", month.to_str().unwrap()],
        ["answers", month.to_str().unwrap()],
        ["show", file.to_str().unwrap()],
    ] {
        let (reader, writer) = pipe().unwrap();
        drop(reader);
        let output = command(&words).stdout(writer).output().unwrap();
        assert_eq!(output.status.code(), Some(2));
        let err = String::from_utf8(output.stderr).unwrap();
        assert!(err.is_empty(), "{err}");
    }
    let output = shell("$S show --slots tests/expected/month.file | head -n 1");
    ends(&output, 0, b"date,time,Wh,quality,method\n", "");
}
