//! Logs: what one is, its playing, single lines, and that the comparison finds slips.

use std::sync::LazyLock;

use crosscheck::compare::rng::Rng;
use crosscheck::number::narrowed;
use crosscheck::second::head::Head;
use crosscheck::second::line::line_code;
use crosscheck::second::lists::{List, Lists};
use crosscheck::second::log::{self, call_code, log_code, log_line_code, play_code};
use crosscheck::second::moment::{date_code, slot_code};
use crosscheck::tries::Tally;
use crosscheck::tries::logs::texts;
use crosscheck::tries::logs::{self, CLASSES, Files, Logs, MILLION, SECOND};

mod common;
use common::*;

const OPEN: &str = "open 2024-05-01 1 30 1 0\n";

/// What a log's bytes are, and the line that decides.
fn what(log: impl AsRef<[u8]>) -> (u32, u64) {
    let log = log.as_ref();
    let mut figures = [77; 9];
    let code = log_code(log, &mut figures);
    assert!(code == 0 || figures == [77; 9]);
    (code, log_line_code(log))
}

/// The place of a register read's width in the fields of its line.
const WIDTH: usize = 3;

/// The figures of a log.
fn figures(log: impl AsRef<[u8]>) -> [u64; 9] {
    let mut figures = [77; 9];
    assert_eq!(log_code(log.as_ref(), &mut figures), 0);
    figures
}

/// A line after an opening.
fn after_opening(line: impl AsRef<[u8]>) -> u32 {
    what([OPEN.as_bytes(), line.as_ref()].concat()).0
}

/// The answers of a log on a day of 30 minutes, and the lists.
fn played(log: impl AsRef<[u8]>) -> (Vec<u8>, Lists) {
    let log = log.as_ref();
    let mut lists = Lists::unopened(48, 1);
    let [.., lines, _] = figures(log);
    let mut answers = vec![77; narrowed(lines)];
    assert_eq!(play_code(log, &mut lists, &mut answers), 0);
    (answers, lists)
}

fn example(name: &str) -> Vec<u8> {
    let folder = concat!(env!("CARGO_MANIFEST_DIR"), "/../examples/");
    std::fs::read(format!("{folder}{name}.log")).unwrap()
}

// What a log is

#[test]
fn the_examples_are_logs() {
    for (name, head, lines, calls) in [
        ("quiet-day", [2024, 5, 1, 1, 30, 40_000, 0], 51, 49),
        ("drowned", [2024, 6, 10, 1, 30, 70_000, 0], 59, 56),
        ("marina", [2024, 7, 14, 1, 30, 350_000, 1000], 54, 50),
        ("fogged", [2024, 5, 1, 1, 30, 40_000, 0], 51, 49),
        ("wrap", [2024, 12, 31, 1, 30, 40_000, 0], 52, 50),
        ("month", [2024, 5, 1, 31, 30, 70_000, 500], 1557, 1488),
    ] {
        let found = figures(example(name));
        assert_eq!(found[..7], head, "{name}");
        assert_eq!(found[7..], [lines, calls], "{name}");
    }
}

#[test]
fn lines_and_their_ends() {
    for (log, lines) in [
        ("", 0),
        ("\n", 1),
        ("\n\n", 2),
        ("\r", 1),
        ("\r\n", 1),
        ("#", 1),
        ("#\n", 1),
        ("#\n\r", 2),
        ("#\r\n#", 2),
    ] {
        assert_eq!(figures(OPEN.to_string() + log)[7], 1 + lines, "{log:?}");
        assert_eq!(what(log), (104, 0), "{log:?}");
    }
    for end in ["", "\n", "\r", "\r\n"] {
        assert_eq!(after_opening(format!("holiday 0{end}")), 0, "{end:?}");
        assert_eq!(after_opening(format!("# and so on{end}")), 0, "{end:?}");
    }
    for wrong in [
        "\r\r\n",
        "\r\r",
        " \n",
        " \r\n",
        "holiday 0\r\r\n",
        "holiday\r 0",
    ] {
        assert_eq!(after_opening(wrong), 105, "{wrong:?}");
    }
}

#[test]
fn lines_of_255_and_256_bytes() {
    let zeros = |len: usize| format!("holiday {}", "0".repeat(len - 8));
    for end in ["", "\n", "\r", "\r\n"] {
        assert_eq!(after_opening(zeros(255) + end), 0);
        assert_eq!(after_opening(zeros(256) + end), 105);
        let comment = "#".repeat(1000) + end;
        assert_eq!(after_opening(&comment), 0);
        assert_eq!(after_opening(format!(" {comment}")), 105);
    }
}

#[test]
fn numbers() {
    for good in ["0", "00", "007", "4294967295", "00004294967295"] {
        assert_eq!(after_opening(format!("holiday {good}\n")), 0, "{good}");
    }
    for bad in [
        "",
        "4294967296",
        "04294967296",
        "9999999999",
        "18446744073709551616",
        "340282366920938463463374607431768211456",
        "-1",
        "+1",
        "1.",
        "0x1",
        "1\t",
        "1\0",
        "٣",
    ] {
        assert_eq!(after_opening(format!("holiday {bad}\n")), 105, "{bad}");
    }
    assert_eq!(after_opening(b"holiday 1\xB2\n"), 105);
}

#[test]
fn fields() {
    for good in [
        "delivery 1 2 3 4",
        "agreed 1 2 3",
        "holiday 1",
        "register 1 2 3",
        "register 1 2 3 4",
    ] {
        assert_eq!(after_opening(good), 0, "{good}");
        for bad in [
            format!("{good} "),
            format!(" {good}"),
            good.replacen(' ', "  ", 1),
            good.replacen(' ', "\t", 1),
            good.to_uppercase(),
            good.replacen(' ', "s ", 1),
            good.replace(' ', ""),
            format!("{good},"),
        ] {
            assert_eq!(after_opening(&bad), 105, "{bad:?}");
        }
    }
    for bad in [
        "delivery 1 2 3",
        "delivery 1 2 3 4 5",
        "agreed 1 2",
        "agreed 1 2 3 4",
        "holiday",
        "holiday 1 2",
        "register 1 2",
        "register 1 2 3 4 5",
        "publish",
        "x",
    ] {
        assert_eq!(after_opening(bad), 105, "{bad}");
    }
}

#[test]
fn openings() {
    let opened = |date: &str, rest: &str| what(format!("open {date} {rest}\n"));
    for date in ["2024-05-01", "2000-01-01", "2099-12-31", "2000-02-29"] {
        assert_eq!(opened(date, "1 30 1 0"), (0, 0), "{date}");
    }
    for date in [
        "2001-02-29",
        "2100-01-01",
        "1999-12-31",
        "0000-00-00",
        "2024-13-01",
    ] {
        assert_eq!(opened(date, "1 30 1 0"), (1, 1), "{date}");
    }
    for date in [
        "2024-5-01",
        "2024-05-1",
        "02024-05-01",
        "2024/05/01",
        "20240501",
        "2024-05-+1",
    ] {
        assert_eq!(opened(date, "1 30 1 0"), (105, 1), "{date}");
    }
    for rest in [
        "0 30 1 0",
        "401 30 1 0",
        "1 10 1 0",
        "1 30 0 0",
        "1 30 3 0",
        "1 30 1 1000001",
    ] {
        assert_eq!(opened("2024-05-01", rest), (1, 1), "{rest}");
    }
    assert_eq!(opened("2099-12-31", "2 30 1 0"), (1, 1));
    assert_eq!(opened("2024-05-01", "400 5 2 1000000"), (0, 0));
    assert_eq!(opened("2024-05-01", "1 30 1"), (105, 1));
    assert_eq!(opened("2024-05-01", "1 30 1 0 0"), (105, 1));
}

#[test]
fn tables() {
    let tabled =
        |table: &str, kind: u32| what(format!("limits{table}\nopen 2024-05-01 1 30 {kind} 0\n"));
    let rising = |many: u32| (1..=many).map(|i| format!(" {i}")).collect::<String>();
    assert_eq!(tabled("", 1), (105, 1));
    assert_eq!(tabled(" ", 1), (105, 1));
    assert_eq!(tabled(" 1", 1), (0, 0));
    assert_eq!(tabled(" 1", 2), (1, 2));
    assert_eq!(tabled(&rising(24), 24), (0, 0));
    assert_eq!(tabled(&rising(24), 25), (1, 2));
    assert_eq!(tabled(&rising(25), 1), (105, 1));
    for broken in [" 0", " 0 1", " 5 5", " 5 4", " 1000001", " 1 4294967295"] {
        assert_eq!(tabled(broken, 1), (13, 1), "{broken}");
    }
    assert_eq!(tabled(" 1000000", 1), (0, 0));
    let third = figures("limits 40000 70000 350000\nopen 2024-05-01 1 30 3 0");
    assert_eq!(third[5], 350_000);
}

#[test]
fn the_first_wrong_line_decides() {
    assert_eq!(what(""), (104, 0));
    assert_eq!(what("# nothing\nlimits 1\n"), (104, 0));
    assert_eq!(what("holiday 0\nopen 2024-05-01 1 30 1 0\n"), (105, 1));
    assert_eq!(what("limits 1\nlimits 1\n"), (105, 2));
    assert_eq!(
        what("limits 1\nlimits 0\n"),
        (105, 2),
        "no call goes before 13"
    );
    assert_eq!(what("limits 0\nx\n"), (13, 1));
    assert_eq!(what("\n\nx\nlimits 0\n"), (105, 3));
    assert_eq!(what(OPEN.repeat(2)), (105, 2));
    assert_eq!(what(OPEN.to_string() + "limits 1\n"), (105, 2));
    assert_eq!(what(OPEN.to_string() + "limits 0\n"), (105, 2));
    assert_eq!(what("open 2024-05-01 1 30 9 0\nx\n"), (1, 1));
    assert_eq!(what(OPEN.to_string() + "\nholiday 0\nholiday"), (105, 4));
}

#[test]
fn figures_of_another_number() {
    for len in [0, 8, 10] {
        let mut figures = vec![77; len];
        assert_eq!(log_code(OPEN.as_bytes(), &mut figures), 2);
        assert_eq!(log_code(b"x", &mut figures), 2);
        assert_eq!(figures, vec![77; len]);
    }
}

// Playing

#[test]
fn the_whole_case() {
    let slots = (0..48).filter(|&slot| slot != 10);
    let calls: String = slots
        .map(|slot| format!("delivery {slot} 1 100 0\n"))
        .collect();
    let (answers, lists) = played(OPEN.to_string() + &calls);
    assert_eq!(answers, [&[102][..], &[0; 47]].concat());
    let mut file = [0; 6 * 48 + 32];
    assert_eq!(publish(HEAD, &lists, &mut file), Ok(file.len()));
    let mut line = [0; 27];
    assert_eq!(line_code(&file, &mut line), 27);
    assert_eq!(&line, b"2024-05-01 1 30 47 1 0 4800");
}

#[test]
fn an_answer_for_each_line() {
    let log = "# \n\nlimits 1 2\nopen 2024-05-01 1 30 1 0\n\
        delivery 5 2 300 0\ndelivery 5 1 300 0\ndelivery 5 2 300 0\ndelivery 5 2 300 1\n\
        delivery 48 1 0 0\ndelivery 0 0 0 0\ndelivery 0 1 0 8\ndelivery 0 1 0 256\n\
        agreed 5 1 100000000\nagreed 5 1 99999999\n\
        holiday 0\nholiday 0\nholiday 1\n\
        register 0 1 99999999\nregister 0 1 99999999 0\nregister 0 1 99999999 1\n\
        register 1 1 100000000\nregister 1 1 0 10000\nregister 2 1 0\n#";
    let (answers, lists) = played(log);
    assert_eq!(answers[..4], [103, 103, 103, 102]);
    assert_eq!(answers[4..12], [0, 100, 101, 10, 3, 4, 5, 5]);
    assert_eq!(answers[12..17], [12, 0, 0, 101, 3]);
    assert_eq!(answers[17..], [0, 101, 10, 6, 17, 3, 103]);
    let mut expected = Lists::zeroed(48, 1);
    (expected.values[5], expected.versions[5], expected.counts[0]) = (300, 2, 1);
    (expected.agreed[5], expected.agreed_versions[5]) = (99_999_999, 1);
    expected.holidays[0] = 1;
    (expected.readings[0], expected.read_versions[0]) = (99_999_999, 1);
    assert_eq!(lists, expected);
}

#[test]
fn the_settled_figures_of_a_drowned_pedestal() {
    let (answers, lists) = played(example("drowned"));
    // The last six: a newer figure, one for a good slot, a conflict, a repeat, one over the bound.
    assert_eq!(answers[answers.len() - 6..], [0, 0, 10, 101, 12, 0]);
    assert_eq!((lists.agreed[36], lists.agreed_versions[36]), (740, 2));
}

#[test]
fn refused_playing_changes_nothing() {
    let before = Lists::unopened(48, 1);
    let refused = |log: &str, lists: &Lists, answers: usize| {
        let mut after = lists.clone();
        let mut bytes = vec![77; answers];
        let code = play_code(log.as_bytes(), &mut after, &mut bytes);
        assert_eq!((&after, &bytes), (lists, &vec![77; answers]));
        code
    };
    for (log, code) in [
        ("", 104),
        ("x", 105),
        ("limits 0", 13),
        ("open 2024-05-01 1 30 9 0", 1),
    ] {
        assert_eq!(refused(log, &before, 1), code);
        assert_eq!(refused(log, &Lists::default(), 7), code, "before 2");
    }
    for answers in [0, 2] {
        assert_eq!(refused(OPEN, &before, answers), 2);
    }
    for list in List::ALL {
        for other in [before.len_of(list) - 1, before.len_of(list) + 1] {
            let mut lists = before.clone();
            lists.resize(list, other);
            assert_eq!(refused(OPEN, &lists, 1), 2, "{list:?}");
        }
    }
}

// Single lines, slots, dates and the line of a file

#[test]
fn single_lines() {
    for (line, code, expected) in [
        ("", 103, [0; 7]),
        ("\r", 103, [0; 7]),
        ("# a", 103, [0; 7]),
        ("limits 1 2 3", 106, [0; 7]),
        ("limits 3 2 1", 106, [0; 7]),
        ("open 0000-13-99 1 2 3 4\r", 102, [0, 13, 99, 1, 2, 3, 4]),
        ("delivery 1 2 3 4", 110, [1, 2, 3, 4, 0, 0, 0]),
        (
            "delivery 1 2 3 4294967295",
            110,
            [1, 2, 3, u32::MAX, 0, 0, 0],
        ),
        ("agreed 1 2 3", 111, [1, 2, 3, 0, 0, 0, 0]),
        ("holiday 007", 112, [7, 0, 0, 0, 0, 0, 0]),
        ("register 1 2 3", 113, [1, 2, 3, 0, 0, 0, 0]),
        ("register 1 2 3 4", 113, [1, 2, 3, 4, 0, 0, 0]),
        ("holiday 0\n", 105, [77; 7]),
        ("\n", 105, [77; 7]),
        ("limits", 105, [77; 7]),
    ] {
        let mut fields = [77; 7];
        assert_eq!(call_code(line.as_bytes(), &mut fields), code, "{line:?}");
        assert_eq!(fields, expected, "{line:?}");
    }
    for len in [0, 6, 8] {
        let mut fields = vec![77; len];
        assert_eq!(call_code(b"holiday 0", &mut fields), 2);
        assert_eq!(call_code(b"x", &mut fields), 2);
        assert_eq!(fields, vec![77; len]);
    }
}

#[test]
fn slots_and_dates() {
    let head = Head {
        days: 2,
        interval: 15,
        ..HEAD
    };
    for (date, minute, expected) in [
        ([2024, 5, 1], 0, 0),
        ([2024, 5, 1], 14, 0),
        ([2024, 5, 1], 15, 1),
        ([2024, 5, 2], 0, 96),
        ([2024, 5, 2], 1439, 191),
        ([2024, 5, 2], 1440, 100_000_003),
        ([2024, 5, 3], 0, 100_000_003),
        ([2024, 4, 30], 0, 100_000_003),
        ([2024, 4, 31], 0, 100_000_003),
        ([2124, 5, 1], 0, 100_000_003),
    ] {
        assert_eq!(slot_code(head, date, minute), expected, "{date:?} {minute}");
    }
    let bad = Head { days: 0, ..head };
    assert_eq!(slot_code(bad, [2024, 4, 31], 1440), 100_000_001);
    for (number, expected) in [
        (0, 20_000_101),
        (59, 20_000_229),
        (0x22B7, 20_240_501),
        (36_524, 20_991_231),
        (36_525, 100_000_003),
        (u32::MAX, 100_000_003),
    ] {
        assert_eq!(date_code(number), expected);
    }
}

#[test]
fn the_line_into_a_buffer() {
    let file = Test::new(HEAD).file();
    let line = b"2024-05-01 1 30 0 0 48 0";
    for room in [0, 23] {
        let mut out = vec![77; room];
        assert_eq!(line_code(&file, &mut out), 7);
        assert_eq!(out, vec![77; room]);
    }
    let mut out = [77; 30];
    assert_eq!(line_code(&file, &mut out), 24);
    assert_eq!((&out[..24], &out[24..]), (&line[..], &[77; 6][..]));
    assert_eq!(line_code(&file[1..], &mut []), 8);
    let long = Test::new(Head { days: 400, ..HEAD }).file();
    assert!(long.len() > 65_536);
    assert_eq!(line_code(&long, &mut [0; 40]), 29);
}

// Slips that the comparison is to find

static FILES: LazyLock<Files> = LazyLock::new(|| Files::new(1));

/// The difference that so many tries find, without the largest log.
fn difference(other: Logs, tries: u64) -> Option<String> {
    let mut tally = Tally::new(CLASSES);
    let mut results = (0..tries)
        .filter(|&index| index != MILLION && index % 100 != 2)
        .map(|index| {
            let mut rng = Rng::new(1, index);
            logs::one(&FILES, &mut rng, index, Some(other), &mut tally)
        });
    results.find_map(Result::err)
}

/// A build that is given another log than the one it gets.
macro_rules! reads {
    ($change:expr) => {
        Logs {
            log: |log, figures| log_code(&$change(log), figures),
            log_line: |log| log_line_code(&$change(log)),
            play: |log, lists, answers| play_code(&$change(log), lists, answers),
            ..SECOND
        }
    };
}

/// A build that plays and then writes other answers.
macro_rules! answers {
    ($change:expr) => {
        Logs {
            play: |log, lists, answers| {
                let code = play_code(log, lists, answers);
                if code == 0 {
                    $change(log, answers);
                }
                code
            },
            ..SECOND
        }
    };
}

/// Every occurrence in the place of another text of bytes.
fn replaced(bytes: &[u8], from: &[u8], to: &[u8]) -> Vec<u8> {
    let mut out = Vec::new();
    let mut rest = bytes;
    while let Some((first, after)) = rest.split_first() {
        if let Some(after) = rest.strip_prefix(from) {
            out.extend(to);
            rest = after;
        } else {
            out.push(*first);
            rest = after;
        }
    }
    out
}

/// Up to the last LF.
fn ended(log: &[u8]) -> Vec<u8> {
    let ended = log
        .iter()
        .rposition(|&byte| byte == b'\n')
        .map_or(0, |at| at + 1);
    log[..ended].to_vec()
}

/// Lines of 256 bytes with a zero fewer.
fn longer(log: &[u8]) -> Vec<u8> {
    let shorter = |line: &[u8]| match line.trim_ascii_end().len() {
        256 => replaced(line, b" 00000", b" 0000"),
        _ => line.to_vec(),
    };
    let lines = log.split_inclusive(|&byte| byte == b'\n');
    lines.map(shorter).collect::<Vec<_>>().concat()
}

const READERS: [(&str, Logs); 12] = [
    ("drops the last line without LF", reads!(ended)),
    ("takes 256 bytes", reads!(longer)),
    (
        "drops two CR",
        reads!(|log| replaced(log, b"\r\r\n", b"\r\n")),
    ),
    ("takes no CR", reads!(|log| replaced(log, b"\r\n", b" \n"))),
    ("drops every CR", reads!(|log| replaced(log, b"\r", b""))),
    (
        "drops a space at the end",
        reads!(|log| replaced(log, b" \n", b"\n")),
    ),
    ("takes two spaces", reads!(|log| replaced(log, b"  ", b" "))),
    (
        "wraps at 2^32",
        reads!(|log| replaced(log, b"4294967296", b"0")),
    ),
    (
        "wraps a status",
        reads!(|log| replaced(log, b" 256\n", b" 0\n")),
    ),
    (
        "takes capital letters",
        reads!(|log: &[u8]| log.to_ascii_lowercase()),
    ),
    (
        "stops at a NUL",
        reads!(|log: &[u8]| { log.split(|&byte| byte == 0).next().unwrap().to_vec() }),
    ),
    (
        "takes a plus sign",
        reads!(|log| replaced(log, b" +", b" ")),
    ),
];

const PLAYERS: [(&str, Logs); 8] = [
    (
        "answers of the line before",
        answers!(|_, answers: &mut [u8]| answers.rotate_right(1)),
    ),
    (
        "late as a conflict",
        answers!(|_, answers: &mut [u8]| {
            answers
                .iter_mut()
                .for_each(|answer| *answer = if *answer == 100 { 10 } else { *answer })
        }),
    ),
    (
        "stops at a refusal",
        answers!(|_, answers: &mut [u8]| {
            let stop = answers
                .iter()
                .position(|&answer| (1..100).contains(&answer));
            let stop = stop.map_or(answers.len(), |at| at + 1);
            answers[stop..].fill(103);
        }),
    ),
    (
        "no answer for a comment",
        answers!(|log: &[u8], answers: &mut [u8]| {
            for (line, answer) in texts::lines(log).zip(answers) {
                *answer = if line.starts_with(b"#") { 0 } else { *answer };
            }
        }),
    ),
    (
        "lists opened though refused",
        Logs {
            play: |log, lists, answers| {
                let code = play_code(log, lists, answers);
                if code == 2 {
                    lists.clear();
                }
                code
            },
            ..SECOND
        },
    ),
    (
        "answers up to the wrong line",
        Logs {
            play: |log, lists, answers| {
                let code = play_code(log, lists, answers);
                if let (105, Some(first)) = (code, answers.first_mut()) {
                    *first = 105;
                }
                code
            },
            ..SECOND
        },
    ),
    (
        "2 before 105",
        Logs {
            play: |log, lists, answers| match play_code(log, lists, answers) {
                105 if answers.is_empty() => 2,
                code => code,
            },
            ..SECOND
        },
    ),
    (
        "counts not",
        Logs {
            play: |log, lists, answers| {
                let before = lists.counts.clone();
                let code = play_code(log, lists, answers);
                lists.counts = if code == 0 {
                    vec![0; before.len()].into()
                } else {
                    before
                };
                code
            },
            ..SECOND
        },
    ),
];

/// Changes a figure of a log.
macro_rules! figures {
    ($at:expr) => {
        Logs {
            log: |log, figures| {
                let code = log_code(log, figures);
                if code == 0 {
                    figures[$at] = figures[$at].saturating_sub(1);
                }
                code
            },
            ..SECOND
        }
    };
}

const OTHERS: [(&str, Logs); 14] = [
    ("one line fewer", figures!(7)),
    ("one call fewer", figures!(8)),
    ("another limit", figures!(5)),
    (
        "105 before 2",
        Logs {
            log: |log, figures| {
                if log::read(log).is_err() {
                    log_code(log, &mut [0; 9])
                } else {
                    log_code(log, figures)
                }
            },
            ..SECOND
        },
    ),
    (
        "lines from 0",
        Logs {
            log_line: |log| log_line_code(log).saturating_sub(1),
            ..SECOND
        },
    ),
    (
        "fields not cleared",
        Logs {
            call: |line, fields| {
                let before = fields.to_vec();
                let code = call_code(line, fields);
                if code == 113 && line.iter().filter(|&&byte| byte == b' ').count() == 3 {
                    fields[WIDTH] = before[WIDTH];
                }
                code
            },
            ..SECOND
        },
    ),
    (
        "fields of no call written",
        Logs {
            call: |line, fields| {
                let code = call_code(line, fields);
                if code == 105 {
                    fields.fill(0);
                }
                code
            },
            ..SECOND
        },
    ),
    (
        "a table that is refused is no line",
        Logs {
            call: |line, fields| match call_code(line, fields) {
                106 if line.starts_with(b"limits 0 ") => 105,
                code => code,
            },
            ..SECOND
        },
    ),
    (
        "minute 1,440",
        Logs {
            slot: |head, date, minute| slot_code(head, date, minute.min(1439)),
            ..SECOND
        },
    ),
    (
        "3 before 1",
        Logs {
            slot: |head, date, minute| match slot_code(head, date, minute) {
                100_000_001 if minute >= 1440 => 100_000_003,
                slot => slot,
            },
            ..SECOND
        },
    ),
    (
        "one date more",
        Logs {
            date: |day| date_code(if day == 36_525 { 36_524 } else { day }),
            ..SECOND
        },
    ),
    (
        "7 before 8",
        Logs {
            line: |file, out| {
                if out.len() < 24 {
                    7
                } else {
                    line_code(file, out)
                }
            },
            ..SECOND
        },
    ),
    (
        "a zero after the line",
        Logs {
            line: |file, out| {
                let length = line_code(file, out);
                if let (24.., Some(after)) = (length, out.get_mut(narrowed::<usize>(length))) {
                    *after = 0;
                }
                length
            },
            ..SECOND
        },
    ),
    (
        "a file too long",
        Logs {
            line: |file, out| {
                if file.len() > 65_536 {
                    8
                } else {
                    line_code(file, out)
                }
            },
            ..SECOND
        },
    ),
];

#[test]
fn slips_are_found() {
    for (name, other) in READERS.into_iter().chain(PLAYERS).chain(OTHERS) {
        assert!(difference(other, 1500).is_some(), "{name}");
    }
    assert_eq!(difference(SECOND, 300), None);
}

#[test]
fn a_difference_is_shown_with_a_short_log() {
    let found = difference(PLAYERS[1].1, 1500).expect("a difference");
    assert!(found.contains("answer of line"), "{found}");
    let lines = found.split("\\n").count() - 1;
    assert!(lines <= 4, "{found}");
}
