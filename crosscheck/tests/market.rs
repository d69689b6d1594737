//! 02, W8: export to the market's files.

use crosscheck::compare::damage::{Edit, edited};
use crosscheck::second::head::Head;
use crosscheck::second::market::{Codes, Texts, nem12, nem12_code};
use crosscheck::tries::nem12::back::as_in_file;

mod common;
use common::*;

const TEXTS: Texts = Texts {
    identifier: b"NEM1201009",
    from: b"MARINA",
    to: b"RESELLER",
    configuration: b"E1",
    register_id: b"1",
    suffix: b"E1",
    stream: b"N1",
    serial: b"METSER123",
    next_read: b"20240610",
    reason: b"79",
    created: b"20240601123456",
};

const CODES: Codes = [52, 4, 71, 53, 14];

fn exported(file: &[u8], texts: &Texts, codes: Codes) -> String {
    let mut out = vec![b'?'; 100_000];
    let length = nem12(file, texts, codes, &mut out).expect("an accepted call");
    assert!(
        out[length..].iter().all(|&byte| byte == b'?'),
        "bytes after it"
    );
    as_in_file(&out[..length], file, codes).expect("read back");
    out.truncate(length);
    String::from_utf8(out).expect("a text")
}

/// The records of the days.
fn days(file: &[u8], texts: &Texts, codes: Codes) -> Vec<String> {
    let export = exported(file, texts, codes);
    let lines: Vec<&str> = export.split("\r\n").collect();
    let end = lines.len() - 2;
    assert_eq!(lines[end..], ["900", ""]);
    lines[2..end].iter().map(|line| line.to_string()).collect()
}

/// Fields of a 300 behind its values.
fn behind(line: &str) -> String {
    let fields: Vec<&str> = line.split(',').collect();
    fields[fields.len() - 5..].join(",")
}

fn values(count: usize, value: &str) -> String {
    vec![value; count].join(",")
}

/// 01's Whole: slot 10 is a line between 100 and 100.
fn whole() -> Test {
    let mut test = Test::new(HEAD);
    for slot in (0..48).filter(|&slot| slot != 10) {
        test.deliver(slot, 100, 0);
    }
    test
}

#[test]
fn the_whole_case() {
    let expected = [
        "100,NEM12,202406011234,MARINA,RESELLER",
        "200,NEM1201009,E1,1,E1,N1,METSER123,kWh,30,20240610",
        &format!("300,20240501,{},V,,,20240601123456,", values(48, "0.100")),
        "400,1,10,A,,",
        "400,11,11,S52,79,",
        "400,12,48,A,,",
        "900",
        "",
    ];
    assert_eq!(
        exported(&whole().file(), &TEXTS, CODES),
        expected.join("\r\n")
    );
}

#[test]
fn empty_texts_keep_their_commas() {
    let empty = Texts {
        identifier: b"0000000000",
        created: b"00000000000000",
        from: b"",
        to: b"",
        configuration: b"",
        register_id: b"",
        suffix: b"",
        stream: b"",
        serial: b"",
        next_read: b"",
        reason: b"",
    };
    let expected = [
        "100,NEM12,000000000000,,",
        "200,0000000000,,,,,,kWh,30,",
        &format!("300,20240501,{},V,,,00000000000000,", values(48, "0.100")),
        "400,1,10,A,,",
        "400,11,11,S00,,",
        "400,12,48,A,,",
        "900",
        "",
    ];
    assert_eq!(
        exported(&whole().file(), &empty, [0; 5]),
        expected.join("\r\n")
    );
}

#[test]
fn a_day_alike_has_no_400() {
    let mut test = Test::new(Head { days: 3, ..HEAD });
    for slot in 0..48 {
        test.deliver(slot, 620, 0);
        test.agree(48 + slot, 99_999_999);
    }
    let lines = days(&test.file(), &TEXTS, CODES);
    assert_eq!(
        lines,
        [
            format!("300,20240501,{},A,,,20240601123456,", values(48, "0.620")),
            format!(
                "300,20240502,{},F71,79,,20240601123456,",
                values(48, "99999.999")
            ),
            format!("300,20240503,{},N,,,20240601123456,", values(48, "0.000")),
        ]
    );
}

#[test]
fn zeroed_and_delivered_are_alike() {
    // A gap beside a delivery with the outage bit: (A,1) among (A,0).
    let mut test = Test::new(HEAD);
    for slot in (0..48).filter(|&slot| slot != 20) {
        test.deliver(slot, 100, if slot == 19 { 2 } else { 0 });
    }
    assert_eq!(test.slot(20), (0, 'A', 1));
    let lines = days(&test.file(), &TEXTS, CODES);
    assert_eq!(lines.len(), 1);
    assert_eq!(behind(&lines[0]), "A,,,20240601123456,");
    assert!(lines[0].contains(",0.100,0.000,0.100,"));
}

/// Eight days, the last with a slot on a line and then same-day slots.
fn two_methods() -> Vec<u8> {
    let mut test = Test::new(Head { days: 8, ..HEAD });
    for slot in (0..8 * 48).filter(|&slot| slot != 7 * 48 + 5 && slot < 7 * 48 + 7) {
        test.deliver(slot, 5, 0);
    }
    assert_eq!(test.slot(7 * 48 + 5).2, 2);
    assert_eq!(test.slot(7 * 48 + 7).2, 3);
    test.file()
}

#[test]
fn two_methods_with_one_code_are_alike() {
    let file = two_methods();
    let tail = |codes: Codes| days(&file, &TEXTS, codes)[8..].to_vec();
    assert_eq!(
        tail([4, 9, 71, 53, 14]),
        [
            "400,1,5,A,,",
            "400,6,6,S04,79,",
            "400,7,7,A,,",
            "400,8,48,S09,79,",
        ]
    );
    assert_eq!(
        tail([9, 9, 9, 9, 9])[1..],
        ["400,6,6,S09,79,", "400,7,7,A,,", "400,8,48,S09,79,"]
    );
    // With the slot between them made a method 3 as well, they are one run.
    let at = 7 * 48 + 6;
    let slot = Edit::Slot {
        at,
        value: 5,
        letter: b'S',
        method: 3,
    };
    let file = edited(&file, &[slot, Edit::Mend]);
    let tail = |codes: Codes| days(&file, &TEXTS, codes)[8..].to_vec();
    assert_eq!(tail([9, 9, 1, 1, 1]), ["400,1,5,A,,", "400,6,48,S09,79,"]);
    assert_eq!(
        tail([9, 10, 1, 1, 1]),
        ["400,1,5,A,,", "400,6,6,S09,79,", "400,7,48,S10,79,"]
    );
}

#[test]
fn scaled_slots_have_their_own_codes() {
    let mut test = whole();
    test.register(0, 0);
    test.register(1, 4_705);
    let lines = days(&test.file(), &TEXTS, CODES);
    assert_eq!(lines[2], "400,11,11,S53,79,");
    assert!(lines[0].contains(",0.100,0.005,0.100,"));
}

#[test]
fn an_s_and_an_f_with_one_code_differ() {
    // On day 7, slot 10 has a week before it to go by and slots 11 and 12 are agreed.
    let mut test = Test::new(Head { days: 8, ..HEAD });
    let day = 7 * 48;
    for slot in (0..8 * 48).filter(|slot| !(day + 10..day + 13).contains(slot)) {
        test.deliver(slot, 100, 0);
    }
    test.agree(day + 11, 7);
    test.agree(day + 12, 1_234_567);
    assert_eq!(test.slot(day + 10), (100, 'S', 3));
    let lines = days(&test.file(), &TEXTS, [1; 5]);
    assert_eq!(
        lines[8..],
        [
            "400,1,10,A,,",
            "400,11,11,S01,79,",
            "400,12,13,F01,79,",
            "400,14,48,A,,"
        ]
    );
    assert!(lines[7].contains(",0.100,0.100,0.007,1234.567,0.100,"));
}

#[test]
fn values_from_0_to_the_largest() {
    let values = [
        (0, "0.000"),
        (5, "0.005"),
        (50, "0.050"),
        (100, "0.100"),
        (620, "0.620"),
        (999, "0.999"),
        (1000, "1.000"),
        (10_010, "10.010"),
        (100_000_000, "100000.000"),
        (u32::MAX, "4294967.295"),
    ];
    let edits = values
        .iter()
        .enumerate()
        .map(|(at, &(value, _))| Edit::Slot {
            at,
            value,
            letter: b'A',
            method: 0,
        });
    let mut edits: Vec<Edit> = edits.collect();
    edits.push(Edit::Mend);
    let mut test = Test::new(HEAD);
    test.deliver_all(1);
    let lines = days(&edited(&test.file(), &edits), &TEXTS, CODES);
    let texts: Vec<&str> = values.iter().map(|&(_, text)| text).collect();
    assert_eq!(
        lines[0].split(',').collect::<Vec<_>>()[2..12],
        texts,
        "{}",
        lines[0]
    );
}

#[test]
fn dates_go_on_over_months_and_years() {
    for (year, month, day, expected) in [
        (2024, 2, 28, ["20240228", "20240229", "20240301"]),
        (2023, 2, 28, ["20230228", "20230301", "20230302"]),
        (2000, 2, 28, ["20000228", "20000229", "20000301"]),
        (2009, 12, 31, ["20091231", "20100101", "20100102"]),
        (2099, 12, 29, ["20991229", "20991230", "20991231"]),
    ] {
        let test = Test::new(Head {
            year,
            month,
            day,
            days: 3,
            ..HEAD
        });
        let lines = days(&test.file(), &TEXTS, CODES);
        let dates: Vec<&str> = lines.iter().map(|line| &line[4..12]).collect();
        assert_eq!(dates, expected);
    }
}

#[test]
fn intervals_of_5_and_15() {
    for (interval, n) in [(5, 288), (15, 96)] {
        let mut test = Test::new(Head { interval, ..HEAD });
        for slot in (0..n).filter(|&slot| slot != 0 && slot != n - 1) {
            test.deliver(slot, 1, 0);
        }
        let export = exported(&test.file(), &TEXTS, CODES);
        assert!(export.contains(&format!(",kWh,{interval},20240610\r\n")));
        let runs = format!(
            "400,1,1,N,,\r\n400,2,{},A,,\r\n400,{n},{n},N,,\r\n900\r\n",
            n - 1
        );
        assert!(export.ends_with(&runs));
    }
}

#[test]
fn the_exact_room_and_one_less() {
    let file = whole().file();
    let export = exported(&file, &TEXTS, CODES);
    let mut out = vec![0xEE; export.len()];
    assert_eq!(nem12(&file, &TEXTS, CODES, &mut out), Ok(export.len()));
    assert_eq!(out, export.as_bytes());
    for len in [0, 1, 7, export.len() - 1] {
        let mut out = vec![0xEE; len];
        assert_eq!(nem12(&file, &TEXTS, CODES, &mut out), Err(7));
        assert_eq!(nem12_code(&file, &TEXTS, CODES, &mut out), 7);
        assert_eq!(out, vec![0xEE; len]);
    }
}

/// The refusal, in a buffer long enough and in an empty one; neither is changed.
fn refused(file: &[u8], texts: &Texts, codes: Codes) -> u8 {
    let mut out = [0xEE; 2000];
    let number = nem12(file, texts, codes, &mut out).expect_err("a refusal");
    assert_eq!(out, [0xEE; 2000]);
    let before_7 = nem12(file, texts, codes, &mut []);
    assert_eq!(before_7, Err(number), "7 comes last");
    number
}

const NO_IDENTIFIERS: [&[u8]; 14] = [
    b"",
    b"NEM120100",
    b"NEM12010099",
    b"NEMI201009",
    b"NEM12O1009",
    b"IEM1201009",
    b"NEM120100O",
    b"nEM1201009",
    b"NEM 201009",
    b"NEM,201009",
    b"NEM1201@09",
    b"NEM1201[09",
    b"NEM120100/",
    b"NEM120100\xFF",
];

#[test]
fn fourteen_is_the_identifier() {
    let file = whole().file();
    for identifier in NO_IDENTIFIERS {
        let texts = Texts {
            identifier,
            ..TEXTS
        };
        assert_eq!(refused(&file, &texts, CODES), 14);
        // Before 15.
        assert_eq!(refused(&file, &texts, [100; 5]), 14);
        let texts = Texts {
            from: b",",
            created: b"",
            ..texts
        };
        assert_eq!(refused(&file, &texts, CODES), 14);
    }
    for identifier in [b"ABCDEFGHJK", b"LMNPQRSTUV", b"WXYZ012345", b"6789AAAAAA"] {
        let texts = Texts {
            identifier,
            ..TEXTS
        };
        exported(&file, &texts, CODES);
    }
}

#[test]
fn fifteen_is_a_text() {
    let file = whole().file();
    let with: [fn(&'static [u8]) -> Texts<'static>; 9] = [
        |from| Texts { from, ..TEXTS },
        |to| Texts { to, ..TEXTS },
        |configuration| Texts {
            configuration,
            ..TEXTS
        },
        |register_id| Texts {
            register_id,
            ..TEXTS
        },
        |suffix| Texts { suffix, ..TEXTS },
        |stream| Texts { stream, ..TEXTS },
        |serial| Texts { serial, ..TEXTS },
        |next_read| Texts { next_read, ..TEXTS },
        |reason| Texts { reason, ..TEXTS },
    ];
    let bad: [&[u8]; 9] = [
        b",", b"A,", b",A", b"A\x1F", b"\x7FA", b"\0", b"A\r\n", b"\x80", b"A\xFFA",
    ];
    for with in with {
        for bad in bad {
            assert_eq!(refused(&file, &with(bad), CODES), 15);
        }
        exported(&file, &with(b" ~+-.\"A'"), CODES);
    }
}

#[test]
fn fifteen_is_the_time_and_the_codes() {
    let file = whole().file();
    let bad: [&[u8]; 7] = [
        b"",
        b"2024060112345",
        b"202406011234567",
        b"2024060112345/",
        b":0240601123456",
        b"20240601 23456",
        b"2024060112345\xFF",
    ];
    for created in bad {
        assert_eq!(refused(&file, &Texts { created, ..TEXTS }, CODES), 15);
    }
    for place in 0..5 {
        for code in [100, 255] {
            let mut codes = CODES;
            codes[place] = code;
            assert_eq!(refused(&file, &TEXTS, codes), 15);
        }
    }
    exported(&file, &TEXTS, [99; 5]);
    // Any 14 digits.
    let created = b"99999999999999";
    exported(&file, &Texts { created, ..TEXTS }, CODES);
}

#[test]
fn eight_and_nine_go_first() {
    let file = whole().file();
    let wrong = edited(&file, &[Edit::Byte { at: 4, value: b'X' }]);
    for (file, number) in [(&file[1..], 8), (&[][..], 8), (&wrong[..], 9)] {
        assert_eq!(refused(file, &TEXTS, CODES), number);
        assert_eq!(refused(file, &TEXTS, [100; 5]), number);
        let identifier = b"";
        assert_eq!(
            refused(
                file,
                &Texts {
                    identifier,
                    ..TEXTS
                },
                CODES
            ),
            number
        );
    }
}
