//! The reader of NEM12, on exports written by hand.

use crosscheck::tries::nem12::reader::{Export, read};

const HEADER: &str = "100,NEM12,200405011135,MDA1,Ret1";
const METER: &str = "200,VABD000163,E1Q1,1,E1,N1,METSER123,kWh,30,20040601";

fn day(date: &str, mark: &str) -> String {
    let mut values = vec!["1.111"; 48];
    (values[0], values[47]) = ("0.000", "4294967.295");
    format!("300,{date},{},{mark}", values.join(","))
}

/// Two days, the second of three runs.
fn lines() -> Vec<String> {
    let second = day("20040301", "V,,,20040502103222,");
    [
        HEADER,
        METER,
        &day("20040229", "A,,,20040502103222,20040502230030"),
        &second,
        "400,1,20,F14,76,",
        "400,21,21,A,,",
        "400,22,48,S07,32,burnt",
        "900",
    ]
    .map(String::from)
    .to_vec()
}

fn read_lines(lines: &[String]) -> Result<Export, String> {
    let text: String = lines.iter().map(|line| format!("{line}\r\n")).collect();
    read(text.as_bytes())
}

#[test]
fn reads_all_there_is() {
    let export = read_lines(&lines()).expect("an export");
    assert_eq!(export.created, "200405011135");
    assert_eq!([export.from, export.to], ["MDA1", "Ret1"]);
    let meter = export.meter;
    assert_eq!(meter.identifier, "VABD000163");
    assert_eq!(meter.interval, 30);
    assert_eq!(
        [
            meter.configuration,
            meter.register_id,
            meter.suffix,
            meter.stream,
            meter.serial,
            meter.next_read
        ],
        ["E1Q1", "1", "E1", "N1", "METSER123", "20040601"]
    );
    let [first, second] = &export.days[..] else {
        panic!("two days");
    };
    // 2000 to 2003 with one leap day, then January and 28 days.
    assert_eq!(first.number, 1461 + 31 + 28);
    assert_eq!(second.number, first.number + 1);
    assert_eq!(first.values[..2], [0, 1111]);
    assert_eq!(first.values[47], 4_294_967_295);
    assert_eq!(first.mark.letter, 'A');
    assert_eq!(first.updated, "20040502103222");
    assert_eq!(first.loaded, "20040502230030");
    assert!(first.marks().iter().all(|mark| mark.letter == 'A'));
    let marks = second.marks();
    let kinds = [19, 20, 21].map(|at| (marks[at].letter, marks[at].method));
    assert_eq!(kinds, [('F', Some(14)), ('A', None), ('S', Some(7))]);
    assert_eq!((marks.len(), marks[47].reason.as_str()), (48, "32"));
    assert_eq!(marks[47].description, "burnt");
}

#[test]
fn the_days_are_numbered_from_2000() {
    for (date, number) in [
        ("20000101", 0),
        ("20000229", 59),
        ("20240501", 0x22B7),
        ("20991231", 36_524),
    ] {
        let mut lines = lines();
        lines[2] = day(date, "A,,,20040502103222,");
        lines.drain(3..7);
        let export = read_lines(&lines).expect("an export");
        assert_eq!(export.days[0].number, number);
    }
}

/// A record in place of another is not read.
#[track_caller]
fn unread(at: usize, line: &str) {
    let mut lines = lines();
    lines[at] = line.to_string();
    let what = read_lines(&lines).expect_err(line);
    assert!(what.starts_with("record"), "{what}");
}

#[test]
fn headers_are_strict() {
    for line in [
        "100,NEM13,200405011135,MDA1,Ret1",
        "100,NEM12,20040501113500,MDA1,Ret1",
        "100,NEM12,20040501113,MDA1,Ret1",
        "100,NEM12,200405011135,MDA1",
        "100,NEM12,200405011135,MDA1,Ret1,",
        "",
        METER,
    ] {
        unread(0, line);
    }
    for line in [
        "200,VABD00016,E1Q1,1,E1,N1,METSER123,kWh,30,20040601",
        "200,VABD000163,E1Q1,1,E1,N1,METSER123,Wh,30,20040601",
        "200,VABD000163,E1Q1,1,E1,N1,METSER123,kWh,030,20040601",
        "200,VABD000163,E1Q1,1,E1,N1,METSER123,kWh,20,20040601",
        "200,VABD000163,E1Q1,1,E1,N1,METSER123,kWh,15,20040601",
        "200,VABD000163,E1Q1,1,E1,N1,METSER123,kWh,30",
        "200,VABD000163,E1Q1,1,E1,N1,MET\tSER,kWh,30,20040601",
        HEADER,
    ] {
        unread(1, line);
    }
}

#[test]
fn days_are_strict() {
    let good = day("20040229", "A,,,20040502103222,");
    for (from, to) in [
        ("20040229", "20040230"),
        ("20040229", "20030229"),
        ("20040229", "20041301"),
        ("20040229", "2004-2-9"),
        ("20040229", "20040301"),
        (",0.000,", ",0.00,"),
        (",0.000,", ",0.0000,"),
        (",0.000,", ",00.000,"),
        (",0.000,", ",.000,"),
        (",0.000,", ",0,"),
        (",0.000,", ",-0.000,"),
        (",0.000,", ",+1.000,"),
        (",0.000,", ",01.000,"),
        (",0.000,", ", 1.000,"),
        (",0.000,", ",1e3.000,"),
        (",0.000,", ",,"),
        (",0.000,", ","),
        (",0.000,", ",0.000,0.000,"),
        (",A,", ",A01,"),
        (",A,", ",S,"),
        (",A,", ",S1,"),
        (",A,", ",F100,"),
        (",A,", ",Sx1,"),
        (",A,", ",V,"),
        (",A,", ",E,"),
        (",A,", ",,"),
        ("20040502103222", "200405021032"),
        ("20040502103222", ""),
    ] {
        assert!(good.contains(from));
        unread(2, &good.replacen(from, to, 1));
    }
}

#[test]
fn runs_cover_the_day() {
    for (at, line) in [
        (4, "400,2,20,F14,76,"),
        (4, "400,0,20,F14,76,"),
        (4, "400,1,19,F14,76,"),
        (4, "400,1,21,F14,76,"),
        (4, "400,01,20,F14,76,"),
        (4, "400,1,20,V,,"),
        (4, "400,1,20,F,76,"),
        (4, "400,1,20,F14,76"),
        (4, "400,1,20,F14,76,,"),
        (5, "400,21,20,A,,"),
        (6, "400,22,47,S07,32,"),
        (6, "400,22,49,S07,32,"),
        (6, "900"),
    ] {
        unread(at, line);
    }
    for at in 4..7 {
        let mut lines = lines();
        lines.remove(at);
        assert!(read_lines(&lines).is_err(), "without {at}");
    }
    // Behind a day alike, and before any day.
    let mut lines = lines();
    lines.insert(3, "400,1,48,A,,".to_string());
    assert!(read_lines(&lines).is_err());
    lines.swap(2, 3);
    assert!(read_lines(&lines).is_err());
}

#[test]
fn the_900_is_last() {
    let lines = lines();
    assert!(read_lines(&lines[..7]).is_err());
    assert!(read_lines(&lines[..6]).is_err());
    assert!(read_lines(&[&lines[..], &lines[7..]].concat()).is_err());
    assert!(read_lines(&[&lines[..2], &lines[7..]].concat()).is_err());
    unread(7, "900,");
    unread(7, "901");
    let text = lines.join("\r\n");
    assert!(read(text.as_bytes()).is_err());
    assert!(read(format!("{text}\n").as_bytes()).is_err());
    assert!(read(format!("{text}\r\n\r\n").as_bytes()).is_err());
    assert!(read(format!("{}\n", lines.join("\n")).as_bytes()).is_err());
    assert!(read(b"").is_err());
    assert!(read(b"\r\n").is_err());
    assert!(read(b"\xFF\r\n").is_err());
    assert!(read(format!("{text}\r\n").as_bytes()).is_ok());
}
