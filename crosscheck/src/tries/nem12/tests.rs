//! Meddled builds and exports are found.

use super::back::as_in_file;
use super::files::Made;
use super::restated::restated_export;
use super::*;
use crate::number::narrowed;
use std::ops::Range;

fn run(files: &Files, other: Nem12, kinds: Range<u64>) -> Result<Tally, String> {
    let mut tally = Tally::new(CLASSES);
    let of_kind = |index: &u64| kinds.contains(&(index % 16));
    for index in (0..640).filter(of_kind) {
        // The largest files are left to the program.
        if index % 160 == 3 || index % 480 == 86 {
            continue;
        }
        let mut rng = Rng::new(1, index);
        one(files, &mut rng, index, Some(other), &mut tally)?;
    }
    Ok(tally)
}

#[test]
fn every_class_but_the_largest_occurs() {
    let tally = run(&Files::new(1), SECOND, 0..16).expect("no difference");
    let largest = ["export of D 400", "export of D 400 with L 5"];
    assert_eq!(tally.missing(), largest);
}

/// Another wording of the second build's export, with its refusals.
fn reworded(
    (file, texts, codes): (&[u8], &Texts, Codes),
    out: &mut [u8],
    change: impl Fn(&str) -> String,
) -> u64 {
    let number = SECOND(file, texts, codes, &mut []);
    if number != 7 {
        return number;
    }
    let export = restated_export(file, texts, codes).map(|export| change(&export));
    let export = export.unwrap_or_default();
    match out.get_mut(..export.len()) {
        Some(room) => room.copy_from_slice(export.as_bytes()),
        None => return 7,
    }
    export.len() as u64
}

/// Each value of the 300s written in another way.
fn revalued(export: &str, change: fn(&str) -> String) -> String {
    let line = |line: &str| {
        if !line.starts_with("300,") {
            return line.to_string();
        }
        let mut fields: Vec<String> = line.split(',').map(String::from).collect();
        let end = fields.len() - 5;
        for value in &mut fields[2..end] {
            *value = change(value);
        }
        fields.join(",")
    };
    let lines: Vec<String> = export.split("\r\n").map(line).collect();
    lines.join("\r\n")
}

/// Days written with a V and runs of what is no run: letters and methods of the file
/// that differ though they are written alike.
fn told_apart(file: &[u8], export: &str, letter: u8) -> String {
    let mut lines: Vec<String> = export.split("\r\n").map(String::from).collect();
    let day = lines.iter().position(|line| line.starts_with("300,"));
    let day = day.expect("a first day");
    let n = lines[day].split(',').count() - 7;
    let kinds: Vec<[u8; 2]> = (0..n).map(|k| [file[6 * k + 4], file[6 * k + 5]]).collect();
    let runs: Vec<&[[u8; 2]]> = kinds.chunk_by(|one, two| one == two).collect();
    let all = kinds.iter().all(|kind| kind[0] == letter);
    let varies = lines[day].contains(",V,");
    if !all || varies || runs.len() < 2 {
        return export.to_string();
    }
    let fields: Vec<String> = lines[day].split(',').map(String::from).collect();
    let (quality, reason) = (&fields[n + 2], &fields[n + 3]);
    lines[day] = lines[day].replace(&format!(",{quality},{reason},"), ",V,,");
    let mut last = 0;
    for (at, run) in runs.into_iter().enumerate() {
        let first = last + 1;
        last += run.len();
        let record = format!("400,{first},{last},{quality},{reason},");
        lines.insert(day + 1 + at, record);
    }
    lines.join("\r\n")
}

/// The first run of more than one slot, and not the day's last, ends one early.
fn one_early(export: &str) -> String {
    let mut lines: Vec<String> = export.split("\r\n").map(String::from).collect();
    for at in 1..lines.len() {
        let (one, two) = (lines[at - 1].clone(), lines[at].clone());
        let (one, two): (Vec<&str>, Vec<&str>) =
            (one.split(',').collect(), two.split(',').collect());
        if one[0] == "400" && two[0] == "400" && one[1] != one[2] {
            let last: usize = one[2].parse().expect("a number");
            let kept = last.to_string();
            let [mut one, mut two] = [one, two];
            let early = (last - 1).to_string();
            (one[2], two[1]) = (&early, &kept);
            (lines[at - 1], lines[at]) = (one.join(","), two.join(","));
            break;
        }
    }
    lines.join("\r\n")
}

const MEDDLED: &[(&str, Nem12)] = &[
    ("two decimals", |file, texts, codes, out| {
        reworded((file, texts, codes), out, |export| {
            revalued(export, |value| value[..value.len() - 1].to_string())
        })
    }),
    ("(A,0) and (A,1) told apart", |file, texts, codes, out| {
        reworded((file, texts, codes), out, |export| {
            told_apart(file, export, b'A')
        })
    }),
    (
        "methods with one code told apart",
        |file, texts, codes, out| {
            reworded((file, texts, codes), out, |export| {
                told_apart(file, export, b'S')
            })
        },
    ),
    ("a run ended one early", |file, texts, codes, out| {
        reworded((file, texts, codes), out, one_early)
    }),
    ("a leading zero", |file, texts, codes, out| {
        reworded((file, texts, codes), out, |export| {
            revalued(export, |value| match value.as_bytes()[0] {
                b'0' => value.to_string(),
                _ => format!("0{value}"),
            })
        })
    }),
    ("no zero before the point", |file, texts, codes, out| {
        reworded((file, texts, codes), out, |export| {
            revalued(export, |value| match value.strip_prefix("0.") {
                Some(rest) => format!(".{rest}"),
                None => value.to_string(),
            })
        })
    }),
    ("values of 24 bits", |file, texts, codes, out| {
        reworded((file, texts, codes), out, |export| {
            revalued(export, |value| {
                let value: f32 = value.parse().expect("a value");
                format!("{value:.3}")
            })
        })
    }),
    ("LF alone", |file, texts, codes, out| {
        reworded((file, texts, codes), out, |export| export.replace('\r', ""))
    }),
    ("no end behind the 900", |file, texts, codes, out| {
        reworded((file, texts, codes), out, |export| {
            export.trim_end().to_string()
        })
    }),
    ("a code without its zero", |file, texts, codes, out| {
        reworded((file, texts, codes), out, |export| {
            export.replace(",S0", ",S").replace(",F0", ",F")
        })
    }),
    ("no empty field at the end", |file, texts, codes, out| {
        reworded((file, texts, codes), out, |export| {
            export.replace(",A,,\r\n", ",A,\r\n")
        })
    }),
    ("14 digits in the 100", |file, texts, codes, out| {
        reworded((file, texts, codes), out, |export| {
            export.replacen(",NEM12,", ",NEM12,00", 1)
        })
    }),
    ("15 before 14", |file, texts, codes, out| {
        match SECOND(file, texts, codes, out) {
            14 if codes.iter().any(|&code| code > 99) => 15,
            number => number,
        }
    }),
    ("14 before 9", |file, texts, codes, out| {
        match SECOND(file, texts, codes, out) {
            9 if texts.identifier.len() != 10 => 14,
            number => number,
        }
    }),
    ("15 before 8", |file, texts, codes, out| {
        match SECOND(file, texts, codes, out) {
            8 if texts.created.len() != 14 => 15,
            number => number,
        }
    }),
    ("7 before 15", |file, texts, codes, out| {
        match SECOND(file, texts, codes, out) {
            15 if out.len() < 200 => 7,
            number => number,
        }
    }),
    ("takes an I", |file, texts, codes, out| {
        let identifier: Vec<u8> = texts
            .identifier
            .iter()
            .map(|&byte| if byte == b'I' { b'J' } else { byte })
            .collect();
        let texts = Texts {
            identifier: &identifier,
            ..*texts
        };
        SECOND(file, &texts, codes, out)
    }),
    ("takes code 100", |file, texts, codes, out| {
        SECOND(
            file,
            texts,
            codes.map(|code| if code == 100 { 99 } else { code }),
            out,
        )
    }),
    ("takes 0x7F in the serial", |file, texts, codes, out| {
        let serial = match texts.serial.contains(&0x7F) {
            true => b"",
            false => texts.serial,
        };
        SECOND(file, &Texts { serial, ..*texts }, codes, out)
    }),
    (
        "wants one byte more",
        |file, texts, codes, out| match SECOND(file, texts, codes, &mut out.to_vec()) {
            length if length == out.len() as u64 => 7,
            _ => SECOND(file, texts, codes, out),
        },
    ),
    ("writes on refusal", |file, texts, codes, out| {
        let code = SECOND(file, texts, codes, out);
        if let (7, Some(byte)) = (code, out.first_mut()) {
            *byte ^= 1;
        }
        code
    }),
    ("writes after it", |file, texts, codes, out| {
        let code = SECOND(file, texts, codes, out);
        if let (32.., Some(byte)) = (code, out.get_mut(narrowed::<usize>(code))) {
            *byte ^= 1;
        }
        code
    }),
];

#[test]
fn meddled_builds_are_found() {
    let files = Files::new(1);
    let same: Nem12 =
        |file, texts, codes, out| reworded((file, texts, codes), out, |export| export.to_string());
    // Without the published files, which take longer to make.
    assert!(run(&files, same, 5..16).is_ok(), "the same words");
    for (name, meddled) in MEDDLED {
        assert!(run(&files, *meddled, 5..16).is_err(), "{name}");
    }
}

/// The wordings by the reader alone, which knows nothing of the builds.
#[test]
fn meddled_exports_are_not_read_back() {
    let mut found = vec![false; 12];
    for index in 0..60 {
        let mut rng = Rng::new(7, index);
        let file = Made::random(&mut rng).file();
        let (given, codes) = (texts(&mut rng), codes(&mut rng));
        for (found, (_, meddled)) in found.iter_mut().zip(MEDDLED) {
            let mut out = vec![0; 2_000_000];
            let length = meddled(&file, &given.lent(), codes, &mut out);
            let back = as_in_file(&out[..narrowed(length)], &file, codes);
            *found |= back.is_err();
        }
    }
    for (found, (name, _)) in found.into_iter().zip(MEDDLED) {
        assert!(found, "{name}");
    }
}
