//! Exports to the market's files, W8; with `--export`, one made elsewhere with the file it was
//! made of.

use std::process::ExitCode;

use crosscheck::host;
use crosscheck::second::market::{Codes, MOST_CODE};
use crosscheck::tries::nem12::back::as_in_file;
use crosscheck::tries::nem12::{self, CLASSES, Files};
use crosscheck::tries::{self, Comparison};

pub fn run(words: &[String]) -> ExitCode {
    if let Some((first, rest)) = words.split_first()
        && first == "--export"
    {
        return export(rest);
    }
    let comparison = Comparison {
        name: "nem12",
        classes: CLASSES,
        tries: 2000,
    };
    comparison.run_with(words, Files::new, |files, rng, index, tally| {
        nem12::one(files, rng, index, Some(host::nem12), tally)
    })
}

/// Reads an export with the reader of NEM12 and compares it with a published file.
fn export(words: &[String]) -> ExitCode {
    let Some((export, file, codes)) = inputs(words) else {
        return tries::usage("nem12 --export EXPORT FILE and the codes of the methods 2 3 5 18 19");
    };
    match as_in_file(&export, &file, codes) {
        Ok(export) => {
            let slots: usize = export.days.iter().map(|day| day.values.len()).sum();
            println!("{} days, {slots} slots: as in the file", export.days.len());
            ExitCode::SUCCESS
        }
        Err(what) => {
            println!("difference: {what}");
            ExitCode::from(1)
        }
    }
}

/// The two files' bytes and the codes; what can't be read is named.
fn inputs(words: &[String]) -> Option<(Vec<u8>, Vec<u8>, Codes)> {
    let [export, file, codes @ ..] = words else {
        return None;
    };
    let codes: Option<Vec<u32>> = codes.iter().map(|code| code.parse().ok()).collect();
    let codes: Codes = codes?.try_into().ok()?;
    if codes.iter().any(|&code| code > MOST_CODE) {
        return None;
    }
    let read = |path: &String| {
        let bytes = std::fs::read(path).inspect_err(|error| eprintln!("{path}: {error}"));
        bytes.ok()
    };
    Some((read(export)?, read(file)?, codes))
}
