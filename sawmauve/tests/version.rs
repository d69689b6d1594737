//! One version number: in the package, the Makefile, the header, the manual page, the list of changes and what the command prints.

mod common;

use common::*;
use std::fs;

/// What stands in a file of the repository between two texts, the first of which is found first.
fn between(file: &str, before: &str, after: &str) -> String {
    let text = fs::read_to_string(home().join("..").join(file)).unwrap();
    let (_, rest) = text.split_once(before).expect(before);
    let (found, _) = rest.split_once(after).expect(after);
    found.to_string()
}

#[test]
fn one_version() {
    let version = env!("CARGO_PKG_VERSION");
    for (file, before, after) in [
        ("sawmauve/Cargo.toml", "\nversion = \"", "\"\n"),
        ("Makefile", "\nVERSION = ", "\n"),
        (
            "include/sawmauve.h",
            "\n#define SAWMAUVE_VERSION \"",
            "\"\n",
        ),
        ("sawmauve/sawmauve.1", "\"sawmauve ", "\""),
        ("CHANGELOG.md", "\n## ", "\n"),
    ] {
        assert_eq!(between(file, before, after), version, "{file}");
    }
    let printed = String::from_utf8(run(&["--version"]).stdout).unwrap();
    assert!(
        printed.starts_with(&format!("sawmauve {version} (")),
        "{printed}"
    );
}
