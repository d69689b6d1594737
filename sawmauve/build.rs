//! Links `libsawmauve.a` from the folder that SAWMAUVE_LIB names, `../build` without it, and names the kit that proved it:
//! SAWMAUVE_KIT, or what `rt version` answers.

use std::env;
use std::path::PathBuf;
use std::process::Command;

fn folder() -> PathBuf {
    let home = PathBuf::from(env::var_os("CARGO_MANIFEST_DIR").unwrap_or_default());
    match env::var_os("SAWMAUVE_LIB") {
        Some(named) => home.join(named),
        None => home.join("../build"),
    }
}

/// The kit's identity, one line.
fn kit() -> Result<String, String> {
    if let Ok(named) = env::var("SAWMAUVE_KIT") {
        return Ok(named);
    }
    let asked = Command::new("rt").arg("version").output();
    let output = asked
        .map_err(|e| format!("SAWMAUVE_KIT is not set, and `rt version` does not run: {e}"))?;
    if !output.status.success() {
        return Err("SAWMAUVE_KIT is not set, and `rt version` failed".to_string());
    }
    Ok(String::from_utf8_lossy(&output.stdout).into_owned())
}

fn told() -> Result<(), String> {
    let folder = folder();
    let archive = folder.join("libsawmauve.a");
    println!("cargo::rerun-if-changed={}", archive.display());
    if !archive.is_file() {
        return Err(format!(
            "{} is not there: `make` builds it, SAWMAUVE_LIB names another folder",
            archive.display()
        ));
    }
    let kit = kit()?;
    let kit = kit.lines().next().unwrap_or("").trim();
    if kit.is_empty() {
        return Err("the kit has no identity: SAWMAUVE_KIT or `rt version` is empty".to_string());
    }
    println!("cargo::rustc-env=SAWMAUVE_KIT={kit}");
    println!("cargo::rustc-link-search=native={}", folder.display());
    println!("cargo::rustc-link-lib=static=sawmauve");
    Ok(())
}

fn main() {
    for variable in ["SAWMAUVE_LIB", "SAWMAUVE_KIT"] {
        println!("cargo::rerun-if-env-changed={variable}");
    }
    println!("cargo::rerun-if-changed=build.rs");
    if let Err(line) = told() {
        println!("cargo::error={line}");
    }
}
