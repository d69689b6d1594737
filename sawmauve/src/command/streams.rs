//! What is read and written under a name, `-` for the standard streams.

use super::closed;
use super::trouble::Trouble;
use sawmauve::{Error, LONGEST};
use std::ffi::OsStr;
use std::fs::{self, File};
use std::io::{self, IsTerminal, Read, Stdin, Write};
use std::os::fd::AsFd;

fn standard_input() -> io::Result<Stdin> {
    if closed::input() {
        return Err(io::Error::other("closed"));
    }
    Ok(io::stdin())
}

fn all_of(from: &mut dyn Read) -> io::Result<Vec<u8>> {
    let mut bytes = Vec::new();
    from.read_to_end(&mut bytes)?;
    Ok(bytes)
}

/// All bytes under a name.
pub fn read(name: &OsStr) -> Result<Vec<u8>, Trouble> {
    let bytes = match name == "-" {
        true => standard_input().and_then(|mut input| all_of(&mut input)),
        false => fs::read(name),
    };
    bytes.map_err(|error| Trouble::io(name, &error))
}

/// The file under a name, or the reader's refusal. Of what is longer than any file one byte more is read, for which the reader refuses it.
pub fn read_file(name: &OsStr) -> Result<Result<sawmauve::File, Error>, Trouble> {
    const MOST: u64 = LONGEST as u64 + 1;
    let bytes = match name == "-" {
        true => standard_input().and_then(|input| all_of(&mut input.take(MOST))),
        false => File::open(name).and_then(|file| all_of(&mut file.take(MOST))),
    };
    bytes
        .map(sawmauve::File::read)
        .map_err(|error| Trouble::io(name, &error))
}

fn standard_output(bytes: &[u8]) -> io::Result<()> {
    if closed::output() {
        return Err(io::Error::other("closed"));
    }
    let mut out = File::from(io::stdout().as_fd().try_clone_to_owned()?);
    out.write_all(bytes)
}

/// All bytes to standard output.
pub fn write(bytes: &[u8]) -> Result<(), Trouble> {
    standard_output(bytes).map_err(|error| Trouble::io(OsStr::new("standard output"), &error))
}

/// Bytes that are no text to standard output, unless that is a terminal.
pub fn write_bytes(bytes: &[u8]) -> Result<(), Trouble> {
    if io::stdout().is_terminal() {
        return Err(Trouble::line(
            "standard output is a terminal, and this is no text",
        ));
    }
    write(bytes)
}
