//! A file put in its place whole: written under a name that begins with a dot, read back, flushed and renamed. A run that fails or is
//! interrupted leaves the old file.

use std::fs::{self, File, OpenOptions};
use std::io::{self, Read, Seek, Write};
use std::path::{Path, PathBuf};
use std::process;
use std::sync::atomic::{AtomicU32, Ordering};

/// The folder that a name lies in.
fn folder_of(path: &Path) -> &Path {
    match path.parent() {
        Some(folder) if !folder.as_os_str().is_empty() => folder,
        _ => Path::new("."),
    }
}

/// A new file beside the one that it will replace.
fn create_beside(path: &Path) -> io::Result<(PathBuf, File)> {
    static NEXT: AtomicU32 = AtomicU32::new(0);
    loop {
        let name = format!(
            ".sawmauve-{}-{}",
            process::id(),
            NEXT.fetch_add(1, Ordering::Relaxed)
        );
        let beside = folder_of(path).join(name);
        match OpenOptions::new()
            .read(true)
            .write(true)
            .create_new(true)
            .open(&beside)
        {
            Err(error) if error.kind() == io::ErrorKind::AlreadyExists => {}
            opened => return opened.map(|file| (beside, file)),
        }
    }
}

/// Whether what was read back is a file of its kind.
pub type Check = fn(&[u8]) -> bool;

/// Writes a file's bytes and reads them back: what stands there is what was written, and the check accepts it.
fn write_and_read_back(file: &mut File, bytes: &[u8], check: Check) -> io::Result<()> {
    file.write_all(bytes)?;
    let mut back = Vec::with_capacity(bytes.len());
    file.rewind()?;
    file.read_to_end(&mut back)?;
    if back != bytes || !check(&back) {
        return Err(io::Error::other("what was written reads back otherwise"));
    }
    file.sync_all()
}

fn replace(path: &Path, bytes: &[u8], check: Check, old: Option<fs::Metadata>) -> io::Result<()> {
    let (beside, mut file) = create_beside(path)?;
    let done = match old {
        Some(old) => file.set_permissions(old.permissions()),
        None => Ok(()),
    };
    let done = done
        .and_then(|()| write_and_read_back(&mut file, bytes, check))
        .and_then(|()| fs::rename(&beside, path));
    if done.is_err() {
        let _ = fs::remove_file(&beside);
    }
    done
}

/// Puts a file in its place, and answers the folder in which a name changed and that is still to be flushed. Behind a symbolic link the
/// place is the one that it leads to; a device or a pipe is written to.
pub fn store(path: &Path, bytes: &[u8], check: Check) -> io::Result<Option<PathBuf>> {
    let place = fs::canonicalize(path).unwrap_or_else(|_| path.to_path_buf());
    match fs::metadata(&place) {
        Ok(old) if old.is_file() => replace(&place, bytes, check, Some(old))?,
        Ok(other) if other.is_dir() => return Err(io::ErrorKind::IsADirectory.into()),
        Ok(_) => {
            OpenOptions::new()
                .write(true)
                .open(&place)?
                .write_all(bytes)?;
            return Ok(None);
        }
        Err(error) if error.kind() == io::ErrorKind::NotFound => {
            replace(&place, bytes, check, None)?
        }
        Err(error) => return Err(error),
    }
    Ok(Some(folder_of(&place).to_path_buf()))
}

/// Flushes a folder, so that the new names in it stay; some file systems have no such flush and call it an invalid argument.
pub fn flush_folder(folder: &Path) -> io::Result<()> {
    match File::open(folder)?.sync_all() {
        Err(error) if error.kind() == io::ErrorKind::InvalidInput => Ok(()),
        flushed => flushed,
    }
}
