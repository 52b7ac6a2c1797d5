//! Printing, and files that are written whole or not at all.

use std::fs::{self, File, OpenOptions};
use std::io::{self, Write};
use std::path::{Path, PathBuf};
use std::process;

use crate::failure::Failure;

pub const STANDARD_OUTPUT: &str = "standard output";

/// Prints to standard output. That nobody reads on is a failure like any other, and no panic.
pub fn print(bytes: &[u8]) -> Result<(), Failure> {
    let mut out = io::stdout().lock();
    out.write_all(bytes).and_then(|()| out.flush()).map_err(|error| Failure::system(Path::new(STANDARD_OUTPUT), error))
}

/// Writes a file, or standard output for `-`.
pub fn write_file(out: &Path, bytes: &[u8]) -> Result<(), Failure> {
    if out == Path::new("-") {
        return print(bytes);
    }
    let written = match fs::metadata(out) {
        Ok(there) if there.is_dir() => Err(io::Error::from(io::ErrorKind::IsADirectory)),
        // A device or pipe cannot be replaced by a file, and must not be.
        Ok(there) if !there.is_file() => OpenOptions::new().write(true).open(out).and_then(|mut file| file.write_all(bytes)),
        _ => replace(out, bytes),
    };
    written.map_err(|error| Failure::system(out, error))
}

/// Writes a file beside OUT and gives it OUT's name when all of it is on the disk.
fn replace(out: &Path, bytes: &[u8]) -> io::Result<()> {
    // Behind a symbolic link the file is replaced, not the link.
    let target = fs::canonicalize(out).unwrap_or_else(|_| out.to_path_buf());
    let folder = match target.parent() {
        Some(folder) if folder != Path::new("") => folder.to_path_buf(),
        _ => PathBuf::from("."),
    };
    let (path, file) = create_beside(&folder)?;
    let done = fill(file, &target, bytes).and_then(|()| fs::rename(&path, &target));
    match done {
        Ok(()) => sync_folder(&folder),
        Err(_) => drop(fs::remove_file(&path)),
    }
    done
}

/// A new file of a name that nobody uses.
fn create_beside(folder: &Path) -> io::Result<(PathBuf, File)> {
    let mut number = 0;
    loop {
        let path = folder.join(format!(".tallowwing-{}-{number}", process::id()));
        match OpenOptions::new().write(true).create_new(true).open(&path) {
            Err(error) if error.kind() == io::ErrorKind::AlreadyExists && number < 100 => number += 1,
            opened => return opened.map(|file| (path, file)),
        }
    }
}

fn fill(mut file: File, target: &Path, bytes: &[u8]) -> io::Result<()> {
    file.write_all(bytes)?;
    if let Ok(there) = fs::metadata(target) {
        if there.is_file() {
            file.set_permissions(there.permissions())?;
        }
    }
    file.sync_all()
}

/// The new name is on the disk only with its folder. Some systems cannot sync a folder; the file is whole all the same.
fn sync_folder(folder: &Path) {
    if let Ok(folder) = File::open(folder) {
        let _ = folder.sync_all();
    }
}
