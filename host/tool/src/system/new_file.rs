//! A file that a command writes: never in the place of another one unless the user says so, and never half.

use crate::system::ending::Ending;
use crate::system::files::quoted_name;
use crate::system::messages::say;
use crate::system::output::print;
use std::ffi::OsStr;
use std::fs::{self, OpenOptions};
use std::io::{self, Write};
use std::os::unix::fs::MetadataExt;
use std::path::Path;

/// Writes bytes into a new file, and prints what is `told` of it; with `force`, also in the place of an old one. The file that
/// the command has `read` (`-` for standard input) is never written over, by whatever name.
pub fn write(file: &OsStr, bytes: &[u8], force: bool, read: &OsStr, told: &str) -> Ending {
    match written(file, bytes, force, read) {
        Ok(()) => print(told),
        Err(message) => {
            say(&message);
            Ending::NotReadOrWritten
        }
    }
}

/// Writes the file. The error is the message to show: what is wrong, and what to do.
pub fn written(file: &OsStr, bytes: &[u8], force: bool, read: &OsStr) -> Result<(), String> {
    let name = quoted_name(file);
    if read != "-" && are_one_file(file, read) {
        return Err(format!(
            "{name} is the file that is read, and is left as it is. Name another file."
        ));
    }
    let path = Path::new(file);
    let written = match write_new(path, bytes) {
        Err(error) if error.kind() == io::ErrorKind::AlreadyExists => match force {
            true => write_over(path, bytes),
            false => {
                return Err(format!(
                    "{name} is there already, and is left as it is. Name another file, or say \
                     --force to write over this one."
                ))
            }
        },
        written => written,
    };
    written.map_err(|error| {
        format!(
            "{name} cannot be written: {error}. Name a file in a folder that is there, has room, \
             and lets you write."
        )
    })
}

/// Whether two names lead to one file, through links of either kind.
fn are_one_file(one: &OsStr, other: &OsStr) -> bool {
    match (fs::metadata(one), fs::metadata(other)) {
        (Ok(one), Ok(other)) => (one.dev(), one.ino()) == (other.dev(), other.ino()),
        _ => false,
    }
}

/// Writes a file that is not there yet. Where not all of it can be written, none of it stays.
fn write_new(path: &Path, bytes: &[u8]) -> io::Result<()> {
    let mut file = OpenOptions::new().write(true).create_new(true).open(path)?;
    file.write_all(bytes)
        .and_then(|()| file.sync_all())
        .map_err(|error| without(path, error))
}

/// Puts a new file in the place of an old one in one step, so that a failure leaves the old one whole. A link stays a
/// link: what it leads to is replaced.
fn write_over(path: &Path, bytes: &[u8]) -> io::Result<()> {
    let path = fs::canonicalize(path)?;
    let old = fs::metadata(&path)?;
    if !old.is_file() {
        return Err(io::Error::new(
            io::ErrorKind::Other,
            "it is a folder or a device",
        ));
    }
    let beside = path.with_file_name(format!(".kpalumere-{}.new", std::process::id()));
    write_new(&beside, bytes)?;
    fs::set_permissions(&beside, old.permissions())
        .and_then(|()| fs::rename(&beside, &path))
        .map_err(|error| without(&beside, error))
}

/// The error, once what was written of a file is removed.
fn without(path: &Path, error: io::Error) -> io::Error {
    // Where it cannot be removed either, the first error is the one to tell.
    drop(fs::remove_file(path));
    error
}
