//! The bytes of one entry, into a file or to standard output.

use super::told;
use crate::arguments::wanted_entry::{WantedDirectory, WantedEntry};
use crate::shown::entry::{bytes_of, EntryShown};
use crate::shown::forms;
use crate::shown::places::Refused;
use crate::system::ending::Ending;
use crate::system::files::{self, quoted_name};
use crate::system::messages::say;
use crate::system::new_file;
use crate::system::output::{print, write};
use bindings::{Answer, Directory, Entry, Part};
use std::ffi::OsStr;

/// Writes the bytes of an entry of the image that a file holds into a new file, or to standard output where its name is `-`.
pub fn run(name: &OsStr, wanted: WantedEntry, file: &OsStr, force: bool) -> Ending {
    let to_output = file == "-";
    files::asked(name, |image| match part(image, wanted) {
        Err(refusal) => {
            let told = Refused::by(image, refusal).text("; nothing is written");
            // Standard output has the bytes or nothing.
            let printed = match to_output {
                true => told
                    .lines()
                    .fold(Ending::Done, |_, line| said(line.trim_start())),
                false => print(&told),
            };
            printed.and(Ending::Refused)
        }
        Ok((directory, entry, part)) => {
            let bytes = bytes_of(image, part);
            let whose = forms::entry(wanted.index, &directory_words(wanted, directory));
            match to_output {
                true => {
                    let told = told("standard output", &whose, entry, part);
                    write(bytes).and(said(&told))
                }
                false => {
                    let told = told(&quoted_name(file), &whose, entry, part);
                    new_file::write(file, bytes, force, name, &format!("{told}\n"))
                }
            }
        }
    })
}

/// The entry with its directory, and where the library says that its bytes lie.
fn part(image: &[u8], wanted: WantedEntry) -> Answer<(Directory, Entry, Part)> {
    let (directory, shown) = EntryShown::wanted(image, wanted)?;
    Ok((directory, shown.entry, shown.part?))
}

/// The directory by what it was asked for.
fn directory_words(wanted: WantedEntry, directory: Directory) -> String {
    match wanted.directory {
        WantedDirectory::Level(level) => forms::level(level),
        WantedDirectory::At(place) => forms::directory(directory.level, place as u64),
    }
}

fn said(told: &str) -> Ending {
    say(told);
    Ending::Done
}
