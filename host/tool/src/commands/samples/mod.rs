//! `kpalumere samples`: the samples that come with the tool, into a folder, to try the other commands on.

use crate::arguments::command::{Command, Job, WRONG_WORDS};
use crate::arguments::words::{folder, force, required, word, FORCE};
use crate::samples::board::board;
use crate::samples::machines::{Machine, MACHINES};
use crate::samples::recordings::{Recorded, RECORDINGS};
use crate::samples::refused::REFUSED;
use crate::shown::forms;
use crate::shown::refusals;
use crate::shown::shell;
use crate::system::ending::Ending;
use crate::system::files::quoted_name;
use crate::system::messages::say;
use crate::system::new_file;
use crate::system::new_folder;
use crate::system::output::print;
use bindings::Answer;
use clap::ArgMatches;
use std::ffi::{OsStr, OsString};
use std::path::{Path, PathBuf};

pub static COMMAND: Command = Command {
    name: "samples",
    does: "sample boards and recordings, to try the other commands on",
    words: |command| {
        command
            .arg(word(
                FOLDER,
                "the folder to write them into; made where it is not there",
                folder,
            ))
            .arg(force())
    },
    help: || HELP.to_string(),
    statuses: &[
        (0, "the samples are written"),
        WRONG_WORDS,
        (3, "the folder or a file cannot be written"),
    ],
    read,
};

/// The word that the command takes.
const FOLDER: &str = "FOLDER";

/// What `samples --help` says.
const HELP: &str = "\
FOLDER/boards gets a good board, which is the one that `kpalumere register`
shows where no image is named, and five machines on which no boot loader is
found, each for another reason. FOLDER/recordings gets two recordings of a sixth
machine, where two programs shared a mailbox, for `kpalumere check`: as it was
filed, and as it should be. docs/USER.md tells their story. FOLDER/refused gets
two boards more: one with a reserved bit set in entry 300 of 301, and one with a
header as amdfwtool, coreboot's tool, writes it.

Where a file of one of these names is there already, nothing is written, unless
--force is given; then it is replaced in one step.

Try it:
  kpalumere samples six
  kpalumere register --brief six/boards
  kpalumere check six/recordings/sixth-as-filed.check
";

/// The folders in FOLDER: two hold images alone, so that a register can be made of all in it.
const BOARDS: &str = "boards";
const OF_SIXTH: &str = "recordings";
const NOT_ACCEPTED: &str = "refused";

/// The name of the good board.
const BOARD: &str = "sample-board.rom";

/// What to do with the samples: a command, what it is done with, and the words that follow.
const NEXT: [(&str, &str, &str); 6] = [
    ("register --brief", "boards", ""),
    (
        "find",
        "boards/machine-5-thirteenth-of-twelve.rom",
        " boot-loader 0",
    ),
    (
        "entry",
        "boards/machine-5-thirteenth-of-twelve.rom",
        " 1 12",
    ),
    ("check", "recordings/sixth-as-filed.check", ""),
    ("check", "recordings/sixth-as-it-should-be.check", ""),
    ("register --brief", "refused", ""),
];

/// A sample, ready to be written.
struct Sample {
    folder: &'static str,
    name: &'static str,
    bytes: Vec<u8>,
}

fn read(matches: &ArgMatches) -> Result<Job, String> {
    let folder: OsString = required(matches, FOLDER);
    let force = matches.get_flag(FORCE);
    Ok(Box::new(move || run(&folder, force)))
}

fn run(folder: &OsStr, force: bool) -> Ending {
    match written(Path::new(folder), force) {
        Ok(told) => print(&told),
        Err(message) => {
            say(&message);
            Ending::NotReadOrWritten
        }
    }
}

/// Writes the samples into a folder, and tells what it holds then and what to try. The error is the message to show.
fn written(folder: &Path, force: bool) -> Result<String, String> {
    let samples = samples().map_err(|refusal| {
        let told = refusals::told(refusal);
        format!("the samples cannot be made: {told}. This is a fault of the tool.")
    })?;
    let files: Vec<PathBuf> = samples
        .iter()
        .map(|sample| folder.join(sample.folder).join(sample.name))
        .collect();
    let [boards, recordings, refused] =
        [BOARDS, OF_SIXTH, NOT_ACCEPTED].map(|inner| folder.join(inner));
    new_folder::made_ready(&[folder, &boards, &recordings, &refused], &files, force)?;
    let mut told = String::new();
    for (file, Sample { bytes, .. }) in files.iter().zip(&samples) {
        let name = file.as_os_str();
        // No file is read that could be written over.
        new_file::written(name, bytes, force, OsStr::new("-"))?;
        let length = forms::bytes(bytes.len() as u64);
        told.push_str(&format!("{} is written, {length}\n", quoted_name(name)));
    }
    Ok(told + &next(folder))
}

/// The samples, the boards first.
fn samples() -> Answer<Vec<Sample>> {
    let mut samples = vec![Sample {
        folder: BOARDS,
        name: BOARD,
        bytes: board()?,
    }];
    samples.extend(made(BOARDS, &MACHINES)?);
    samples.extend(RECORDINGS.iter().map(|Recorded { name, text }| Sample {
        folder: OF_SIXTH,
        name,
        bytes: text.as_bytes().to_vec(),
    }));
    samples.extend(made(NOT_ACCEPTED, &REFUSED)?);
    Ok(samples)
}

/// The images of machines, for a folder.
fn made(folder: &'static str, machines: &[Machine]) -> Answer<Vec<Sample>> {
    let samples = machines.iter().map(|Machine { name, make }| {
        Ok(Sample {
            folder,
            name,
            bytes: make()?,
        })
    });
    samples.collect()
}

/// The command lines to try, which can be typed as they stand.
fn next(folder: &Path) -> String {
    let mut text = String::from("\nTry next:\n");
    for (command, with, words) in NEXT {
        let path = shell::file_word(folder.join(with).as_os_str());
        text.push_str(&format!("  kpalumere {command} {path}{words}\n"));
    }
    text
}

#[cfg(test)]
mod tests {
    use super::*;

    #[test]
    fn what_is_to_be_tried_next_can_be_typed_as_it_stands() {
        let text = next(Path::new("my six"));
        assert!(text.contains("\n  kpalumere register --brief 'my six/boards'\n"));
        let text = next(Path::new("-six"));
        assert!(text.contains("\n  kpalumere check ./-six/recordings/sixth-as-filed.check\n"));
    }
}
