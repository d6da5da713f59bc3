//! `kpalumere extract`: the bytes of one entry, or of all, into files.

mod all;
mod one;

use crate::arguments::command::{Command, Job, WRONG_WORDS};
use crate::arguments::wanted_entry::{WantedEntry, AT};
use crate::arguments::words::{file, folder, force, given, later_word, option, required, FORCE};
use crate::shown::forms;
use crate::shown::names;
use bindings::{Entry, Part};
use clap::ArgMatches;
use std::ffi::OsString;

pub static COMMAND: Command = Command {
    name: "extract",
    does: "the bytes of one entry into a file, or of all into a folder",
    words: |command| {
        command
            .override_usage(USAGE)
            .arg(file("IMAGE", "a flash image, or - for standard input"))
            .args(WantedEntry::words())
            .arg(later_word(
                FILE,
                "the file to write, or - for standard output",
            ))
            .arg(
                option(
                    ALL,
                    "FOLDER",
                    "write every entry that has bytes into that folder",
                    folder,
                )
                .conflicts_with_all([AT, "LEVEL"]),
            )
            .arg(force())
    },
    help: || HELP.to_string(),
    statuses: &[
        (0, "the bytes are written"),
        WRONG_WORDS,
        (3, "the image cannot be read or a file cannot be written"),
        (5, "an entry or its bytes are refused, and not written"),
    ],
    read,
};

/// The ways to name what is extracted.
const USAGE: &str = "\
kpalumere extract [OPTIONS] <IMAGE> <LEVEL> <INDEX> <FILE>
       kpalumere extract [OPTIONS] <IMAGE> --at <PLACE> <INDEX> <FILE>
       kpalumere extract [OPTIONS] <IMAGE> --all <FOLDER>";

/// The word behind those that name an entry, and the option that stands for all of them.
const FILE: &str = "FILE";
const ALL: &str = "all";

/// What `extract --help` says.
const HELP: &str = "\
Level 2 may have several directories. `kpalumere register IMAGE` lists them all
with the places where they begin, and --at takes any of these. Numbers are
decimal, or 0x and hexadecimal. Where FILE is - the bytes go to standard output,
and what is told of them to standard error.

--all takes the entries of all directories that the register lists. FOLDER is
made where it is not there, and nothing is written outside it. A file's name has
the directory's level and place, and the entry's index, type and subprogram:
  level2-0x28000-000-0x01-0x00-boot-loader.bin
An entry without bytes is left out, and it is told why; that it holds a value is
no fault. What is refused is told with the header or the entry at fault, the
field that is wrong, what stands in it and what should.

A file that is there already is left as it is, unless --force is given; then it
is replaced in one step, so that a failure leaves it whole. The image itself is
never written over.

Try it:
  kpalumere extract board.rom 1 0 key.bin
  kpalumere extract board.rom --at 0x28000 0 boot.bin
  kpalumere extract board.rom --all board.parts
";

fn read(matches: &ArgMatches) -> Result<Job, String> {
    let image: OsString = required(matches, "IMAGE");
    let force = matches.get_flag(FORCE);
    if let Some(folder) = given::<OsString>(matches, ALL) {
        return Ok(Box::new(move || all::run(&image, &folder, force)));
    }
    let (wanted, more) = WantedEntry::read(matches, &[FILE])?;
    Ok(Box::new(move || one::run(&image, wanted, &more[0], force)))
}

/// What is told of bytes that are written.
fn told(holder: &str, whose: &str, entry: Entry, part: Part) -> String {
    format!(
        "{holder} holds the {} of {whose}, {}: {}",
        forms::bytes(part.length),
        names::numbered_type(entry.class),
        forms::range_of_image(part)
    )
}
