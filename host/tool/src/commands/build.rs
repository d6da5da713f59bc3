//! `kpalumere build`: a directory from a description in text, written through the library.

use crate::arguments::command::{Command, Job, WRONG_WORDS};
use crate::arguments::lines::words_of;
use crate::arguments::numbers::{number, number32, number8};
use crate::arguments::quoted::quoted;
use crate::arguments::words::{file, force, required, FORCE};
use crate::arguments::wrong_words::sentence;
use crate::shown::forms;
use crate::shown::names;
use crate::shown::refusals;
use crate::system::ending::Ending;
use crate::system::files::{self, quoted_name};
use crate::system::messages::say;
use crate::system::new_file;
use crate::system::output::print;
use bindings::{extend, start, NewEntry, Refusal};
use clap::ArgMatches;
use std::ffi::{OsStr, OsString};
use std::os::unix::ffi::OsStrExt;

pub static COMMAND: Command = Command {
    name: "build",
    does: "a directory from a description in text, into a new file",
    words: |command| {
        command
            .arg(file("SPEC", "the description, or - for standard input"))
            .arg(file("FILE", "the file to write"))
            .arg(force())
    },
    help,
    statuses: &[
        (0, "FILE holds the directory"),
        (
            1,
            "a line of SPEC is no level or entry, and nothing is written",
        ),
        WRONG_WORDS,
        (3, "SPEC cannot be read or FILE cannot be written"),
        (5, "a line of SPEC is refused, and nothing is written"),
    ],
    read,
};

/// What `build --help` says.
fn help() -> String {
    let names = names::list_of_types();
    format!(
        "\
The first line of SPEC is `level 1` or `level 2`; each line after it is one
entry:
  TYPE SUB SIZE LOCATION MODE
TYPE is a number or one of the names below, and no two lines have the same TYPE
and SUB. MODE is how LOCATION counts: physical, image, directory, partition, or
its number 0 to 3. Numbers are decimal, or 0x and hexadecimal. Words are parted
by spaces or tabs; # starts a comment. The checksum is written with the entries.

A FILE that is there already is left as it is, unless --force is given; then it
is replaced in one step, so that a failure leaves it whole. Where a line is
wrong or an entry is refused, nothing is written.

Try it:
  printf 'level 1\\nboot-loader 0 0x100 0x1000 image\\n' |
    kpalumere build - board.dir

{names}"
    )
}

/// A description, once it is read: the line and the number of the level, and each entry with its line.
#[derive(Debug, PartialEq, Eq)]
struct Description {
    level: (usize, u32),
    entries: Vec<(usize, NewEntry)>,
}

/// A directory, and how many entries it has.
#[derive(Debug, PartialEq, Eq)]
struct Built {
    bytes: Vec<u8>,
    total: u64,
}

/// Something wrong with a line: its number, what is wrong and what to do.
type WrongLine = (usize, String);

fn read(matches: &ArgMatches) -> Result<Job, String> {
    let spec: OsString = required(matches, "SPEC");
    let file: OsString = required(matches, "FILE");
    let force = matches.get_flag(FORCE);
    Ok(Box::new(move || {
        files::asked(&spec, |text| run(&spec, text, &file, force))
    }))
}

fn run(spec: &OsStr, text: &[u8], file: &OsStr, force: bool) -> Ending {
    let name = files::shown_name(spec);
    let description = match described(text) {
        Ok(description) => description,
        Err(wrong) => {
            for (line, reason) in wrong {
                say(&format!(
                    "{}: {}",
                    forms::line(&name, line),
                    sentence(&reason)
                ));
            }
            say("nothing is written.");
            return Ending::BadLine;
        }
    };
    let built = match built(&description) {
        Ok(built) => built,
        Err((line, refusal)) => {
            let told = refused_words(&description, line, refusal);
            let text = format!("{}: {told}; nothing is written\n", forms::line(&name, line));
            return print(&text).and(Ending::Refused);
        }
    };
    let told = format!(
        "{} holds a directory of level {}, {}, {}\n",
        quoted_name(file),
        description.level.1,
        forms::bytes(built.bytes.len() as u64),
        forms::entries(built.total)
    );
    new_file::write(file, &built.bytes, force, spec, &told)
}

/// The directory that a description describes, as the library writes it; or the first line that it refuses.
fn built(description: &Description) -> Result<Built, (usize, Refusal)> {
    /// How many bytes a directory takes, and how many more each entry.
    const PIECE: usize = 16;
    let mut bytes = vec![0; PIECE * (1 + description.entries.len())];
    let (line, level) = description.level;
    start(&mut bytes, level).map_err(|refusal| (line, refusal))?;
    let mut total = 0;
    for (line, entry) in &description.entries {
        total = extend(&mut bytes, entry).map_err(|refusal| (*line, refusal))?;
    }
    Ok(Built { bytes, total })
}

/// Why a line is refused. Of an entry that repeats another the library gives the number alone; which line it repeats is in the
/// description.
fn refused_words(description: &Description, line: usize, refusal: Refusal) -> String {
    let told = refusals::told(refusal);
    match description.repeated_by(line) {
        Some((earlier, entry)) if refusal.is(Refusal::REPEATED) => format!(
            "{told}; line {earlier} has type {:#04x} and subprogram {:#04x} already, so leave one of the two lines out, or \
             give one another SUB",
            entry.class, entry.subprogram
        ),
        _ => told,
    }
}

impl Description {
    /// The first entry before a line that has the type and subprogram of the entry on it, and its own line.
    fn repeated_by(&self, line: usize) -> Option<(usize, &NewEntry)> {
        let at = self
            .entries
            .iter()
            .position(|(number, _)| *number == line)?;
        let pair = |entry: &NewEntry| (entry.class, entry.subprogram);
        let (_, entry) = &self.entries[at];
        let (number, earlier) = self.entries[..at]
            .iter()
            .find(|(_, earlier)| pair(earlier) == pair(entry))?;
        Some((*number, earlier))
    }
}

/// Reads a description, or tells every line of it that is wrong.
fn described(text: &[u8]) -> Result<Description, Vec<WrongLine>> {
    let lines = (1..).zip(text.split_inclusive(|&byte| byte == b'\n'));
    let mut lines = lines
        .map(|(line, text)| (line, words_of(text)))
        .filter(|(_, words)| !words.is_empty());
    let mut wrong = Vec::new();
    let mut noted = |line: usize, reason: String| wrong.push((line, reason));
    let level = match lines.next() {
        None => {
            noted(
                1,
                String::from(
                    "nothing is described; write `level 1` or `level 2`, and a line for each entry",
                ),
            );
            None
        }
        Some((line, words)) => match level_of(&words) {
            Ok(level) => Some((line, level)),
            Err(reason) => {
                noted(line, reason);
                None
            }
        },
    };
    let mut entries = Vec::new();
    for (line, words) in lines {
        match entry_of(&words) {
            Ok(entry) => entries.push((line, entry)),
            Err(reason) => noted(line, reason),
        }
    }
    match level {
        Some(level) if wrong.is_empty() => Ok(Description { level, entries }),
        _ => Err(wrong),
    }
}

fn level_of(words: &[&[u8]]) -> Result<u32, String> {
    match words {
        [b"level", level] => number32("the level", level),
        [first, ..] => Err(format!(
            "the first line begins with {}; write `level 1` or `level 2` before the entries",
            quoted(first)
        )),
        [] => Err(String::from("the line is empty")),
    }
}

fn entry_of(words: &[&[u8]]) -> Result<NewEntry, String> {
    match words {
        [class, subprogram, size, location, mode] => Ok(NewEntry {
            class: names::read_entry_type(OsStr::from_bytes(class))?,
            subprogram: number8("SUB", subprogram)?,
            size: number32("SIZE", size)?,
            location: number("LOCATION", location, u64::MAX)?,
            mode: names::read_address_mode(mode)?,
        }),
        [b"level", ..] => Err(String::from(
            "the level is given twice; describe each directory in a file of its own",
        )),
        _ => {
            let given = forms::counted(words.len() as u64, "word", "words");
            Err(format!(
                "{given} where an entry has 5; write `TYPE SUB SIZE LOCATION MODE`, as in \
                 `boot-loader 0 0x100 0x1000 image`"
            ))
        }
    }
}
