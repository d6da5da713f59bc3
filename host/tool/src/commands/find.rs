//! `kpalumere find`: the first entry of a type and subprogram, in the whole image or in one directory.

use crate::arguments::command::{Command, Job, WRONG_WORDS};
use crate::arguments::numbers::{number32, number8};
use crate::arguments::words::{file, given, json, option, required, word};
use crate::shown::answer::{show, Asked};
use crate::shown::entry::EntryShown;
use crate::shown::forms;
use crate::shown::json::{Fields, Json};
use crate::shown::names;
use crate::shown::places::Refused;
use crate::shown::refusals;
use crate::shown::shell;
use bindings::{directory, find_image, Answer, ImageMatch, Part, Refusal};
use clap::ArgMatches;
use std::ffi::OsStr;
use std::os::unix::ffi::OsStrExt;

pub static COMMAND: Command = Command {
    name: "find",
    does: "where the first entry of a type and subprogram lies",
    words: |command| {
        command
            .arg(file("IMAGE", "a flash image, or - for standard input"))
            .arg(word(
                "TYPE",
                "a number, or one of the names below",
                |_, word| names::read_entry_type(OsStr::from_bytes(word)),
            ))
            .arg(word("SUB", "the subprogram, a number", number8))
            .arg(option(
                LEVEL,
                "L",
                "search the directory of that level alone",
                number32,
            ))
            .arg(json())
    },
    help,
    statuses: &[
        (
            0,
            "it is found and its bytes lie in the image, or it holds a value",
        ),
        (1, "there is none"),
        WRONG_WORDS,
        (
            3,
            "the image cannot be read or the output cannot be written",
        ),
        (5, "the image or the bytes are refused"),
    ],
    read,
};

/// The option that names one directory.
const LEVEL: &str = "level";

/// What `find --help` says.
fn help() -> String {
    let names = names::list_of_types();
    format!(
        "\
The whole image is searched: level 1 in order, and level 2 where an entry leads
to it, before the entry after that one. With --level L the directory of that
level is searched alone. Numbers are decimal, or 0x and hexadecimal. How many
entries were tested is told, found or not; and of what is found, the words that
extract its bytes. A directory that is refused is told with its header or the
entry at fault, the field that is wrong, what stands in it and what should.

Try it:
  kpalumere find board.rom boot-loader 0
  kpalumere find board.rom 0x08 1 --level 2

{names}"
    )
}

/// What is looked for, and where.
#[derive(Clone, Copy)]
struct Wanted {
    class: u8,
    subprogram: u8,
    /// The directory of one level; else the whole image.
    level: Option<u32>,
}

/// What was found.
struct Found {
    at: ImageMatch,
    shown: EntryShown,
}

fn read(matches: &ArgMatches) -> Result<Job, String> {
    let asked = Asked::read(matches, "IMAGE");
    let wanted = Wanted {
        class: required(matches, "TYPE"),
        subprogram: required(matches, "SUB"),
        level: given(matches, LEVEL),
    };
    Ok(Box::new(move || {
        show(
            &asked,
            |image| wanted.find(image),
            |image, answer| text(&asked.file, image, wanted, answer),
            |image, answer| fields(image, wanted, answer),
            |found| found.shown.ending(),
        )
    }))
}

impl Wanted {
    /// What the library finds, and what it answers about the entry found.
    fn find(self, image: &[u8]) -> Answer<Found> {
        let at = match self.level {
            None => find_image(image, self.class, self.subprogram)?,
            Some(level) => {
                let found = bindings::find(image, level, self.class, self.subprogram)?;
                let directory = directory(image, level)?;
                ImageMatch {
                    place: directory.place,
                    level: directory.level,
                    index: found.index,
                    tested: found.tested,
                }
            }
        };
        // A level two that the search went through need not be the one that a call by level opens.
        let shown = EntryShown::of(image, at.place as usize, at.index as usize)?;
        Ok(Found { at, shown })
    }

    /// What is said where there is none: how many entries were tested, and whether there was a directory at all.
    fn none(self, image: &[u8], tested: u64) -> String {
        let level = self.level.unwrap_or(1);
        match directory(image, level) {
            Err(refusal) if refusal.is(Refusal::ABSENT) => {
                format!(
                    "none ({}; there is no directory of {})\n",
                    forms::tested(tested),
                    forms::level(level)
                )
            }
            _ => format!("none ({})\n", forms::tested(tested)),
        }
    }
}

fn text(name: &OsStr, image: &[u8], wanted: Wanted, answer: &Answer<Found>) -> String {
    match answer {
        Ok(Found { at, shown }) => format!(
            "{} ({})\n{}{}",
            forms::entry(at.index, &forms::directory(at.level, at.place)),
            forms::tested(at.tested),
            shown.lines(),
            extract_line(name, *at, shown.part)
        ),
        Err(Refusal {
            tested: Some(tested),
            ..
        }) => wanted.none(image, *tested),
        Err(refusal) => Refused::by(image, *refusal).text(""),
    }
}

/// The words that extract what was found, as a shell takes them; none where there are no bytes to extract.
fn extract_line(name: &OsStr, at: ImageMatch, part: Answer<Part>) -> String {
    match part {
        Ok(Part { length: 1.., .. }) => format!(
            "  extract     kpalumere extract {} --at {:#x} {} FILE\n",
            shell::file_word(name),
            at.place,
            at.index
        ),
        _ => String::new(),
    }
}

fn fields(image: &[u8], wanted: Wanted, answer: &Answer<Found>) -> Fields {
    let found = answer.as_ref().ok();
    let refused = answer.as_ref().err();
    let refused = refused.map(|refusal| Refused::by(image, *refusal));
    let number =
        |of: fn(&ImageMatch) -> u64| Json::or_null(found, |found| Json::Number(of(&found.at)));
    let tested = match answer {
        Ok(found) => Some(found.at.tested),
        Err(refusal) => refusal.tested,
    };
    let mut fields = vec![
        ("type", Json::Number(u64::from(wanted.class))),
        ("subprogram", Json::Number(u64::from(wanted.subprogram))),
        (
            "in_level",
            Json::or_null(wanted.level, |level| Json::Number(u64::from(level))),
        ),
        ("tested", Json::or_null(tested, Json::Number)),
        ("refused", refusals::json(answer)),
    ];
    fields.extend(Refused::fields(refused.as_ref()));
    fields.extend([
        ("level", number(|at| at.level)),
        ("directory", number(|at| at.place)),
        (
            "entry",
            Json::or_null(found, |found| {
                Json::Object(found.shown.fields(found.at.index))
            }),
        ),
    ]);
    fields
}
