//! How a command that asks about one file shows the answer: in words for people, or with --json for programs.

use crate::arguments::command::Job;
use crate::arguments::words::{file, json, required, JSON};
use crate::shown::first_fields::first_fields;
use crate::shown::json::{Fields, Json};
use crate::system::ending::Ending;
use crate::system::files;
use crate::system::output::print;
use bindings::{Answer, Refusal};
use clap::{ArgMatches, Command};
use std::ffi::OsString;

/// The file that is asked about, and for whom the answer is shown.
pub struct Asked {
    pub file: OsString,
    for_programs: bool,
}

impl Asked {
    /// What the words of a command ask: the file that one of them names, and `--json`.
    pub fn read(matches: &ArgMatches, file: &str) -> Asked {
        Asked {
            file: required(matches, file),
            for_programs: matches.get_flag(JSON),
        }
    }
}

/// The words of a command that shows the table of one file.
pub fn table_words(command: Command, says: &'static str) -> Command {
    command.arg(file("FILE", says)).arg(json())
}

/// The job of such a command. A table that is given ends it well.
pub fn table_shown<T: 'static>(
    matches: &ArgMatches,
    ask: fn(&[u8]) -> Answer<T>,
    for_people: fn(&Answer<T>) -> String,
    for_programs: fn(&Answer<T>) -> Fields,
) -> Result<Job, String> {
    let asked = Asked::read(matches, "FILE");
    Ok(Box::new(move || {
        let for_people = |_: &[u8], answer: &_| for_people(answer);
        let for_programs = |_: &[u8], answer: &_| for_programs(answer);
        show(&asked, ask, for_people, for_programs, |_| Ending::Done)
    }))
}

/// Asks about the bytes of the file, and shows the answer. What is given decides how the run ends; what is refused ends it with
/// that, and what is not found with a plain no.
pub fn show<T>(
    asked: &Asked,
    ask: impl FnOnce(&[u8]) -> Answer<T>,
    for_people: impl FnOnce(&[u8], &Answer<T>) -> String,
    for_programs: impl FnOnce(&[u8], &Answer<T>) -> Fields,
    ending: impl FnOnce(&T) -> Ending,
) -> Ending {
    let Asked { file, .. } = asked;
    files::asked(file, |bytes| {
        let answer = ask(bytes);
        let text = match asked.for_programs {
            true => {
                let mut fields = first_fields(file);
                fields.extend(for_programs(bytes, &answer));
                format!("{}\n", Json::Object(fields))
            }
            false => for_people(bytes, &answer),
        };
        print(&text).and(match &answer {
            Ok(given) => ending(given),
            Err(refusal) => of_refusal(*refusal),
        })
    })
}

/// How a run ends that the library refuses. A search that tested entries and found none is a plain no.
fn of_refusal(refusal: Refusal) -> Ending {
    match refusal.tested {
        Some(_) => Ending::No,
        None => Ending::Refused,
    }
}
