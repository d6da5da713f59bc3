//! `kpalumere entry`: one entry of a directory, with names and words, and where its bytes lie.

use crate::arguments::command::{Command, Job, WRONG_WORDS};
use crate::arguments::wanted_entry::{WantedDirectory, WantedEntry};
use crate::arguments::words::{file, json};
use crate::shown::answer::{show, Asked};
use crate::shown::entry::EntryShown;
use crate::shown::forms;
use crate::shown::json::{Fields, Json};
use crate::shown::places::Refused;
use crate::shown::refusals;
use bindings::{Answer, Directory};
use clap::ArgMatches;

pub static COMMAND: Command = Command {
    name: "entry",
    does: "one entry of a directory in words, and where its bytes lie",
    words: |command| {
        command
            .override_usage(USAGE)
            .arg(file("IMAGE", "a flash image, or - for standard input"))
            .args(WantedEntry::words())
            .arg(json())
    },
    help: || HELP.to_string(),
    statuses: &[
        (
            0,
            "the entry is given and its bytes lie in the image, or it holds a value",
        ),
        WRONG_WORDS,
        (
            3,
            "the image cannot be read or the output cannot be written",
        ),
        (5, "the entry or its bytes are refused"),
    ],
    read,
};

/// The two ways to name an entry.
const USAGE: &str = "\
kpalumere entry [OPTIONS] <IMAGE> <LEVEL> <INDEX>
       kpalumere entry [OPTIONS] <IMAGE> --at <PLACE> <INDEX>";

/// What `entry --help` says.
const HELP: &str = "\
Level 2 may have several directories. `kpalumere register IMAGE` lists them all
with the places where they begin, and --at takes any of these. Numbers are
decimal, or 0x and hexadecimal. What is refused in a directory is told with the
header or the entry at fault, the field that is wrong, what stands in it and
what should.

Try it:
  kpalumere entry board.rom 1 0
  kpalumere entry board.rom --at 0x28000 0
";

fn read(matches: &ArgMatches) -> Result<Job, String> {
    let asked = Asked::read(matches, "IMAGE");
    let (wanted, _) = WantedEntry::read(matches, &[])?;
    Ok(Box::new(move || {
        show(
            &asked,
            |image| EntryShown::wanted(image, wanted),
            |image, answer| text(image, wanted, answer),
            |image, answer| fields(image, wanted, answer),
            |(_, shown)| shown.ending(),
        )
    }))
}

fn text(image: &[u8], wanted: WantedEntry, answer: &Answer<(Directory, EntryShown)>) -> String {
    match answer {
        Ok((directory, shown)) => format!(
            "{}, which has {}\n{}",
            forms::entry(
                wanted.index,
                &forms::directory(directory.level, directory.place)
            ),
            forms::entries(directory.total),
            shown.lines()
        ),
        Err(refusal) => Refused::by(image, *refusal).text(""),
    }
}

fn fields(image: &[u8], wanted: WantedEntry, answer: &Answer<(Directory, EntryShown)>) -> Fields {
    let given = answer.as_ref().ok();
    let refused = answer.as_ref().err();
    let refused = refused.map(|refusal| Refused::by(image, *refusal));
    let number = |of: fn(&Directory) -> u64| {
        Json::or_null(given, |(directory, _)| Json::Number(of(directory)))
    };
    // What was asked for is told whatever the answer is.
    let (level, at) = match wanted.directory {
        WantedDirectory::Level(level) => (Json::Number(u64::from(level)), Json::Null),
        WantedDirectory::At(place) => (
            number(|directory| directory.level),
            Json::Number(place as u64),
        ),
    };
    let mut fields = vec![
        ("level", level),
        ("at", at),
        ("directory", number(|directory| directory.place)),
        ("total", number(|directory| directory.total)),
        ("refused", refusals::json(answer)),
    ];
    fields.extend(Refused::fields(refused.as_ref()));
    fields.push((
        "entry",
        Json::or_null(given, |(_, shown)| {
            Json::Object(shown.fields(wanted.index as u64))
        }),
    ));
    fields
}
