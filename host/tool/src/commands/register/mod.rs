//! `kpalumere register`: what firmware images hold, by what the library says of them, and a verdict on each.

mod brief;
mod facts;
mod for_programs;
mod met;
mod outcome;
mod report;
mod sample;
mod sources;
mod summary;
mod verdict;
mod writing;

use crate::arguments::command::{Command, Job, WRONG_WORDS};
use crate::arguments::words::{files, flag, given, json, option, JSON};
use crate::system::ending::Ending;
use crate::system::messages::say;
use crate::system::progress::Progress;
use clap::ArgMatches;
use outcome::Outcome;
use sources::{List, Named, Source};
use std::ffi::OsString;
use std::io::{self, BufWriter, Write};
use std::os::unix::ffi::OsStringExt;
use writing::{Form, Writing};

pub static COMMAND: Command = Command {
    name: "register",
    does: "the firmware register of flash images, a verdict on each",
    words: declared,
    help: || HELP.to_string(),
    statuses: &[
        (0, "every image is good"),
        (1, "an image has no boot loader"),
        WRONG_WORDS,
        (3, "a file cannot be read or the output cannot be written"),
        (
            5,
            "an image, or where its boot loader's bytes lie, is refused",
        ),
    ],
    read,
};

/// The options of this command alone.
const FROM: &str = "from";
const NULL: &str = "null";
const SAMPLE: &str = "sample";
const BRIEF: &str = "brief";
const CSV: &str = "csv";
const QUIET: &str = "quiet";

fn declared(command: clap::Command) -> clap::Command {
    command
        .arg(files(
            "IMAGE",
            "a flash image, a folder with images, or - for standard input",
        ))
        .arg(option(
            FROM,
            "FILE",
            "take the images that FILE names, one on each line, after those that stand here; - is \
             standard input",
            |_, word| Ok(OsString::from_vec(word.to_vec())),
        ))
        .arg(
            flag(
                NULL,
                "the names in FILE end with a zero byte, as find -print0 has them",
            )
            .short('0')
            .requires(FROM),
        )
        .arg(flag(
            SAMPLE,
            "take the sample board that comes with the tool",
        ))
        .arg(
            flag(BRIEF, "one line for each image: its verdict and versions")
                .conflicts_with_all([JSON, CSV]),
        )
        .arg(json().help("one JSON object; docs/REGISTER.md has its fields"))
        .arg(
            flag(
                CSV,
                "rows of comma-separated cells; docs/REGISTER.md has the columns",
            )
            .conflicts_with(JSON),
        )
        .arg(flag(QUIET, "leave out the images that are good"))
}

/// What `register --help` says.
const HELP: &str = "\
Each image is headed by its verdict:
  good                       every directory is accepted, and the boot loader
                             has its bytes
  no boot loader             no entry has type 0x01 with subprogram 0
  boot loader without bytes  it is there, and where its bytes lie is refused
  refused                    by the number that is told, and where it was met
  not read                   the file could not be read

Then come the embedded firmware structure (EFS) and its pointers, level 1, each
level 2 that it leads to, and every entry: its type, subprogram, size and
location, where its bytes lie in the image or why they do not, and the version
that they carry. Last, the whole image is asked for the boot loader, the
recovery boot loader, the secure OS and the SMU firmware, each with subprogram
0. Of an image that is refused, what could be read before that is shown, and of
a fault in a directory its header or the entry, the field that is wrong and its
place in the image, what stands in it and what should.

Of a folder the files below it are taken, by name; links to folders are not
followed. Without any word the register is that of the sample board.

On a terminal, or where COLUMNS says how wide lines may be, tables that do not
fit become lines that do. Colour is used on a terminal alone, and not where
NO_COLOR is set.

Try it:
  kpalumere register
  kpalumere register board.rom
  kpalumere register --brief --quiet fleet/
  find fleet -name '*.rom' -print0 | kpalumere register --json --from - -0
";

/// What the words ask for.
struct Request {
    named: Named,
    form: Form,
    quiet: bool,
}

fn read(matches: &ArgMatches) -> Result<Job, String> {
    let form = match [JSON, CSV, BRIEF].map(|name| matches.get_flag(name)) {
        [true, ..] => Form::Json,
        [_, true, _] => Form::Csv,
        [.., true] => Form::Brief,
        _ => Form::Whole,
    };
    let quiet = matches.get_flag(QUIET);
    let named = named(matches);
    let named = match (named.is_nothing(), form, quiet) {
        (true, Form::Whole, false) => Named {
            sample: true,
            ..named
        },
        (true, ..) => {
            return Err(String::from(
                "lacks IMAGE, or --sample for the sample board",
            ))
        }
        (false, ..) => named,
    };
    if named.reads_input_twice() {
        return Err(String::from(
            "reads standard input once, as an image or as the list of --from",
        ));
    }
    let request = Request { named, form, quiet };
    Ok(Box::new(move || run(&request)))
}

/// The images that the words name.
fn named(matches: &ArgMatches) -> Named {
    let nul = matches.get_flag(NULL);
    let images = matches.get_many::<OsString>("IMAGE").unwrap_or_default();
    Named {
        sample: matches.get_flag(SAMPLE),
        images: images.cloned().collect(),
        list: given(matches, FROM).map(|file| List { file, nul }),
    }
}

fn run(request: &Request) -> Ending {
    let sources = match request.named.sources() {
        Ok(sources) => sources,
        Err(message) => {
            say(&message);
            return Ending::NotReadOrWritten;
        }
    };
    if sources.is_empty() {
        say(
            "register has no image: the list, and each folder that is named, has no file in it. \
             Name an image, a folder or a list that has one, or say --sample for the sample board.",
        );
        return Ending::WrongWords;
    }
    let mut worst = Ending::Done;
    let mut out = BufWriter::new(io::stdout().lock());
    match write_all(request, &sources, &mut worst, &mut out) {
        Ok(()) => worst,
        Err(error) => worst.and(Ending::of_unwritten(&error)),
    }
}

/// Reads and judges one source after another, and writes the register of each. The worst ending so far is told where the output
/// cannot be written any more, too.
fn write_all(
    request: &Request,
    sources: &[Source],
    worst: &mut Ending,
    out: &mut dyn Write,
) -> io::Result<()> {
    let is_silent = request.quiet || request.form == Form::Brief;
    let mut progress = Progress::over(sources.len(), is_silent);
    let mut words = bindings::Words::new();
    let mut writing = Writing::begin(request.form, request.quiet, out)?;
    for source in sources {
        progress.begin(&source.shown());
        let outcome = Outcome::of(source, &mut words);
        progress.clear();
        if let Err(message) = &outcome.facts {
            say(message);
        }
        *worst = worst.and(outcome.judgement.verdict.ending());
        writing.put(source, &outcome)?;
    }
    writing.end()
}
