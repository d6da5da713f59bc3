//! `kpalumere check`: calls with the answers that somebody saw, held against what the library answers.

mod comparison;
mod difference;
mod report;
mod whose;

use crate::arguments::command::{Command, Job, WRONG_WORDS};
use crate::arguments::words::{file, required};
use crate::language::script::{each_line, Stopped};
use crate::system::ending::Ending;
use crate::system::files::shown_name;
use crate::system::messages::say;
use crate::system::output::print;
use clap::ArgMatches;
use comparison::Comparison;
use std::ffi::{OsStr, OsString};
use std::io;

pub static COMMAND: Command = Command {
    name: "check",
    does: "hold recorded answers against the library's",
    words: |command| {
        command.arg(file(
            "FILE",
            "calls with their answers, or - for standard input",
        ))
    },
    help: || HELP.to_string(),
    statuses: &[
        (0, "no answer differs"),
        (1, "some answer differs, or a line is no call"),
        WRONG_WORDS,
        (3, "FILE cannot be read or the output cannot be written"),
    ],
    read,
};

/// What `check --help` says.
const HELP: &str = "\
FILE has lines of the language of `kpalumere ask`, each with the answer that
somebody saw behind it:
  CALL => ANSWER
The calls are made from the first line to the last. A CALL without => is made as
well, and its answer is not looked at: so buffers are filled. # starts a
comment. Answers are compared word by word, so that numbers stand as `ask`
writes them; of `bad line: ` and a reason it is compared only that the line is
bad. A line that is no call differs, unless that is what is expected.

Every line whose answer differs is shown, what was expected above what is given,
and at the end how many answers were checked and how many differ. Where a word
that a caller took from the mailbox is not its own, it is said whose it is.

Try it:
  kpalumere samples six
  kpalumere check six/recordings/sixth-as-filed.check
  printf 'post 3 0x81 0 => ok\\npost 3 0x81 0 => ok\\n' | kpalumere check -
";

fn read(matches: &ArgMatches) -> Result<Job, String> {
    let file: OsString = required(matches, "FILE");
    Ok(Box::new(move || run(&file)))
}

fn run(file: &OsStr) -> Ending {
    let mut comparison = Comparison::new();
    let gone_through = each_line(file, |number, line| {
        comparison.add_line(number, line);
        Ok(())
    });
    match gone_through {
        Ok(()) => print(&report::of(&comparison)).and(ending(&comparison)),
        Err(Stopped::Writing(error)) => Ending::of_unwritten(&error),
        Err(Stopped::Reading(error)) => {
            say(&unread(file, &error));
            Ending::NotReadOrWritten
        }
    }
}

/// How a run ends whose report is written.
fn ending(comparison: &Comparison) -> Ending {
    match comparison.differences.is_empty() {
        true => Ending::Done,
        false => Ending::No,
    }
}

/// The message for answers that cannot be read.
fn unread(file: &OsStr, error: &io::Error) -> String {
    format!(
        "{} cannot be read: {error}. Name a file of calls and answers that can be read, or - \
         for standard input.",
        shown_name(file)
    )
}

#[cfg(test)]
mod tests {
    use super::*;

    #[test]
    fn a_file_that_is_not_there_ends_with_3() {
        let ending = run(OsStr::new("there/is/no/such.check"));
        assert_eq!(ending.status(), 3);
    }
}
