//! `kpalumere mailbox`: plays a recording through the proved library, and shows what each caller asked and was answered.
//!
//! What is answered, here as in `ask`, comes from the library. This command keeps the answers beside the calls and names them.

mod for_programs;
mod names;
mod report;

use crate::arguments::command::{Command, Job, WRONG_WORDS};
use crate::arguments::words::{file_or_input, json, required, JSON};
use crate::language::recording::{Recording, WrongLine};
use crate::shown::first_fields::first_fields;
use crate::shown::forms;
use crate::shown::json::Json;
use crate::system::ending::Ending;
use crate::system::files::{read_up_to, shown_name, MOST};
use crate::system::messages::say;
use crate::system::output::print;
use crate::system::terminal;
use clap::ArgMatches;
use std::ffi::{OsStr, OsString};
use std::io;

pub static COMMAND: Command = Command {
    name: "mailbox",
    does: "play a recording of the mailbox, caller by caller",
    words: |command| {
        command
            .arg(file_or_input(
                "FILE",
                "a recording; standard input where it is - or is not given",
            ))
            .arg(json())
    },
    help: || HELP.to_string(),
    statuses: &[
        (0, "every line was a call and none was refused"),
        (1, "a line was no call; it is left out"),
        WRONG_WORDS,
        (
            3,
            "the recording cannot be read or is too long, or the output not written",
        ),
        (5, "a call was refused"),
    ],
    read: read_words,
};

/// What `mailbox --help` says.
const HELP: &str = "\
A recording is a file of calls as `kpalumere ask` reads them, a line a call; #
starts a comment. It has at most 67108864 bytes. What stands behind => on a line
is an answer that somebody saw, which `kpalumere check` compares; here it is left
out. These calls may stand in a recording:
  post CALLER COMMAND DATA          a caller's post joins the line
  load                              the oldest post enters the register
  turn                              it is answered there
  unload                            its word goes to its caller
  take CALLER                       a caller takes its word
  mailbox                           a fresh mailbox from here on; the recording
                                    begins with one
  mailbox-of LINE REGISTER PLACES   the mailbox described from here on
  firmware                          nothing is shown for it: the state of the
                                    firmware is told at the end

For each mailbox of the recording there is a table for every caller, in the
order of the calls. Beside a post stands the word that its caller took, with its
status in words; or 'answered, not taken', or 'not answered yet'. Beside a
refused call stand the number and the rule of document 01. Then come the steps
of the register, and the state of the firmware in words.

Try it:
  printf 'post 1 0x81 0\\npost 2 0x80 0\\nload\\nturn\\nunload\\ntake 1\\n' |
    kpalumere mailbox
";

/// Reads the words after `mailbox`.
fn read_words(matches: &ArgMatches) -> Result<Job, String> {
    let file: OsString = required(matches, "FILE");
    let as_json = matches.get_flag(JSON);
    Ok(Box::new(move || run(&file, as_json)))
}

/// Plays the recording of a file, or of standard input where the name is `-`.
fn run(file: &OsStr, as_json: bool) -> Ending {
    let bytes = match read(file) {
        Ok(bytes) => bytes,
        Err(error) => {
            say(&unread(file, &error));
            return Ending::NotReadOrWritten;
        }
    };
    let recording = Recording::play(&bytes);
    for wrong in &recording.wrong {
        say(&left_out(file, wrong));
    }
    let text = match as_json {
        true => {
            let mut fields = first_fields(file);
            fields.extend(for_programs::fields(&recording));
            format!("{}\n", Json::Object(fields))
        }
        false => report::of(&recording, terminal::columns()),
    };
    print(&text).and(ending(&recording))
}

/// The bytes of a recording, which is kept whole and so has a limit.
fn read(file: &OsStr) -> io::Result<Vec<u8>> {
    let bytes = read_up_to(file, MOST + 1)?;
    if bytes.len() as u64 > MOST {
        let text = format!("it has more than {MOST} bytes");
        return Err(io::Error::new(io::ErrorKind::InvalidData, text));
    }
    Ok(bytes)
}

/// How a run ends whose report is written: as the worst of its lines.
fn ending(recording: &Recording) -> Ending {
    let ended = |bad: bool, ending: Ending| if bad { ending } else { Ending::Done };
    let lines = ended(!recording.wrong.is_empty(), Ending::BadLine);
    lines.and(ended(recording.refused(), Ending::Refused))
}

/// The message for a recording that cannot be read.
fn unread(file: &OsStr, error: &io::Error) -> String {
    let name = shown_name(file);
    format!(
        "{name} cannot be read: {error}. Name a recording that can be read, as in \
         `kpalumere mailbox FILE`, or - to read standard input."
    )
}

/// The message for a line that is no call.
fn left_out(file: &OsStr, wrong: &WrongLine) -> String {
    let WrongLine { line, reason } = wrong;
    let line = forms::line(&shown_name(file), line);
    format!("{line}: {reason}. The line is left out.")
}

#[cfg(test)]
mod tests {
    use super::*;

    #[test]
    fn the_ending_tells_whether_anything_was_refused_or_left_out() {
        for (script, status) in [
            ("", 0),
            ("# nothing\n", 0),
            (
                "post 0 0x81 0\nload\nturn\nturn\nunload\ntake 0\nfirmware\n",
                0,
            ),
            ("take 0\n", 5),
            ("post 8 0 0\n", 5),
            ("mailbox-of 8:0:0 idle -\nload\n", 5),
            ("mailbox-of 8:0:0 idle -\nload\nmailbox\nload\n", 5),
            ("mailbox-of 8:0:0 idle -\nfirmware\n", 0),
            ("loads\n", 1),
            ("loads\ntake 0\nloads\n", 5),
        ] {
            let recording = Recording::play(script.as_bytes());
            assert_eq!(ending(&recording).status(), status, "{script}");
        }
    }

    #[test]
    fn messages_say_what_is_wrong_where_and_what_to_do() {
        let recording = Recording::play(b"load\nbuffer a 1\n");
        assert_eq!(
            left_out(OsStr::new("a.ask"), &recording.wrong[0]),
            "\"a.ask\", line 2: 'buffer' is not a call on the mailbox; \
             `kpalumere mailbox --help` lists them. The line is left out."
        );
        let error = io::Error::from(io::ErrorKind::NotFound);
        let message = unread(OsStr::new("a.ask"), &error);
        assert!(message.starts_with("\"a.ask\" cannot be read: "));
        let message = unread(OsStr::new("-"), &error);
        assert!(message.starts_with("standard input cannot be read: "));
    }

    #[test]
    fn a_file_that_is_not_there_ends_with_3() {
        let ending = run(OsStr::new("there/is/no/such.ask"), false);
        assert_eq!(ending.status(), 3);
    }

    #[test]
    fn the_help_has_every_call_of_the_mailbox() {
        for call in crate::arguments::mailbox_calls::FORMS.iter() {
            assert!(HELP.contains(call.name), "{}", call.name);
        }
    }
}
