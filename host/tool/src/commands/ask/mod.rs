//! `kpalumere ask`: one line is one call, one line is its answer. docs/ASK.md has the language.

use crate::arguments::command::{Command, Job, WRONG_WORDS};
use crate::arguments::command_line::COLUMNS;
use crate::arguments::lines::words_of;
use crate::arguments::words::{file_or_input, required};
use crate::language::script::{each_line, Stopped};
use crate::language::{self, State};
use crate::system::ending::Ending;
use crate::system::files::shown_name;
use crate::system::folding::row;
use crate::system::messages::say;
use clap::ArgMatches;
use std::ffi::{OsStr, OsString};
use std::io::{self, Write};

pub static COMMAND: Command = Command {
    name: "ask",
    does: "answer calls: one line is one call, one line is its answer",
    words: |command| {
        command.arg(file_or_input(
            "FILE",
            "the calls; standard input where it is - or is not given",
        ))
    },
    help,
    statuses: &[
        (0, "every line was a call; a refusal is an answer"),
        (1, "a line was no call"),
        WRONG_WORDS,
        (
            3,
            "the calls cannot be read or the answers cannot be written",
        ),
    ],
    read: read_words,
};

/// Reads the words after `ask`.
fn read_words(matches: &ArgMatches) -> Result<Job, String> {
    let file: OsString = required(matches, "FILE");
    Ok(Box::new(move || run(&file)))
}

/// Answers the calls of a file, or of standard input where the name is `-`.
fn run(file: &OsStr) -> Ending {
    let mut conversation = Conversation::new();
    let mut answers = io::stdout().lock();
    let ended = each_line(file, |number, line| {
        conversation.answer(number, line, &mut answers)
    });
    match ended {
        Ok(()) => conversation.ending,
        Err(Stopped::Writing(error)) => Ending::of_unwritten(&error).and(conversation.ending),
        Err(Stopped::Reading(error)) => {
            say(&unread(file, &error));
            Ending::NotReadOrWritten
        }
    }
}

/// The message for calls that cannot be read.
fn unread(file: &OsStr, error: &io::Error) -> String {
    let name = shown_name(file);
    format!(
        "{name} cannot be read: {error}. Name a file of calls that can be read, as in \
         `kpalumere ask FILE`, or - to read standard input."
    )
}

/// Calls and their answers, from the first line on.
struct Conversation {
    state: State,
    /// How it ends, by the lines that were answered.
    ending: Ending,
}

impl Conversation {
    fn new() -> Conversation {
        Conversation {
            state: State::default(),
            ending: Ending::Done,
        }
    }

    /// Writes the answer to a line, where it has one, before the next line is read, so that a program can ask over a pipe.
    fn answer(&mut self, number: u64, line: &[u8], answers: &mut dyn Write) -> io::Result<()> {
        let words = words_of(line);
        if words.is_empty() {
            return Ok(());
        }
        let answered = self.state.answer(number, &words);
        if !answered.is_call {
            self.ending = Ending::BadLine;
        }
        answers.write_all((answered.text + "\n").as_bytes())?;
        answers.flush()
    }
}

/// The help of `ask`: how a line is written, and every call, subject by subject.
fn help() -> String {
    /// From which column on it is said what a call gives.
    const GIVES_FROM: usize = 36;
    let mut text = String::from(LANGUAGE);
    for subject in language::forms() {
        text.push('\n');
        for form in subject {
            let written = format!("  {} {}", form.name, form.words);
            text.push_str(&row(&written, form.gives, GIVES_FROM, COLUMNS));
        }
    }
    text
}

/// How a line is written, for people. docs/ASK.md says the same at length.
const LANGUAGE: &str = "\
Each answer is written before the next line is read. # starts a comment; a line
with nothing else has no answer. Words are parted by spaces or tabs.
  NAME     letters, digits and _; it names a buffer, whose bytes are lent to the
           calls
  HEX      an even number of hexadecimal digits, or - for no bytes
  GUID     hexadecimal digits in groups of 8, 4, 4, 4 and 12, parted by -
Most other words are numbers: decimal digits, or 0x and hexadecimal digits.
What the library does not accept is answered 'refused N', where N is the number
of document 01. A line that is no call is answered 'bad line: ' with the reason;
it changes nothing, and the status is 1 at the end. docs/ASK.md has the whole
language.

Calls:
";

#[cfg(test)]
mod tests {
    use super::*;
    use crate::language::script::each_line_of;

    /// The answers to a script, and how the conversation ends.
    fn answers_to(script: &[u8]) -> (String, Ending) {
        let mut conversation = Conversation::new();
        let mut answers = Vec::new();
        let ended = each_line_of(&mut &script[..], |number, line| {
            conversation.answer(number, line, &mut answers)
        });
        assert!(ended.is_ok(), "memory can be read and written");
        (String::from_utf8(answers).unwrap(), conversation.ending)
    }

    #[test]
    fn a_line_with_nothing_left_has_no_answer() {
        let script = b"\n# only a comment\n \t \r\n\r\n  # another\n";
        assert_eq!(answers_to(script), (String::new(), Ending::Done));
        assert_eq!(answers_to(b""), (String::new(), Ending::Done));
    }

    #[test]
    fn a_bad_line_is_told_with_its_number_and_the_rest_is_answered() {
        let (answers, ending) = answers_to(b"# first\nflash a\nbuffer a 2\nshow a 0 2");
        let lines: Vec<&str> = answers.lines().collect();
        assert_eq!(lines.len(), 3);
        assert!(lines[0].starts_with("bad line: line 2: 'flash' is not a call"));
        assert_eq!(lines[1..], ["ok length=2", "bytes 0000"]);
        assert_eq!(ending, Ending::BadLine);
    }

    #[test]
    fn a_reason_stays_on_its_line_whatever_the_word_is() {
        let mut script = vec![b'\r', 0x0b, 0xff, 0, 0x1b];
        script.extend([b'x'; 1000]);
        let (answers, _) = answers_to(&script);
        assert_eq!(answers.matches('\n').count(), 1);
        assert!(answers.is_ascii() && answers.len() < 200, "{answers}");
    }

    #[test]
    fn help_shows_every_call_with_its_words() {
        let text = help();
        for form in language::forms().flatten() {
            assert!(text.contains(&format!("  {} {}", form.name, form.words)));
        }
    }

    #[test]
    fn an_answer_that_cannot_be_written_stops_the_conversation() {
        let mut no_room: &mut [u8] = &mut [0; 3];
        let answered = Conversation::new().answer(1, b"buffer a 1\n", &mut no_room);
        assert_eq!(answered.unwrap_err().kind(), io::ErrorKind::WriteZero);
    }
}
