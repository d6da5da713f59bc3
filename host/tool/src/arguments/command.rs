//! A command, and what it is asked to do.

use crate::system::ending::Ending;
use clap::ArgMatches;

/// A command of the tool. It declares its words with clap's builder and the functions of `arguments/words.rs`, as in
/// `|command| command.arg(words::file("IMAGE", "…")).arg(words::json())`; it reads them with `words::required`, `words::given`
/// and `get_flag`. What clap can check (numbers, options that exclude each other, words that are missing) is declared and not
/// checked again. `arguments/command_line.rs` adds `--help`, and writes the help and the messages.
pub struct Command {
    pub name: &'static str,
    /// What it does, for its line of `kpalumere --help` and the first line of its own: at most 61 letters.
    pub does: &'static str,
    /// Adds the words that follow the name.
    pub words: fn(clap::Command) -> clap::Command,
    /// What its help says between the list of words and the statuses, in lines of at most 80 columns.
    pub help: fn() -> String,
    /// The statuses that it ends with, rising, and when it does.
    pub statuses: &'static [Status],
    /// What its words ask for. The error says what is wrong with them, to stand behind the command's name.
    pub read: fn(&ArgMatches) -> Result<Job, String>,
}

/// A status, and when a run ends with it.
pub type Status = (u8, &'static str);

/// The status that every command has for words that it cannot read.
pub const WRONG_WORDS: Status = (2, "the command line is wrong");

/// The statuses over all commands, rising. A command lists those that it ends with in words of its own.
pub static STATUSES: &[Status] = &[
    (0, "all is good, or what was asked for is found"),
    (
        1,
        "a plain no: none found, no boot loader, answers differ, a bad line",
    ),
    WRONG_WORDS,
    (3, "a file cannot be read, or the output cannot be written"),
    (
        4,
        "the tool is not built, which the script ./kpalumere tells",
    ),
    (5, "something is refused"),
];

/// The statuses of a command that shows the table of one file.
pub static OF_A_TABLE: &[Status] = &[
    (0, "the table is accepted"),
    WRONG_WORDS,
    (3, "FILE cannot be read or the output cannot be written"),
    (5, "the table is refused"),
];

/// What the words ask for, ready to be run.
pub type Job = Box<dyn FnOnce() -> Ending>;
