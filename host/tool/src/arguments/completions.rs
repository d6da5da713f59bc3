//! `kpalumere completions`: a script by which a shell completes the tool's command lines. It is made of what all commands declare,
//! so it belongs to the command line, as `help` does, and stands in no table of commands.

use crate::arguments::command::{Status, WRONG_WORDS};
use crate::arguments::words::required;
use clap::{value_parser, Arg, ArgMatches, Command};
use clap_complete::{generate, Shell};

pub const NAME: &str = "completions";

pub const DOES: &str = "a script by which a shell completes command lines";

/// What `completions --help` says.
pub const HELP: &str = "\
Try it, in the bash that runs:
  . <(kpalumere completions bash)

For every bash that is started from now on:
  folder=~/.local/share/bash-completion/completions
  mkdir -p $folder && kpalumere completions bash >$folder/kpalumere
";

pub static STATUSES: &[Status] = &[
    (0, "the script is printed"),
    WRONG_WORDS,
    (3, "the output cannot be written"),
];

/// Adds the words that follow the name.
pub fn words(command: Command) -> Command {
    let shell = Arg::new("SHELL").value_parser(value_parser!(Shell));
    command.arg(shell.required(true).help("the shell"))
}

/// The script for the shell that the words name, over all that is declared.
pub fn script(matches: &ArgMatches, mut declared: Command) -> String {
    let shell: Shell = required(matches, "SHELL");
    let mut script = Vec::new();
    generate(shell, &mut declared, "kpalumere", &mut script);
    String::from_utf8_lossy(&script).into_owned()
}
