//! The command line: clap's command over a table of commands, and what the words ask it for.

use crate::arguments::command::{Command, Job, Status, STATUSES};
use crate::arguments::completions;
use crate::arguments::words::given;
use crate::arguments::wrong_words::{wrong_line, wrong_words};
use crate::system::output::print;
use clap::builder::PossibleValuesParser;
use clap::error::ErrorKind;
use clap::{Arg, ArgAction, ArgMatches};
use std::ffi::OsString;

/// A table of commands.
pub type Commands = &'static [&'static Command];

/// The most columns of a line of help: those of a terminal that nobody has made wider.
pub const COLUMNS: usize = 80;

/// Reads the words after the program's name, which name one of these commands. The error is the message to show.
pub fn read(commands: Commands, words: impl Iterator<Item = OsString>) -> Result<Job, String> {
    let words: Vec<OsString> = words.collect();
    let mut declared = declared(commands);
    let matches = match declared.try_get_matches_from_mut(&words) {
        Ok(matches) => matches,
        Err(asked) if is_asked_for(asked.kind()) => return Ok(printed(asked.render().to_string())),
        Err(error) => {
            let command = words
                .first()
                .and_then(|name| declared.find_subcommand(name));
            return Err(wrong_line(&error, command, &words));
        }
    };
    let (name, asked) = matches.subcommand().expect("clap requires a command");
    match commands.iter().find(|command| command.name == name) {
        Some(command) => (command.read)(asked).map_err(|what| wrong_words(name, &what)),
        None => of_all_commands(commands, name, asked),
    }
}

/// What the words ask for of a command that is about all those of the table, and so is none of them.
fn of_all_commands(commands: Commands, name: &str, asked: &ArgMatches) -> Result<Job, String> {
    if name == completions::NAME {
        let script = completions::script(asked, declared(commands));
        return Ok(printed(script));
    }
    let about: Option<String> = given(asked, "COMMAND");
    let words = about.into_iter().chain([String::from("--help")]);
    read(commands, words.map(OsString::from))
}

/// Whether what clap gives in the place of words is a text that the user asks for, and no fault.
fn is_asked_for(kind: ErrorKind) -> bool {
    matches!(kind, ErrorKind::DisplayHelp | ErrorKind::DisplayVersion)
}

fn printed(text: String) -> Job {
    Box::new(move || print(&text))
}

/// The commands as they are declared to clap, below one that has the program's name.
pub fn declared(commands: Commands) -> clap::Command {
    let whole = clap::Command::new("kpalumere")
        .bin_name("kpalumere")
        .version(env!("CARGO_PKG_VERSION"))
        .no_binary_name(true)
        .subcommand_required(true)
        .disable_help_flag(true)
        .disable_help_subcommand(true)
        .disable_version_flag(true)
        .arg(help_option())
        .arg(version_option())
        .term_width(COLUMNS)
        .about(ABOUT)
        .after_help(format!("{AFTER}{}{LAST}", list_of_statuses(STATUSES)));
    whole
        .subcommands(commands.iter().map(|command| of_table(command)))
        .subcommand(completions_declared())
        .subcommand(help_declared(commands))
}

fn of_table(command: &Command) -> clap::Command {
    let declared = one_declared(command.name, command.does);
    (command.words)(declared)
        .arg(help_option())
        .after_help(text_and_statuses(&(command.help)(), command.statuses))
}

fn completions_declared() -> clap::Command {
    let declared = one_declared(completions::NAME, completions::DOES);
    completions::words(declared)
        .arg(help_option())
        .after_help(text_and_statuses(completions::HELP, completions::STATUSES))
}

/// A command without its words.
fn one_declared(name: &'static str, does: &'static str) -> clap::Command {
    clap::Command::new(name)
        .about(does)
        .disable_help_flag(true)
        .term_width(COLUMNS)
}

fn text_and_statuses(text: &str, statuses: &[Status]) -> String {
    format!("{text}\n{}", list_of_statuses(statuses))
}

/// The name of the command that stands for the option `--help` of another.
const HELP: &str = "help";

fn help_declared(commands: Commands) -> clap::Command {
    let names = commands.iter().map(|command| command.name);
    let names = PossibleValuesParser::new(names.chain([completions::NAME, HELP]));
    let about = Arg::new("COMMAND").value_parser(names);
    one_declared(HELP, "this text, or all about one command")
        .arg(about.hide_possible_values(true).help("the command"))
        .arg(help_option())
}

fn help_option() -> Arg {
    let option = Arg::new("help").short('h').long("help");
    option.action(ArgAction::Help).help("this text")
}

fn version_option() -> Arg {
    let option = Arg::new("version").short('V').long("version");
    option.action(ArgAction::Version).help("the version")
}

const ABOUT: &str = "\
Kpalumere: a register of the firmware in AMD secure processors, whose every
answer is proved.

The tool reads files and prints. What it says about an image, a table or a
mailbox comes from a library that is proved to follow document 01, the paper
with the rules.";

const AFTER: &str = "\
`kpalumere COMMAND --help` and `kpalumere help COMMAND` say all about one
command. In every command - is standard input where a file is read, and what
follows -- is no option, even where it begins with a hyphen.

Try it:
  kpalumere register
  kpalumere explain 4
  printf 'buffer a 16\\npatch a 4 c0ffee\\nshow a 0 8\\n' | kpalumere ask

";

const LAST: &str = "\
Of several files the worst tells: 3, then 5, then 1, then 0. To ask, a refusal
is an answer: it ends with 0.";

/// The statuses, a line each.
fn list_of_statuses(statuses: &[Status]) -> String {
    let rows = statuses
        .iter()
        .map(|(status, when)| format!("  {status}  {when}\n"));
    rows.fold(String::from("Status:\n"), |list, row| list + &row)
}
