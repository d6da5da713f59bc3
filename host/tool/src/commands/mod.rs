//! The commands: a module for each, which has it as `COMMAND`, and the table of them all.

mod ask;
mod aspt;
mod build;
mod check;
mod entry;
mod explain;
mod extract;
mod find;
mod guids;
mod mailbox;
mod register;
mod samples;

use crate::arguments::command::Command;

/// The commands, in the order in which the help shows them.
pub static COMMANDS: &[&Command] = &[
    &register::COMMAND,
    &find::COMMAND,
    &entry::COMMAND,
    &extract::COMMAND,
    &build::COMMAND,
    &aspt::COMMAND,
    &guids::COMMAND,
    &explain::COMMAND,
    &mailbox::COMMAND,
    &ask::COMMAND,
    &check::COMMAND,
    &samples::COMMAND,
];

#[cfg(test)]
mod tests {
    use super::*;
    use crate::arguments::command::{Job, STATUSES};
    use crate::arguments::command_line::{declared, read, COLUMNS};
    use crate::shown::refusals::REFUSALS;
    use std::ffi::OsString;
    use std::os::unix::ffi::OsStringExt;

    fn read_words(words: &[&str]) -> Result<Job, String> {
        read(COMMANDS, words.iter().map(OsString::from))
    }

    fn message(words: &[&str]) -> String {
        match read_words(words) {
            Ok(_) => panic!("{words:?} is read"),
            Err(message) => message,
        }
    }

    /// The help that some words ask for.
    fn help(words: &[&str]) -> String {
        let asked = declared(COMMANDS).try_get_matches_from(words);
        asked.unwrap_err().render().to_string()
    }

    /// The help of every command, those that are about all of them among them, and the help over all.
    fn helps() -> Vec<String> {
        let declared = declared(COMMANDS);
        let of_each = declared
            .get_subcommands()
            .map(|command| help(&[command.get_name(), "--help"]));
        of_each.chain([help(&["--help"])]).collect()
    }

    #[test]
    fn the_words_are_declared_as_clap_wants_them() {
        declared(COMMANDS).debug_assert();
    }

    #[test]
    fn good_words_are_read() {
        for words in [
            &["--help"][..],
            &["-h"],
            &["help"],
            &["--version"],
            &["-V"],
            &["ask"],
            &["ask", "-"],
            &["ask", "--", "-x"],
            &["ask", "calls.ask"],
            &["mailbox"],
            &["mailbox", "-"],
            &["mailbox", "a.ask"],
            &[
                "find",
                "--level=1",
                "--json",
                "--",
                "-x",
                "boot-loader",
                "0x0",
            ],
            &["find", "-", "--level", "2", "1", "0"],
        ] {
            assert!(read_words(words).is_ok(), "{words:?}");
        }
        for command in COMMANDS {
            let name = command.name;
            for words in [
                &[name, "--help"][..],
                &[name, "-h"],
                &[name, "--help", "--nonsense"],
                &["help", name],
            ] {
                assert!(read_words(words).is_ok(), "{words:?}");
            }
        }
    }

    #[test]
    fn a_file_name_need_not_be_text() {
        let name = OsString::from_vec(b"caf\xe9.ask".to_vec());
        for words in [
            &["register"][..],
            &["aspt"],
            &["guids"],
            &["mailbox"],
            &["ask"],
            &["build", "-"],
            &["extract", "-", "1", "0"],
        ] {
            let words = words.iter().map(OsString::from).chain([name.clone()]);
            assert!(read(COMMANDS, words).is_ok());
        }
    }

    #[test]
    fn help_is_the_same_however_it_is_asked_for() {
        for command in COMMANDS {
            let long = help(&[command.name, "--help"]);
            assert_eq!(help(&[command.name, "-h"]), long);
        }
        assert_eq!(help(&["-h"]), help(&["--help"]));
    }

    #[test]
    fn every_command_says_what_it_does_and_how_it_ends() {
        for command in COMMANDS {
            let text = help(&[command.name, "--help"]);
            let name = command.name;
            let one_line = text.replace('\n', " ");
            assert!(one_line.starts_with(command.does), "{name}");
            assert!(
                text.contains(&format!("\n\nUsage: kpalumere {name}")),
                "{name}"
            );
            let list: String = command
                .statuses
                .iter()
                .map(|(status, when)| format!("  {status}  {when}\n"))
                .collect();
            assert!(text.ends_with(&format!("\n\nStatus:\n{list}")), "{text}");
        }
    }

    #[test]
    fn the_statuses_of_a_command_rise_and_are_those_of_the_tool() {
        for Command { name, statuses, .. } in COMMANDS {
            let numbers: Vec<u8> = statuses.iter().map(|(number, _)| *number).collect();
            assert!(numbers.windows(2).all(|two| two[0] < two[1]), "{name}");
            let known = |number: &u8| STATUSES.iter().any(|(known, _)| known == number);
            assert!(numbers.iter().all(known), "{name}");
            // Each can do its work, be given wrong words, and meet an output that cannot be written.
            assert!([0, 2, 3].iter().all(|due| numbers.contains(due)), "{name}");
            // The tool that tells them is built.
            assert!(!numbers.contains(&4), "{name}");
        }
    }

    #[test]
    fn the_help_over_all_has_every_command_and_every_status() {
        let text = help(&["--help"]);
        for Command { name, does, .. } in COMMANDS {
            let line = text
                .lines()
                .find(|line| line.starts_with(&format!("  {name} ")));
            assert!(
                line.expect(name).ends_with(&format!("  {does}")),
                "{line:?}"
            );
        }
        for (status, when) in STATUSES {
            assert!(
                text.contains(&format!("\n  {status}  {when}\n")),
                "{status}"
            );
        }
    }

    #[test]
    fn no_line_of_help_is_wider_than_a_terminal() {
        for line in helps().iter().flat_map(|text| text.lines()) {
            assert!(line.chars().count() <= COLUMNS, "{line}");
            assert_eq!(line, line.trim_end());
        }
    }

    #[test]
    fn levels_are_told_in_digits() {
        let refusals = REFUSALS.iter();
        let refusals = refusals.flat_map(|told| [told.title, told.means, told.causes, told.look]);
        for text in helps().into_iter().chain(refusals.map(String::from)) {
            for word in ["level one", "level two", "level-one", "level-two d"] {
                assert!(!text.to_lowercase().contains(word), "{text}");
            }
        }
    }

    #[test]
    fn wrong_words_are_told_with_what_to_do() {
        for words in [
            &["nonsense"][..],
            &[""],
            &["nonsense", "--help"],
            &["ask", "--json"],
            &["ask", "a", "b"],
            &["ask", "--", "a", "--help"],
            &["mailbox", "a", "b"],
            &["mailbox", "-", "-"],
            &["help", "nonsense"],
            &["help", "ask", "now"],
            &["--fast", "ask"],
            &["--", "ask"],
            &["ask", "--version"],
            &[],
        ] {
            let message = message(words);
            assert!(!message.starts_with("kpalumere: "), "{words:?}: {message}");
            let ways = [
                "`kpalumere ask --help`",
                "`kpalumere mailbox --help`",
                "`kpalumere help --help`",
                "`kpalumere --help`",
            ];
            assert!(ways.iter().any(|way| message.contains(way)), "{message}");
        }
    }

    #[test]
    fn a_near_miss_is_answered_with_what_was_meant() {
        for (words, meant) in [
            (
                &["regster"][..],
                "no command 'regster'; did you mean 'register'? ",
            ),
            (&["hlep"], "no command 'hlep'; did you mean 'help'? "),
            (
                &["--verson"],
                "no option '--verson' before a command; did you mean '--version'? ",
            ),
            (
                &["guids", "a", "--jsn"],
                "guids has no option '--jsn'; did you mean '--json'? ",
            ),
            (
                &["find", "a", "--lvel=1"],
                "find has no option '--lvel'; did you mean '--level'? ",
            ),
        ] {
            assert!(message(words).contains(meant), "{}", message(words));
        }
    }
}
