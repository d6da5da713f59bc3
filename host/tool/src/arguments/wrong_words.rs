//! What is wrong with a command line, as clap finds it and as people are told it: what is wrong, the near miss, and what to do.

use crate::arguments::quoted::quoted;
use clap::error::{ContextKind, ContextValue, ErrorKind};
use clap::{Command, Error};
use std::ffi::OsString;

/// The message for words that clap does not accept, after a command or before one is named.
pub fn wrong_line(error: &Error, command: Option<&Command>, words: &[OsString]) -> String {
    let found = Found { error, words };
    match command {
        Some(command) => wrong_words(command.get_name(), &found.after(command)),
        None => format!(
            "{} `kpalumere --help` has the commands.",
            sentence(&found.before_a_command())
        ),
    }
}

/// The message for words that a command cannot use: what is wrong, to stand behind the command's name.
pub fn wrong_words(command: &str, what: &str) -> String {
    let what = sentence(what);
    format!("{command} {what} `kpalumere {command} --help` has its words.")
}

/// What is said, with the sign at its end. A question has one already.
pub fn sentence(what: &str) -> String {
    match what.ends_with('?') {
        true => what.to_string(),
        false => format!("{what}."),
    }
}

/// What clap found wrong, and the words in which it did.
struct Found<'a> {
    error: &'a Error,
    words: &'a [OsString],
}

impl Found<'_> {
    /// What is wrong before a command is named, as a whole sentence.
    fn before_a_command(&self) -> String {
        match self.error.kind() {
            ErrorKind::MissingSubcommand => format!(
                "no command is given; name {}",
                listed(&self.texts(ContextKind::ValidSubcommand), "or")
            ),
            ErrorKind::InvalidSubcommand => {
                let name = quoted(self.text(ContextKind::InvalidSubcommand).as_bytes());
                let near_miss = self.near_miss(ContextKind::SuggestedSubcommand);
                format!(
                    "there is no command {name}{}",
                    near_miss.unwrap_or_default()
                )
            }
            ErrorKind::UnknownArgument if self.is_option() => {
                let near_miss = self.near_miss(ContextKind::SuggestedArg);
                let advice = near_miss.unwrap_or_else(|| {
                    String::from("; options are written after the command's name")
                });
                let option = quoted(self.word().as_bytes());
                format!("there is no option {option} before a command{advice}")
            }
            ErrorKind::UnknownArgument => String::from("the command is named before `--`"),
            _ => self.other(),
        }
    }

    /// What is wrong with the words after a command, to stand behind its name.
    fn after(&self, command: &Command) -> String {
        match self.error.kind() {
            ErrorKind::UnknownArgument if self.is_option() => self.no_option(command),
            ErrorKind::UnknownArgument => {
                format!("does not take the word {}", quoted(self.word().as_bytes()))
            }
            ErrorKind::MissingRequiredArgument => {
                let missing = self.texts(ContextKind::InvalidArg);
                format!("lacks {}", listed(&missing, "and"))
            }
            ErrorKind::ArgumentConflict => self.conflict(),
            ErrorKind::TooManyValues => format!("lets nothing follow {}", self.argument()),
            ErrorKind::InvalidValue => self.no_value(),
            _ => self.other(),
        }
    }

    /// An option that the command does not have. One that lacks its second hyphen is told with it.
    fn no_option(&self, command: &Command) -> String {
        let found = self.word();
        let mut given = self.words.iter().map(|word| word.to_string_lossy());
        let given = given.find(|word| word.starts_with(&found));
        // Of a word with one hyphen clap has the first letter alone.
        let given = given.unwrap_or_else(|| found.clone().into());
        let given = given.split('=').next().unwrap_or_default();
        let mut longs = command.get_arguments().filter_map(|known| known.get_long());
        let near_miss = match longs.find(|long| given == format!("-{long}")) {
            Some(long) => Some(meant(&format!("--{long}"))),
            None => self.near_miss(ContextKind::SuggestedArg),
        };
        let advice = near_miss.unwrap_or_else(|| {
            String::from("; a word that begins with a hyphen is given after `--`")
        });
        format!("has no option {}{advice}", quoted(given.as_bytes()))
    }

    /// An option without the word that should follow it, or a word that is none of those that it may be.
    fn no_value(&self) -> String {
        let argument = self.argument();
        let value = self.text(ContextKind::InvalidValue);
        if let (Some((option, takes)), true) = (argument.split_once(' '), value.is_empty()) {
            return format!("wants {takes} after {option}");
        }
        format!(
            "takes {} for {}, and not {}{}",
            listed(&self.texts(ContextKind::ValidValue), "or"),
            name_of(&argument),
            quoted(value.as_bytes()),
            self.near_miss(ContextKind::SuggestedValue)
                .unwrap_or_default()
        )
    }

    /// An option given twice, or options of which only one can be meant.
    fn conflict(&self) -> String {
        let argument = self.argument();
        let others = self.texts(ContextKind::PriorArg);
        if others == [argument.clone()] {
            return format!("takes {} once", name_of(&argument));
        }
        let all = [vec![argument], others].concat();
        let not = if all.len() == 2 {
            "both"
        } else {
            "more than one"
        };
        format!("takes {}, and not {not}", listed(&all, "or"))
    }

    /// What a word was not understood for, or else what clap calls it.
    fn other(&self) -> String {
        let reason = match self.error.get(ContextKind::Custom) {
            Some(reason) => reason.to_string(),
            None => self.error.kind().to_string(),
        };
        format!("cannot use its words: {reason}")
    }

    /// The word that no argument of the command is.
    fn word(&self) -> String {
        self.text(ContextKind::InvalidArg)
    }

    /// The argument that is wrong, as messages write it.
    fn argument(&self) -> String {
        plain(&self.text(ContextKind::InvalidArg))
    }

    /// Whether that argument was taken for an option: it begins with a hyphen, and does not stand after `--`.
    fn is_option(&self) -> bool {
        let argument = self.word();
        let mut last = self.words.iter().skip_while(|word| *word != "--");
        argument.starts_with('-') && !last.any(|word| word.to_string_lossy() == argument)
    }

    /// The best of clap's suggestions, which is the last.
    fn near_miss(&self, kind: ContextKind) -> Option<String> {
        self.texts(kind).last().map(|name| meant(name))
    }

    fn text(&self, kind: ContextKind) -> String {
        self.error
            .get(kind)
            .map_or_else(String::new, ContextValue::to_string)
    }

    fn texts(&self, kind: ContextKind) -> Vec<String> {
        match self.error.get(kind) {
            Some(ContextValue::Strings(texts)) => texts.iter().map(|text| plain(text)).collect(),
            Some(ContextValue::String(text)) => vec![plain(text)],
            _ => Vec::new(),
        }
    }
}

/// The end of a message that names what was meant.
fn meant(name: &str) -> String {
    format!("; did you mean {}?", quoted(name.as_bytes()))
}

/// An argument without the brackets in which clap writes words: `--level <L>` is `--level L`, and `[IMAGE]...` is `IMAGE`.
fn plain(argument: &str) -> String {
    argument
        .trim_end_matches("...")
        .replace(['<', '>', '[', ']'], "")
}

/// An argument without the word that follows it.
fn name_of(argument: &str) -> &str {
    argument.split(' ').next().unwrap_or_default()
}

/// Words one after another, the last behind a word that joins them.
pub fn listed(words: &[impl AsRef<str>], joined_by: &str) -> String {
    let words: Vec<&str> = words.iter().map(AsRef::as_ref).collect();
    match words.split_last() {
        Some((last, [])) => last.to_string(),
        Some((last, before)) => format!("{} {joined_by} {last}", before.join(", ")),
        None => String::new(),
    }
}

#[cfg(test)]
mod tests {
    use super::*;
    use crate::arguments::numbers::number8;
    use crate::arguments::words::{file, flag, option, word};
    use clap::Arg;

    /// A command with a word of each sort.
    fn declared() -> Command {
        let find = Command::new("find")
            .arg(file("IMAGE", ""))
            .arg(word("SUB", "", number8))
            .arg(option("level", "L", "", number8))
            .arg(flag("json", ""))
            .arg(flag("csv", "").conflicts_with("json"))
            .arg(flag("brief", "").conflicts_with_all(["json", "csv"]))
            .arg(
                Arg::new("shell")
                    .long("shell")
                    .value_parser(["bash", "zsh"]),
            );
        Command::new("kpalumere")
            .no_binary_name(true)
            .subcommand_required(true)
            .subcommand(find)
            .subcommand(Command::new("entry"))
    }

    fn message(words: &[&str]) -> String {
        let words: Vec<OsString> = words.iter().map(OsString::from).collect();
        let mut declared = declared();
        let error = declared.try_get_matches_from_mut(&words).unwrap_err();
        let command = words
            .first()
            .and_then(|name| declared.find_subcommand(name));
        wrong_line(&error, command, &words)
    }

    #[test]
    fn words_before_a_command() {
        for (words, what) in [
            (&[][..], "no command is given; name find, entry or help."),
            (&["x"], "there is no command 'x'."),
            (&[""], "there is no command ''."),
            (
                &["fnid"],
                "there is no command 'fnid'; did you mean 'find'?",
            ),
            (
                &["--json", "find"],
                "there is no option '--json' before a command; options are written after the \
                 command's name.",
            ),
            (
                &["--hlep"],
                "there is no option '--hlep' before a command; did you mean '--help'?",
            ),
            (&["--", "find"], "the command is named before `--`."),
        ] {
            let whole = format!("{what} `kpalumere --help` has the commands.");
            assert_eq!(message(words), whole);
        }
    }

    #[test]
    fn words_after_a_command() {
        let hyphen = "; a word that begins with a hyphen is given after `--`.";
        for (words, what) in [
            (&[][..], String::from("lacks IMAGE and SUB.")),
            (&["a"], String::from("lacks SUB.")),
            (
                &["a", "1", "b"],
                String::from("does not take the word 'b'."),
            ),
            (
                &["a", "1", "[b]"],
                String::from("does not take the word '[b]'."),
            ),
            (
                &["a", "1", "--", "-b"],
                String::from("does not take the word '-b'."),
            ),
            (
                &["--jsn"],
                String::from("has no option '--jsn'; did you mean '--json'?"),
            ),
            (
                &["--jsn=1"],
                String::from("has no option '--jsn'; did you mean '--json'?"),
            ),
            (
                &["-json"],
                String::from("has no option '-json'; did you mean '--json'?"),
            ),
            (
                &["-level=1"],
                String::from("has no option '-level'; did you mean '--level'?"),
            ),
            (&["-j"], format!("has no option '-j'{hyphen}")),
            (&["a", "-1"], format!("has no option '-1'{hyphen}")),
            (
                &["--elephant"],
                format!("has no option '--elephant'{hyphen}"),
            ),
            (&["--json=x"], String::from("lets nothing follow --json.")),
            (&["--level"], String::from("wants L after --level.")),
            (&["--json", "--json"], String::from("takes --json once.")),
            (
                &["--level=1", "--level", "2"],
                String::from("takes --level once."),
            ),
            (
                &["a", "1", "--json", "--csv"],
                String::from("takes --json or --csv, and not both."),
            ),
            (
                &["a", "1", "--json", "--brief"],
                String::from("takes --json or --brief, and not both."),
            ),
            (
                &["--shell", "bsh"],
                String::from("takes bash or zsh for --shell, and not 'bsh'; did you mean 'bash'?"),
            ),
            (
                &["--shell=x"],
                String::from("takes bash or zsh for --shell, and not 'x'."),
            ),
            (
                &["a", "256"],
                String::from(
                    "cannot use its words: SUB is '256', which is too large; write at most 255.",
                ),
            ),
            (
                &["a", "1", "--level=x"],
                String::from(
                    "cannot use its words: --level is 'x', which is no number; write decimal \
                     digits, or 0x and hexadecimal digits.",
                ),
            ),
        ] {
            let whole = format!("find {what} `kpalumere find --help` has its words.");
            assert_eq!(message(&[&["find"], words].concat()), whole);
        }
    }

    #[test]
    fn words_are_listed() {
        let words = ["a", "b", "c"].map(String::from);
        assert_eq!(listed(&words, "or"), "a, b or c");
        assert_eq!(listed(&words[..2], "and"), "a and b");
        assert_eq!(listed(&words[..1], "and"), "a");
    }
}
