//! The words that commands declare to clap: files, numbers and options; and how they are taken once clap has parted them.

use crate::arguments::quoted::quoted;
use clap::builder::TypedValueParser;
use clap::error::{ContextKind, ContextValue, ErrorKind};
use clap::{value_parser, Arg, ArgAction, ArgMatches, ValueHint};
use std::any::Any;
use std::ffi::{OsStr, OsString};
use std::os::unix::ffi::{OsStrExt, OsStringExt};

/// The option by which an answer is written for programs.
pub const JSON: &str = "json";

/// The option by which a file that is there may be written over.
pub const FORCE: &str = "force";

/// A file that must be named. Its name need not be text; `-` is standard input where a file is read.
pub fn file(role: &'static str, says: &'static str) -> Arg {
    any_file(role, says).required(true)
}

/// A file that may be named, and is standard input where it is not.
pub fn file_or_input(role: &'static str, says: &'static str) -> Arg {
    any_file(role, says)
        .default_value("-")
        .hide_default_value(true)
}

/// Any number of files.
pub fn files(role: &'static str, says: &'static str) -> Arg {
    any_file(role, says).num_args(0..)
}

fn any_file(role: &'static str, says: &'static str) -> Arg {
    let file = Arg::new(role).value_parser(value_parser!(OsString));
    file.value_hint(ValueHint::AnyPath).help(says)
}

/// A folder that a command fills with files. They cannot go to standard output, so that `-` would be a slip.
pub fn folder(role: &str, word: &[u8]) -> Result<OsString, String> {
    match word {
        b"-" | b"" => Err(format!(
            "{role} is {}, which is no folder; name one, as in ./parts",
            quoted(word)
        )),
        name => Ok(OsString::from_vec(name.to_vec())),
    }
}

/// A word that must be there and that `read` understands, such as a number. `read` is given what the word is called and the word;
/// its error is told as it stands.
pub fn word<T: Any + Clone + Send + Sync>(
    role: &'static str,
    says: &'static str,
    read: Read<T>,
) -> Arg {
    let word = Arg::new(role).value_parser(ReadBy(read));
    word.required(true).help(says)
}

/// A word whose place depends on the options that are given, so that its command reads it by itself.
pub fn later_word(role: &'static str, says: &'static str) -> Arg {
    any_file(role, says)
}

/// An option that stands alone.
pub fn flag(name: &'static str, says: &'static str) -> Arg {
    let option = Arg::new(name).long(name).action(ArgAction::SetTrue);
    option.help(says)
}

/// An option that a word follows, which `read` understands as in [`word`].
pub fn option<T: Any + Clone + Send + Sync>(
    name: &'static str,
    takes: &'static str,
    says: &'static str,
    read: Read<T>,
) -> Arg {
    let option = Arg::new(name).long(name).value_name(takes);
    option.value_parser(ReadBy(read)).help(says)
}

/// `--json`.
pub fn json() -> Arg {
    flag(
        JSON,
        "write the same for programs; docs/USER.md has the fields",
    )
}

/// `--force`.
pub fn force() -> Arg {
    flag(FORCE, "write over a FILE that is there")
}

/// What a word that must be there, or that stands for itself where it is not, was read as.
pub fn required<T: Any + Clone + Send + Sync>(matches: &ArgMatches, role: &str) -> T {
    given(matches, role).expect("clap lets no line through that lacks a required word")
}

/// What a word was read as, where it is there.
pub fn given<T: Any + Clone + Send + Sync>(matches: &ArgMatches, role: &str) -> Option<T> {
    matches.get_one::<T>(role).cloned()
}

/// How a word is read, by what it is called and the word itself.
pub type Read<T> = fn(&str, &[u8]) -> Result<T, String>;

/// Reads a word, which need not be text, and keeps the reason where it cannot be read.
#[derive(Clone)]
struct ReadBy<T>(Read<T>);

impl<T: Any + Clone + Send + Sync> TypedValueParser for ReadBy<T> {
    type Value = T;

    fn parse_ref(
        &self,
        _: &clap::Command,
        argument: Option<&Arg>,
        word: &OsStr,
    ) -> Result<T, clap::Error> {
        let role = argument.map(called).unwrap_or_default();
        (self.0)(&role, word.as_bytes()).map_err(|reason| {
            let mut error = clap::Error::new(ErrorKind::ValueValidation);
            error.insert(ContextKind::Custom, ContextValue::String(reason));
            error
        })
    }
}

/// What messages call an argument: an option by its name with its hyphens, another word by its role.
fn called(argument: &Arg) -> String {
    match argument.get_long() {
        Some(name) => format!("--{name}"),
        None => argument.get_id().to_string(),
    }
}

#[cfg(test)]
mod tests {
    use super::*;
    use crate::arguments::numbers::number8;

    /// What clap makes of some words, which need not be text.
    fn parted(arguments: Vec<Arg>, words: &[&[u8]]) -> Result<ArgMatches, clap::Error> {
        let words = words.iter().map(|word| OsStr::from_bytes(word));
        let declared = clap::Command::new("tried").no_binary_name(true);
        declared.args(arguments).try_get_matches_from(words)
    }

    #[test]
    fn a_file_keeps_its_name_whatever_it_is() {
        for name in [&b"-"[..], b"", b"caf\xe9.rom", b"a\n\x1b", b"--"] {
            let matches = parted(vec![file("FILE", "")], &[b"--", name]).unwrap();
            let kept: OsString = required(&matches, "FILE");
            assert_eq!(kept.as_bytes(), name);
        }
        let names: [&[u8]; 3] = [b"b", b"-", b"\xff"];
        let matches = parted(vec![files("FILE", "")], &names).unwrap();
        let kept = matches.get_many::<OsString>("FILE").unwrap();
        assert!(kept.map(|name| name.as_bytes()).eq(names));
    }

    #[test]
    fn a_file_that_is_not_named_is_standard_input() {
        for (words, name) in [(&[][..], "-"), (&[&b"-"[..]], "-"), (&[b"a"], "a")] {
            let matches = parted(vec![file_or_input("FILE", "")], words).unwrap();
            assert_eq!(required::<OsString>(&matches, "FILE"), name);
        }
    }

    #[test]
    fn options_stand_anywhere_and_their_words_are_read() {
        let declared = || {
            let level = option("level", "L", "", number8);
            vec![word("SUB", "", number8), level, json()]
        };
        for words in [
            [&b"0x10"[..], b"--json", b"--level=2"],
            [b"--level=2", b"0x10", b"--json"],
        ] {
            let matches = parted(declared(), &words).unwrap();
            assert_eq!(required::<u8>(&matches, "SUB"), 16);
            assert_eq!(given::<u8>(&matches, "level"), Some(2));
            assert!(matches.get_flag(JSON));
        }
        let matches = parted(declared(), &[b"1"]).unwrap();
        assert_eq!(given::<u8>(&matches, "level"), None);
        assert!(!matches.get_flag(JSON));
    }

    #[test]
    fn the_reason_that_a_word_cannot_be_read_is_kept() {
        let level = || option("level", "L", "", number8);
        for (words, begins) in [
            (&[&b"\xff"[..]][..], "SUB is '\\xff', which is no number; "),
            (&[b"256"], "SUB is '256', which is too large; "),
            (
                &[b"1", b"--level", b"x"],
                "--level is 'x', which is no number; ",
            ),
        ] {
            let error = parted(vec![word("SUB", "", number8), level()], words).unwrap_err();
            assert_eq!(error.kind(), ErrorKind::ValueValidation);
            let reason = error.get(ContextKind::Custom).unwrap().to_string();
            assert!(reason.starts_with(begins), "{reason}");
        }
    }
}
