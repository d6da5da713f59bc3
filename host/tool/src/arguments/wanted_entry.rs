//! The entry that a command is asked about: LEVEL and INDEX, or --at PLACE and INDEX.

use crate::arguments::numbers::{number, number32};
use crate::arguments::quoted::quoted;
use crate::arguments::words::{given, later_word, option};
use crate::arguments::wrong_words::listed;
use clap::{Arg, ArgMatches};
use std::ffi::OsString;
use std::os::unix::ffi::OsStrExt;

/// The option that names a directory by its place, so that LEVEL is not given.
pub const AT: &str = "at";

/// The words that name an entry by its level.
const BY_LEVEL: [&str; 2] = ["LEVEL", "INDEX"];

/// Which entry is wanted.
#[derive(Clone, Copy, Debug, PartialEq, Eq)]
pub struct WantedEntry {
    pub directory: WantedDirectory,
    /// Counts the directory's entries from 0.
    pub index: usize,
}

/// Of which directory.
#[derive(Clone, Copy, Debug, PartialEq, Eq)]
pub enum WantedDirectory {
    /// The one of a level.
    Level(u32),
    /// The one that begins at a place of the image, as the register lists them.
    At(usize),
}

impl WantedEntry {
    /// The words, as a command declares them behind IMAGE.
    pub fn words() -> [Arg; 3] {
        let [level, index] = BY_LEVEL;
        [
            later_word(level, "1 or 2; not given with --at"),
            later_word(index, "counts the directory's entries from 0"),
            option(
                AT,
                "PLACE",
                "the directory that begins there, in place of that of a level",
                whole,
            ),
        ]
    }

    /// The entry that the words name, and the words behind these, which have the roles `more`. To clap a word has its place, and
    /// with --at each stands one place before: so they are told apart here.
    pub fn read(
        matches: &ArgMatches,
        more: &[&'static str],
    ) -> Result<(WantedEntry, Vec<OsString>), String> {
        let declared = [&BY_LEVEL[..], more].concat();
        let words = declared.iter().filter_map(|role| given(matches, role));
        let words: Vec<OsString> = words.collect();
        let at: Option<usize> = given(matches, AT);
        let roles = match at {
            Some(_) => &declared[1..],
            None => &declared[..],
        };
        expect(roles, &words)?;
        let unfit = |reason: String| format!("cannot use its words: {reason}");
        let (directory, behind) = match at {
            Some(place) => (WantedDirectory::At(place), &words[..]),
            None => {
                let level = number32(roles[0], words[0].as_bytes()).map_err(unfit)?;
                (WantedDirectory::Level(level), &words[1..])
            }
        };
        let index = whole(BY_LEVEL[1], behind[0].as_bytes()).map_err(unfit)?;
        Ok((WantedEntry { directory, index }, behind[1..].to_vec()))
    }
}

/// Checks that there is a word for each role, and no more.
fn expect(roles: &[&str], words: &[OsString]) -> Result<(), String> {
    match (roles.get(words.len()..), words.get(roles.len())) {
        (Some([]), _) => Ok(()),
        (Some(missing), _) => Err(format!("lacks {}", listed(missing, "and"))),
        (None, more) => {
            let more = more.map_or(&b""[..], |word| word.as_bytes());
            Err(format!("does not take the word {}", quoted(more)))
        }
    }
}

/// A number that counts bytes or entries.
fn whole(role: &str, word: &[u8]) -> Result<usize, String> {
    Ok(number(role, word, usize::MAX as u64)? as usize)
}

#[cfg(test)]
mod tests {
    use super::*;
    use clap::Command;

    fn read(words: &[&str]) -> Result<(WantedEntry, Vec<OsString>), String> {
        let declared = Command::new("extract")
            .no_binary_name(true)
            .args(WantedEntry::words())
            .arg(later_word("FILE", ""));
        let matches = declared.get_matches_from(words);
        WantedEntry::read(&matches, &["FILE"])
    }

    #[test]
    fn an_entry_is_named_by_level_or_by_place() {
        let file = vec![OsString::from("f")];
        let by = |directory, index| (WantedEntry { directory, index }, file.clone());
        let level = by(WantedDirectory::Level(2), 3);
        assert_eq!(read(&["2", "3", "f"]), Ok(level));
        let place = by(WantedDirectory::At(0x28000), 3);
        for words in [
            ["--at", "0x28000", "3", "f"],
            ["3", "f", "--at", "0x28000"],
            ["3", "--at", "163840", "f"],
        ] {
            assert_eq!(read(&words), Ok(place.clone()), "{words:?}");
        }
    }

    #[test]
    fn words_that_are_missing_too_many_or_no_numbers_are_told() {
        for (words, told) in [
            (&[][..], "lacks LEVEL, INDEX and FILE"),
            (&["1", "0"], "lacks FILE"),
            (&["--at=1"], "lacks INDEX and FILE"),
            (&["--at=1", "0"], "lacks FILE"),
            (&["--at=1", "0", "f", "x y"], "does not take the word 'x y'"),
        ] {
            assert_eq!(read(words), Err(String::from(told)), "{words:?}");
        }
        for (words, told) in [
            (&["one", "0", "f"], "LEVEL is 'one', which is no number; "),
            (&["1", "-", "f"], "INDEX is '-', which is no number; "),
        ] {
            let message = read(words).unwrap_err();
            let due = format!("cannot use its words: {told}");
            assert!(message.starts_with(&due), "{message}");
        }
        let message = read(&["--at=1", "f", "0"]).unwrap_err();
        assert!(message.contains("INDEX is 'f'"), "{message}");
    }
}
