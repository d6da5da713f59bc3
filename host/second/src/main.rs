//! `second [FILE]`: answers the calls in FILE, or those that come over standard input.

use second::ask::{converse, Failure};
use std::env;
use std::ffi::{OsStr, OsString};
use std::fs::File;
use std::io::{self, BufRead, BufReader, Write};
use std::os::unix::ffi::OsStrExt;
use std::process::ExitCode;

const USAGE: &str = "usage: second [FILE]
Answers calls of the ask language, one a line, from FILE or from standard input.
A FILE whose name starts with - is given as ./-...";

/// The status where every line was a call, and where any was none.
const ALL_GOOD: u8 = 0;
const ANY_BAD: u8 = 1;
/// The status for wrong usage.
const WRONG_USAGE: u8 = 2;
/// The status where FILE cannot be read, or the answers cannot be written.
const FAILED: u8 = 3;

fn main() -> ExitCode {
    let arguments: Vec<OsString> = env::args_os().skip(1).collect();
    let status = run(&arguments, io::stdin().lock(), io::stdout());
    ExitCode::from(status)
}

/// Answers what the arguments ask for; gives the status.
fn run(arguments: &[OsString], input: impl BufRead, output: impl Write) -> u8 {
    match arguments {
        [] => status("standard input", converse(input, output)),
        [file] if !file.as_bytes().starts_with(b"-") => answer_file(file, output),
        _ => {
            say(USAGE);
            WRONG_USAGE
        }
    }
}

fn answer_file(file: &OsStr, output: impl Write) -> u8 {
    let end = match File::open(file) {
        Ok(calls) => converse(BufReader::new(calls), output),
        Err(error) => Err(Failure::Reading(error)),
    };
    status(&file.to_string_lossy(), end)
}

/// The status after a conversation whose calls came from there.
fn status(name: &str, end: Result<bool, Failure>) -> u8 {
    match end {
        Ok(false) => ALL_GOOD,
        Ok(true) => ANY_BAD,
        Err(Failure::Reading(error)) => {
            say(&format!("second: {} cannot be read: {}", name, error));
            FAILED
        }
        Err(Failure::Writing(error)) => {
            say(&format!("second: the answers cannot be written: {}", error));
            FAILED
        }
    }
}

/// A line for the person at the terminal. Where it cannot be written there is nobody to tell.
fn say(text: &str) {
    let _ = writeln!(io::stderr(), "{}", text);
}

#[cfg(test)]
mod tests {
    use super::*;
    use std::{fs, process};

    /// The status and the answers for these arguments and this input.
    fn ran(arguments: &[&OsStr], input: &[u8]) -> (u8, String) {
        let arguments: Vec<OsString> = arguments.iter().map(OsString::from).collect();
        let mut output = Vec::new();
        let status = run(&arguments, input, &mut output);
        (status, String::from_utf8(output).unwrap())
    }

    #[test]
    fn standard_input_is_answered() {
        assert_eq!(ran(&[], b"load\n"), (0, "no\n".to_string()));
        assert_eq!(ran(&[], b""), (0, String::new()));
        assert_eq!(ran(&[], b"noise").0, 1);
        // a refusal is an answer
        assert_eq!(ran(&[], b"take 9"), (0, "refused 9\n".to_string()));
    }

    #[test]
    fn a_file_is_answered_in_the_place_of_standard_input() {
        let name = format!("second-{}-calls", process::id());
        let path = env::temp_dir().join(name);
        fs::write(&path, "load\nfirmware extra\n").unwrap();
        let (status, answers) = ran(&[path.as_os_str()], b"take 0");
        fs::remove_file(&path).unwrap();
        assert_eq!(status, 1);
        assert!(answers.starts_with("no\nbad line: "));
    }

    #[test]
    fn a_file_that_cannot_be_read_is_3() {
        let folder = env::temp_dir();
        for file in [
            OsStr::new("no/such/file"),
            OsStr::new(""),
            folder.as_os_str(),
        ] {
            assert_eq!(ran(&[file], b"load"), (3, String::new()));
        }
    }

    #[test]
    fn wrong_usage_is_2() {
        let (a, help) = (OsStr::new("a"), OsStr::new("--help"));
        for arguments in [&[a, a][..], &[help]] {
            assert_eq!(ran(arguments, b"load"), (2, String::new()));
        }
    }
}
