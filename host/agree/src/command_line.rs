//! The words that `agree` is started with.

use agree::subjects::{Subject, SUBJECTS};
use std::path::PathBuf;
use std::time::{SystemTime, UNIX_EPOCH};

pub const HELP: &str = "\
agree: random calls, given to the tool and to the second program; two answers that differ are a fault in one.

  agree [--calls N] [--seed S] [--subject NAME]... [--progress] [--first] [--second FILE]
  agree --cases [--first] [--second FILE]

  --calls N        how many calls in all, in equal shares for the subjects (160000 where it is not given). A call is a line
                   that is answered, also one that only makes or shows bytes; each subject has a few calls more than its
                   share, where its last script has
  --seed S         the number that the calls follow from (one from the clock where it is not given; it is printed)
  --subject NAME   a subject to try, and no other that is not named so (all of them where none is named)
  --progress       tell every few seconds on standard error how far it is (it does so anyway where that is a terminal)
  --first          end at the first subject or case with a difference
  --second FILE    a program to take the second one's place
  --cases          the recorded cases of host/cases in the place of random calls: what the second program answers is held
                   against what was recorded

After the subjects comes a table: for each call how often it was accepted, refused with which number and where, or a bad line.
A difference is printed with the seed and as a script of a few lines that shows it, with the answers of both programs. The
script and the answers are also written, as a case has them, to agree-difference.* beside the programs.
The last line is 'N passed, M failed', counting subjects or cases.
The status is 0 where all answers are equal, 1 where some differ, 2 for a wrong word.";

/// What the command line asks for.
pub struct Wanted {
    pub calls: u64,
    pub seed: u64,
    pub subjects: Vec<&'static Subject>,
    pub progress: bool,
    pub first: bool,
    pub second: Option<PathBuf>,
    pub cases: bool,
}

impl Wanted {
    /// How many calls the subject at a place has for its share.
    pub fn share(&self, place: usize) -> u64 {
        let (subjects, place) = (self.subjects.len() as u64, place as u64);
        self.calls / subjects + u64::from(place < self.calls % subjects)
    }
}

/// Reads the command line. The error is what is wrong with it.
pub fn wanted(words: &[String]) -> Result<Wanted, String> {
    let clock = SystemTime::now().duration_since(UNIX_EPOCH);
    let mut wanted = Wanted {
        calls: 160_000,
        seed: clock.map_or(0, |since| since.as_micros() as u64),
        subjects: Vec::new(),
        progress: false,
        first: false,
        second: None,
        cases: false,
    };
    let mut words = words.iter();
    while let Some(option) = words.next() {
        let mut value = || words.next().ok_or(format!("{option:?} has no value"));
        match option.as_str() {
            "--calls" => wanted.calls = number(value()?)?,
            "--seed" => wanted.seed = number(value()?)?,
            "--subject" => wanted.subjects.push(subject(value()?)?),
            "--second" => wanted.second = Some(PathBuf::from(value()?)),
            "--progress" => wanted.progress = true,
            "--first" => wanted.first = true,
            "--cases" => wanted.cases = true,
            _ => return Err(format!("there is no option {option:?}")),
        }
    }
    if wanted.subjects.is_empty() {
        wanted.subjects = SUBJECTS.iter().collect();
    }
    Ok(wanted)
}

fn subject(name: &str) -> Result<&'static Subject, String> {
    let names: Vec<&str> = SUBJECTS.iter().map(|subject| subject.name).collect();
    let found = SUBJECTS.iter().find(|subject| subject.name == name);
    found.ok_or(format!("there is no subject {name:?}, but {names:?}"))
}

fn number(word: &str) -> Result<u64, String> {
    word.parse()
        .map_err(|_| format!("{word:?} is no number of at most 64 bits"))
}

#[cfg(test)]
mod tests {
    use super::*;

    fn wanted_by(line: &str) -> Result<Wanted, String> {
        let words: Vec<String> = line.split_whitespace().map(String::from).collect();
        wanted(&words)
    }

    #[test]
    fn the_words_are_read() {
        let wanted = wanted_by("--seed 7 --subject buffers --progress --calls 20").unwrap();
        assert_eq!((wanted.seed, wanted.calls, wanted.progress), (7, 20, true));
        let names: Vec<&str> = wanted.subjects.iter().map(|subject| subject.name).collect();
        assert_eq!(names, ["buffers"]);
        assert!(!wanted.cases);
        assert!(!wanted.first);
        let wanted = wanted_by("--cases --first --second a/b").unwrap();
        assert_eq!(wanted.second, Some(PathBuf::from("a/b")));
        assert!(wanted.cases && wanted.first && !wanted.progress);
    }

    #[test]
    fn where_no_subject_is_named_all_are_tried() {
        assert_eq!(wanted_by("").unwrap().subjects.len(), SUBJECTS.len());
    }

    #[test]
    fn the_shares_are_equal_and_make_up_the_whole() {
        let wanted = wanted_by("--calls 20 --subject aspt --subject view --subject build").unwrap();
        assert_eq!([0, 1, 2].map(|place| wanted.share(place)), [7, 7, 6]);
    }

    #[test]
    fn wrong_words_are_told() {
        for line in [
            "--seed",
            "--seed x",
            "--calls -1",
            "--subject none",
            "--second",
            "--fast 1",
            "7",
        ] {
            assert!(wanted_by(line).is_err(), "{line}");
        }
    }
}
