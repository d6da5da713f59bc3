//! Recorded answers beside those that the library gives, line by line.

use super::difference::Difference;
use crate::arguments::lines::words_of;
use crate::language::recording::Recording;
use crate::language::{recorded, Answered, State};

/// The lines that were compared so far.
pub struct Comparison {
    state: State,
    /// The same calls as far as they are the mailbox's, with the post that each word answers.
    pub recording: Recording,
    /// How many answers were looked at.
    pub checked: u64,
    pub differences: Vec<Difference>,
}

impl Comparison {
    pub fn new() -> Comparison {
        Comparison {
            state: State::default(),
            recording: Recording::new(),
            checked: 0,
            differences: Vec::new(),
        }
    }

    /// Makes the call of the next line, and compares the answer where one is recorded.
    pub fn add_line(&mut self, line: u64, text: &[u8]) {
        let words = words_of(text);
        if words.is_empty() {
            return;
        }
        let (call, expected) = recorded::parted(&words);
        let answered = self.state.answer(line, call);
        // A call that is not the mailbox's is none of the recording's, and changes nothing of it.
        drop(self.recording.play_line(line, call));
        // Of a line without an answer it is looked at alone whether it is a call.
        let is_right = match expected {
            Some(expected) => are_same(expected, &answered),
            None if answered.is_call => return,
            None => false,
        };
        self.checked += 1;
        if !is_right {
            let difference = Difference::of(line, call, expected, &answered);
            self.differences.push(difference);
        }
    }
}

/// Whether an answer is the one expected: word by word; of a bad line, only that it is one.
fn are_same(expected: &[&[u8]], answered: &Answered) -> bool {
    match expected {
        [b"bad", b"line" | b"line:", ..] => !answered.is_call,
        _ => expected == words_of(answered.text.as_bytes()) && answered.is_call,
    }
}

#[cfg(test)]
mod tests {
    use super::*;

    fn compared(text: &str) -> Comparison {
        let mut comparison = Comparison::new();
        for (line, text) in (1..).zip(text.split_inclusive('\n')) {
            comparison.add_line(line, text.as_bytes());
        }
        comparison
    }

    fn lines_that_differ(text: &str) -> Vec<u64> {
        let differences = compared(text).differences;
        differences.iter().map(|differing| differing.line).collect()
    }

    #[test]
    fn answers_that_are_the_same_do_not_differ() {
        let text = "buffer a 4\n\n# a comment\nshow\ta 0  4 =>\tbytes   00000000 # as it was\r\npost 1 0x81 0 => ok\n\
                    take 1 => refused 11\nfind-image a 1 0 => refused 2\nload => yes";
        let comparison = compared(text);
        assert_eq!(comparison.differences, []);
        assert_eq!(comparison.checked, 5);
    }

    #[test]
    fn words_are_compared_as_they_are_written() {
        for (answer, differs) in [
            ("ok length=4", false),
            ("ok length=0x4", true),
            ("ok", true),
            ("ok length=4 more", true),
            ("OK length=4", true),
            ("", true),
            ("ok length=4 => ok length=4", true),
        ] {
            let lines = lines_that_differ(&format!("buffer a 4 => {answer}\n"));
            assert_eq!(!lines.is_empty(), differs, "{answer}");
        }
    }

    #[test]
    fn a_line_that_is_no_call_differs_unless_that_is_expected() {
        for (line, differs) in [
            ("bufer a 4", true),
            ("bufer a 4 => ok length=4", true),
            ("bufer a 4 => bad line", false),
            ("bufer a 4 => bad line: some other reason", false),
            ("buffer a 4 => bad line", true),
            ("=> ok", true),
            ("=>", true),
            ("bufer a 4 => bad", true),
        ] {
            let comparison = compared(&format!("{line}\n"));
            assert_eq!(comparison.checked, 1, "{line}");
            assert_eq!(!comparison.differences.is_empty(), differs, "{line}");
        }
    }
}
