//! A line whose answer differs, as it is shown. No more of a long line is kept than that.

use crate::arguments::lines::words_of;
use crate::arguments::mailbox_calls::TAKE;
use crate::arguments::numbers::number32;
use crate::language::Answered;

/// How many bytes of a call or an answer are shown.
const MOST: usize = 240;

/// How many bytes that are the same stand before the first that differs, where two answers are long.
const BEFORE: usize = 40;

#[derive(Debug, PartialEq, Eq)]
pub struct Difference {
    pub line: u64,
    pub call: String,
    pub expected: String,
    pub given: String,
    /// The word that the caller of a `take` is said to have got, where the library gives it another or none.
    pub strange_word: Option<u64>,
}

impl Difference {
    /// A line by its number, its call, the answer that is expected, and the one that is given.
    pub fn of(
        line: u64,
        call: &[&[u8]],
        expected: Option<&[&[u8]]>,
        answered: &Answered,
    ) -> Difference {
        let due = match expected {
            // Of a line without an answer it is expected that it is a call.
            None => b"a call".to_vec(),
            Some([]) => b"nothing".to_vec(),
            Some(words) => words.join(&b' '),
        };
        let given = answered.text.as_bytes();
        let from = from_where_they_differ(&due, given);
        Difference {
            line,
            call: shown(&call.join(&b' '), 0),
            expected: shown(&due, from),
            given: shown(given, from),
            strange_word: expected.and_then(|words| strange_word(call, words, answered)),
        }
    }
}

/// The word that a `take` is expected to give, where it gives another or none.
fn strange_word(call: &[&[u8]], expected: &[&[u8]], answered: &Answered) -> Option<u64> {
    let is_take = call.first() == Some(&TAKE.name.as_bytes());
    let given = word_of(&words_of(answered.text.as_bytes()));
    word_of(expected).filter(|word| is_take && given != Some(*word))
}

/// The word of an answer to a `take`.
fn word_of(answer: &[&[u8]]) -> Option<u64> {
    match answer {
        [b"ok", word] => {
            let digits = word.strip_prefix(b"word=")?;
            number32("WORD", digits).ok().map(u64::from)
        }
        _ => None,
    }
}

/// From where on two answers are shown: from their start, or, where they are long, from a little before they differ.
fn from_where_they_differ(expected: &[u8], given: &[u8]) -> usize {
    let pairs = expected.iter().zip(given);
    match pairs.take_while(|(one, other)| one == other).count() {
        same if same + BEFORE > MOST => same - BEFORE,
        _ => 0,
    }
}

/// A text from a place on, as far as it is shown, without a byte that a terminal would take for a command.
fn shown(text: &[u8], from: usize) -> String {
    let rest = text.get(from..).unwrap_or_default();
    let start = &rest[..rest.len().min(MOST)];
    let mut shown = String::from(if from > 0 { "..." } else { "" });
    for byte in start {
        match byte {
            b' '..=b'~' => shown.push(char::from(*byte)),
            _ => shown.push_str(&format!("\\x{byte:02x}")),
        }
    }
    if start.len() < rest.len() {
        shown.push_str("...");
    }
    shown
}

#[cfg(test)]
mod tests {
    use super::*;

    /// A call and the answers to it, of which the second is given to a line that is a call.
    fn difference(call: &str, expected: Option<&str>, given: &str) -> Difference {
        let answered = Answered {
            text: String::from(given),
            is_call: true,
        };
        let words = expected.map(|expected| words_of(expected.as_bytes()));
        Difference::of(7, &words_of(call.as_bytes()), words.as_deref(), &answered)
    }

    #[test]
    fn an_answer_that_differs_stands_beside_the_one_given() {
        let expected = Difference {
            line: 7,
            call: String::from("post 3 0x81 0"),
            expected: String::from("ok"),
            given: String::from("refused 10"),
            strange_word: None,
        };
        let found = difference("post 3  0x81\t0", Some(" ok "), "refused 10");
        assert_eq!(found, expected);
        assert_eq!(difference("load", Some(""), "no").expected, "nothing");
        assert_eq!(difference("lod", None, "bad line: so").expected, "a call");
    }

    #[test]
    fn a_word_is_strange_where_the_library_gives_another_or_none() {
        for (call, expected, given, word) in [
            (
                "take 1",
                "ok word=0x80810000",
                "ok word=0x80810001",
                Some(0x8081_0000),
            ),
            ("take 1", "ok word=0x5", "refused 8", Some(5)),
            // The same word, written in another way.
            ("take 1", "ok word=2155937793", "ok word=0x80810001", None),
            ("take 1", "refused 11", "ok word=0x80810001", None),
            ("take 1", "ok", "ok word=0x80810001", None),
            ("take 1", "ok word=none", "ok word=0x80810001", None),
            ("load", "ok word=0x5", "no", None),
        ] {
            let found = difference(call, Some(expected), given);
            assert_eq!(found.strange_word, word, "{call} => {expected}");
        }
    }

    #[test]
    fn long_answers_are_kept_where_they_differ_alone() {
        let zeros = "0".repeat(2000);
        let (expected, given) = (format!("bytes {zeros}1000"), format!("bytes {zeros}0000"));
        let found = difference("show a 0 1002", Some(&expected), &given);
        let before = format!("...{}", &zeros[..BEFORE]);
        assert_eq!(found.expected, format!("{before}1000"));
        assert_eq!(found.given, format!("{before}0000"));
        let found = difference(&format!("post {zeros}"), Some(&zeros), "ok");
        for text in [found.call, found.expected] {
            assert_eq!((text.len(), text.ends_with("0...")), (MOST + 3, true));
        }
    }

    #[test]
    fn what_no_terminal_should_see_is_shown_in_digits() {
        assert_eq!(shown(b"it's \x1b[2J \xff", 0), "it's \\x1b[2J \\xff");
    }
}
