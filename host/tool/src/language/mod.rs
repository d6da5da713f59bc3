//! The ask language: one line is one call, one line is its answer. docs/ASK.md has the language; `ask`, `check` and `mailbox`
//! read it.
//!
//! A subject is one module with a table of its calls. To add one, write the module, add its table to [`TABLES`] and what
//! it keeps between calls to [`State`].

mod aspt;
mod buffers;
mod build;
mod call;
mod flash;
mod guids;
mod mailbox;
pub mod recorded;
pub mod recording;
pub mod script;
mod told;
mod view;

use crate::arguments::call::CallForm;
use crate::arguments::lines::BadLine;
use crate::arguments::quoted::quoted;
use buffers::Buffers;
use call::Call;

/// The calls of each subject, in the order in which the help shows them.
static TABLES: &[&[Call]] = &[
    &buffers::CALLS,
    &flash::CALLS,
    &view::CALLS,
    &build::CALLS,
    &aspt::CALLS,
    &guids::CALLS,
    &mailbox::CALLS,
];

/// What is kept from one call to the next.
#[derive(Default)]
pub struct State {
    buffers: Buffers,
    mailbox: mailbox::Kept,
}

/// The answer to a line.
#[derive(Debug, PartialEq, Eq)]
pub struct Answered {
    /// What is answered, without a line end.
    pub text: String,
    /// Whether the line was a call; else the answer is `bad line: ` and the reason.
    pub is_call: bool,
}

impl State {
    /// Answers a line, by its number and its words.
    pub fn answer(&mut self, line: u64, words: &[&[u8]]) -> Answered {
        let (text, is_call) = match self.answer_to(words) {
            Ok(answer) => (answer, true),
            Err(bad) => (format!("bad line: line {line}: {}", bad.reason), false),
        };
        Answered { text, is_call }
    }

    /// The answer to one call, given its name and the words after it.
    fn answer_to(&mut self, words: &[&[u8]]) -> Result<String, BadLine> {
        let no_call = || BadLine::new("it has no call; `kpalumere ask --help` lists the calls");
        let (name, words) = words.split_first().ok_or_else(no_call)?;
        let call = TABLES
            .iter()
            .flat_map(|table| table.iter())
            .find(|call| call.form.name.as_bytes() == *name)
            .ok_or_else(|| {
                let name = quoted(name);
                BadLine::new(format!(
                    "{name} is not a call; `kpalumere ask --help` lists the calls"
                ))
            })?;
        call.form.expect_words(words.len())?;
        (call.answer)(self, words)
    }
}

/// How every call is written, subject by subject.
pub fn forms() -> impl Iterator<Item = impl Iterator<Item = &'static CallForm>> {
    let forms_of = |table: &'static [Call]| table.iter().map(|call| &call.form);
    TABLES.iter().copied().map(forms_of)
}

#[cfg(test)]
mod tests {
    use super::*;
    use crate::arguments::lines::words_of;

    /// The answers to calls that follow others, every one of which is accepted.
    pub fn answers_after(others: &str, calls: &str) -> Vec<String> {
        let mut answers = answers_to(&(others.to_string() + calls));
        let after = answers.split_off(others.lines().count());
        assert!(answers.iter().all(|a| a.starts_with("ok")), "{answers:?}");
        after
    }

    /// Every one of these lines, after others that are accepted, is bad and changes no buffer.
    pub fn all_are_bad(others: &str, lines: &[&str]) {
        for line in lines {
            let answers = answers_after(others, &format!("digest a\n{line}\ndigest a\n"));
            assert_eq!(answers.len(), 3, "{line}");
            assert!(answers[1].starts_with("bad line: "), "{line}: {answers:?}");
            assert_eq!(answers[0], answers[2], "{line}");
        }
    }

    /// The answers to a script, every line of which has a word.
    fn answers_to(script: &str) -> Vec<String> {
        let mut state = State::default();
        let lines = (1..).zip(script.lines());
        lines
            .map(|(number, line)| state.answer(number, &words_of(line.as_bytes())).text)
            .collect()
    }

    #[test]
    fn a_bad_line_is_told_with_its_number_and_changes_nothing() {
        let mut state = State::default();
        let bad = state.answer(7, &[b"flash", b"a"]);
        assert!(!bad.is_call);
        assert!(bad
            .text
            .starts_with("bad line: line 7: 'flash' is not a call"));
        let good = state.answer(8, &[b"buffer", b"a", b"2"]);
        let text = String::from("ok length=2");
        let is_call = true;
        assert_eq!(good, Answered { text, is_call });
        assert!(!state.answer(9, &[]).is_call);
    }
}
