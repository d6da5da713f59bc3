//! A directory in a buffer: started, and extended by one entry after another.

use super::call::Call;
use super::told::told;
use super::State;
use crate::arguments::call::CallForm;
use crate::arguments::lines::BadLine;
use crate::arguments::numbers::{number, number32, number8};
use bindings::NewEntry;

pub static CALLS: [Call; 2] = [
    Call {
        form: CallForm::new(
            "start",
            "NAME LEVEL",
            "write an empty directory at the buffer's start",
        ),
        answer: start,
    },
    Call {
        form: CallForm::new(
            "extend",
            "NAME TYPE SUB SIZE LOCATION MODE",
            "add an entry to the directory at the buffer's start",
        ),
        answer: extend,
    },
];

fn start(state: &mut State, words: &[&[u8]]) -> Result<String, BadLine> {
    let buffer = state.buffers.lent_to_change("NAME", words[0])?;
    let level = number32("LEVEL", words[1])?;
    let answer = bindings::start(buffer, level);
    Ok(told(answer, |()| String::from("ok")))
}

fn extend(state: &mut State, words: &[&[u8]]) -> Result<String, BadLine> {
    let buffer = state.buffers.lent_to_change("NAME", words[0])?;
    let entry = NewEntry {
        class: number8("TYPE", words[1])?,
        subprogram: number8("SUB", words[2])?,
        size: number32("SIZE", words[3])?,
        location: number("LOCATION", words[4], u64::MAX)?,
        mode: number32("MODE", words[5])?,
    };
    let answer = bindings::extend(buffer, &entry);
    Ok(told(answer, |total| format!("ok total={total}")))
}

#[cfg(test)]
mod tests {
    use super::super::tests::{all_are_bad, answers_after};

    #[test]
    fn a_directory_is_started_and_extended() {
        let calls = "start a 1\nshow a 0 16\nextend a 1 0 0x100 0x1000 1\nshow a 4 8\n\
                     extend a 0x40 0 0 0x3fffffffffffffff 3\nextend a 1 1 0 0 0\n";
        let expected = [
            "ok",
            "bytes 24505350ffffffff0000000000000000",
            "ok total=1",
            "bytes 0251148601000000",
            "ok total=2",
            "refused 12",
        ];
        assert_eq!(answers_after("buffer a 48\n", calls), expected);
    }

    #[test]
    fn what_is_refused_keeps_the_buffer() {
        let calls =
            "digest a\nstart a 0\nextend a 1 0 0 0x4000000000000000 1\nextend a 1 0 0 0 4\n\
                     extend a 0x40 0 0 0 1\nextend a 1 0 7 7 1\ndigest a\n";
        let answers = answers_after("buffer a 48\nstart a 2\nextend a 1 0 0 0 0\n", calls);
        let refused = [
            "refused 9",
            "refused 5",
            "refused 5",
            "refused 14",
            "refused 18",
        ];
        assert_eq!(answers[1..6], refused);
        assert_eq!(answers[0], answers[6]);
    }

    #[test]
    fn what_is_met_in_the_directory_there_is_told_with_its_place() {
        let calls = "extend a 2 0 0 0 0\npatch a 4 03001b00\npatch a 0x12 01\nextend a 2 0 0 0 0\n\
                     patch a 4 00\nextend a 2 0 0 0 0\npatch a 0 00\nextend a 2 0 0 0 0\n\
                     buffer a 15\nextend a 2 0 0 0 0\n";
        let others = "buffer a 32\nstart a 2\nextend a 1 0 0 0 0\n";
        let mut answers = answers_after(others, calls);
        answers.retain(|answer| answer.starts_with("refused"));
        let expected = [
            "refused 12",
            "refused 5 level=2 index=0",
            "refused 4 level=2",
            "refused 2 level=0",
            "refused 1 level=0",
        ];
        assert_eq!(answers, expected);
    }

    #[test]
    fn numbers_must_fit_their_widths() {
        let lines = [
            "start a 0x100000000",
            "start b 1",
            "start a",
            "extend a 256 0 0 0 0",
            "extend a 0 256 0 0 0",
            "extend a 0 0 0x100000000 0 0",
            "extend a 0 0 0 0x10000000000000000 0",
            "extend a 0 0 0 0 0x100000000",
            "extend a 0 0 0 0",
        ];
        all_are_bad("buffer a 48\nstart a 1\n", &lines);
    }
}
