//! What two programs answered, line by line: the first place where they part.

use crate::programs::{Program, Run};
use std::path::Path;
use std::thread;

/// What stands for the answer to a bad line. Its reason is for people, and each program has its own words.
pub const BAD_LINE: &[u8] = b"bad line";

/// The answers that a program wrote, one a line, as they are compared.
pub fn answers_of(written: &[u8]) -> Vec<Vec<u8>> {
    written
        .split_inclusive(|&byte| byte == b'\n')
        .map(|line| match line.strip_suffix(b"\n") {
            Some(answer) => compared(answer).to_vec(),
            // Every answer ends its line. One that does not is shown as what it is, and equals no other.
            None => [line, b" (and no line end)"].concat(),
        })
        .collect()
}

/// One answer as it is compared: of a bad line only that it is one and that a reason is given.
fn compared(answer: &[u8]) -> &[u8] {
    match answer.strip_prefix(b"bad line: ") {
        Some(reason) if !reason.is_empty() => BAD_LINE,
        _ => answer,
    }
}

/// The status that a program must end with after these answers: 1 where a line was bad, else 0.
pub fn status_after(answers: &[Vec<u8>]) -> i32 {
    i32::from(answers.iter().any(|answer| answer == BAD_LINE))
}

/// Tells the first place where a run is not as expected, or nothing where it is.
pub fn departure(script: &[u8], expected: &[Vec<u8>], status: i32, run: &Run) -> Option<String> {
    let found = answers_of(&run.answers);
    let places = expected.len().max(found.len());
    let first = (0..places).find(|&place| expected.get(place) != found.get(place));
    if let Some(place) = first {
        let call = match call_of_answer(script, place) {
            Some((line, call)) => format!("line {line}, {}", shown(call)),
            None => String::from("no call"),
        };
        let (expected, found) = (expected.get(place), found.get(place));
        let told = format!(
            "answer {}, to {call}: {}",
            place + 1,
            told_apart(expected, found)
        );
        return Some(told + &said(run));
    }
    if run.status != Some(status) {
        let found = run.status.map_or_else(
            || "none (a signal ended it, or it took too long)".into(),
            |status| status.to_string(),
        );
        return Some(format!("status: expected {status}, found {found}") + &said(run));
    }
    None
}

/// Two programs on one script.
pub struct SideBySide {
    /// What the first answered, and what the second did, as answers are compared.
    pub answers: [Vec<Vec<u8>>; 2],
    /// The first place where they part, in words; none where they do not.
    pub parted: Option<String>,
}

impl SideBySide {
    /// How many lines of the script show that they part: all up to the first answer that differs.
    pub fn lines_to_part(&self, script: &[u8]) -> Option<usize> {
        let [first, second] = &self.answers;
        let equal = first.iter().zip(second).take_while(|(a, b)| a == b);
        let place = equal.count();
        calls_of(script).nth(place).map(|(line, _)| line)
    }
}

/// Runs two programs on a script, both at the same time.
pub fn set_side_by_side(
    first: &Program,
    second: &Program,
    script: &[u8],
    folder: &Path,
) -> SideBySide {
    let (run, other) = thread::scope(|both| {
        let other = both.spawn(|| second.answers_to(script, folder));
        let run = first.answers_to(script, folder);
        (run, other.join().expect("a program can be run"))
    });
    let answers = answers_of(&run.answers);
    let parted = unfit(script, &answers, &run)
        .map(|told| format!("{} {told}{}", first.name, said(&run)))
        .or_else(|| {
            departure(script, &answers, status_after(&answers), &other).map(|told| {
                let (first, second) = (&first.name, &second.name);
                format!("{first} is what is expected and {second} what is found; {told}")
            })
        });
    SideBySide {
        answers: [answers, answers_of(&other.answers)],
        parted,
    }
}

/// Tells what is wrong with a run whatever the other program did, so that two that fail alike do not count as equal.
fn unfit(script: &[u8], answers: &[Vec<u8>], run: &Run) -> Option<String> {
    let calls = calls_of(script).count();
    if answers.len() != calls {
        return Some(format!("gave {} answers to {calls} calls", answers.len()));
    }
    let expected = status_after(answers);
    match run.status {
        None => Some("did not end by itself".into()),
        Some(status) if status != expected => {
            Some(format!("ended with {status} where {expected} is due"))
        }
        Some(_) => None,
    }
}

/// Two answers that differ, from a little before the place where they do.
fn told_apart(expected: Option<&Vec<u8>>, found: Option<&Vec<u8>>) -> String {
    let (expected, found) = match (expected, found) {
        (Some(expected), Some(found)) => (expected, found),
        (Some(expected), None) => return format!("expected {}, found none", shown(expected)),
        (None, Some(found)) => return format!("expected none, found {}", shown(found)),
        (None, None) => return String::from("there is none on either side"),
    };
    let equal = expected.iter().zip(found).take_while(|(a, b)| a == b);
    let equal = equal.count();
    if equal < 200 {
        return format!("expected {}, found {}", shown(expected), shown(found));
    }
    let from = equal - 40;
    let (expected, found) = (shown(&expected[from..]), shown(&found[from..]));
    format!("from byte {from} on expected {expected}, found {found}")
}

/// What a program said on standard error, for a report.
fn said(run: &Run) -> String {
    if run.said.is_empty() {
        return String::new();
    }
    format!("; standard error: {}", shown(&run.said))
}

/// The calls of a script, each with its line number: the lines that must have an answer.
pub fn calls_of(script: &[u8]) -> impl Iterator<Item = (usize, &[u8])> {
    let lines = script.split_inclusive(|&byte| byte == b'\n').enumerate();
    lines.filter_map(|(at, line)| {
        let ended = line.strip_suffix(b"\n");
        // A carriage return is dropped before a line end, and nowhere else.
        let line = ended.map_or(line, |line| line.strip_suffix(b"\r").unwrap_or(line));
        let comment = line.iter().position(|&byte| byte == b'#');
        let call = &line[..comment.unwrap_or(line.len())];
        let asks = call.iter().any(|byte| !matches!(byte, b' ' | b'\t'));
        asks.then(|| (at + 1, line))
    })
}

/// The line number and the text of the call that the answer at `place` belongs to.
fn call_of_answer(script: &[u8], place: usize) -> Option<(usize, &[u8])> {
    calls_of(script).nth(place)
}

/// Bytes as a report shows them: on one line, and cut where they are long.
pub fn shown(bytes: &[u8]) -> String {
    const MOST: usize = 300;
    let start = &bytes[..bytes.len().min(MOST)];
    let rest = if bytes.len() > MOST { "..." } else { "" };
    format!("'{}{rest}'", start.escape_ascii())
}

#[cfg(test)]
mod tests {
    use super::*;

    fn run(answers: &str, status: i32) -> Run {
        Run {
            answers: answers.into(),
            said: Vec::new(),
            status: Some(status),
        }
    }

    fn told(expected: &str, status: i32, found: &Run) -> Option<String> {
        departure(
            b"one\n# no call\ntwo",
            &answers_of(expected.as_bytes()),
            status,
            found,
        )
    }

    #[test]
    fn equal_answers_do_not_part() {
        assert_eq!(told("ok\nyes\n", 0, &run("ok\nyes\n", 0)), None);
        assert_eq!(told("", 0, &run("", 0)), None);
    }

    #[test]
    fn reasons_of_bad_lines_are_not_compared() {
        let found = run("bad line: so\nok\n", 1);
        assert_eq!(told("bad line: other words\nok\n", 1, &found), None);
        assert_eq!(told("bad line\nok\n", 1, &found), None);
    }

    #[test]
    fn a_bad_line_needs_a_reason() {
        assert!(told("bad line: why\n", 1, &run("bad line: \n", 1)).is_some());
        assert!(told("bad line: why\n", 1, &run("bad line:\n", 1)).is_some());
    }

    #[test]
    fn every_way_to_part_is_told() {
        let other = told("ok\nyes\n", 0, &run("ok\nno\n", 0)).unwrap();
        assert_eq!(
            other,
            "answer 2, to line 3, 'two': expected 'yes', found 'no'"
        );
        for (expected, found) in [
            ("ok\n", run("ok\nok\n", 0)),
            ("ok\nok\n", run("ok\n", 0)),
            ("ok\n", run("ok", 0)),
            ("ok\n", run("ok \n", 0)),
            ("ok\n", run("ok\n\n", 0)),
            ("ok\n", run("ok\n", 1)),
        ] {
            assert!(told(expected, 0, &found).is_some(), "{expected:?}");
        }
    }

    #[test]
    fn long_answers_are_told_apart_where_they_differ() {
        let (expected, found) = ("a".repeat(1000) + "b\n", "a".repeat(1000) + "c\n");
        let told = told(&expected, 0, &run(&found, 0)).unwrap();
        assert!(told.contains("from byte 960 on"), "{told}");
        assert!(told.contains("ab', found") && told.ends_with("ac'"));
    }

    #[test]
    fn a_run_is_unfit_where_calls_stay_without_an_answer() {
        let script = b"# no call\n \t\r\none # call\n\r# a word\ntwo\r";
        let answers = answers_of(b"ok\nbad line: x\nbad line: x\n");
        assert_eq!(unfit(script, &answers, &run("", 1)), None);
        for (answers, status) in [
            (&answers[..2], Some(1)),
            (&[], Some(0)),
            (&answers, Some(0)),
        ] {
            let run = Run {
                status,
                ..run("", 0)
            };
            assert!(unfit(script, answers, &run).is_some());
        }
        let stopped = Run {
            status: None,
            ..run("", 0)
        };
        assert!(unfit(script, &answers, &stopped).is_some());
    }

    #[test]
    fn the_lines_up_to_the_first_difference_are_counted() {
        let lines = |first: &str, second: &str| {
            let answers = [first, second].map(|text| answers_of(text.as_bytes()));
            let parted = None;
            SideBySide { answers, parted }.lines_to_part(b"one\n# no call\ntwo\nthree\n")
        };
        assert_eq!(lines("ok\nok\nok\n", "no\nok\nok\n"), Some(1));
        assert_eq!(lines("ok\nok\nok\n", "ok\nno\nok\n"), Some(3));
        assert_eq!(lines("ok\nok\nok\n", "ok\n"), Some(3));
        assert_eq!(lines("ok\nok\nok\n", "ok\nok\nok\n"), None);
    }

    #[test]
    fn the_status_follows_from_the_answers() {
        assert_eq!(status_after(&answers_of(b"ok\nrefused 8\n")), 0);
        assert_eq!(status_after(&answers_of(b"ok\nbad line: x\n")), 1);
    }
}
