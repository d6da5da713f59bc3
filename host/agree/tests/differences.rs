//! A search finds a difference that is there, and shrinks it to the line that shows it.

use agree::programs::{built, Program};
use agree::search::Search;
use agree::subjects::{Subject, SUBJECTS};
use std::ffi::OsString;

/// The tool, with its answers changed on their way.
fn faulty(change: &str) -> Program {
    let tool: Vec<String> = built("kpalumere")
        .iter()
        .map(|word| format!("'{}'", word.to_string_lossy()))
        .collect();
    let line = format!("{} ask | sed '{change}'", tool.join(" "));
    // The status is the tool's, as if nothing stood between.
    let words = ["bash", "-o", "pipefail", "-c", &line];
    Program::of_words("faulty", words.iter().map(OsString::from).collect())
}

fn search(subject: &Subject, calls: u64) -> Search<'_> {
    Search {
        subject,
        seed: 1,
        calls,
    }
}

#[test]
fn a_wrong_answer_is_found_and_shrunk() {
    let subject = SUBJECTS.iter().find(|subject| subject.name == "buffers");
    let faulty = faulty("s/^ok length=14$/ok length=15/");
    let found = search(subject.unwrap(), 500).run(&Program::tool(), &faulty, |_| {});
    let difference = found.unwrap_err();
    assert_eq!(difference.script.len(), 1, "{difference:?}");
    assert!(difference
        .told
        .contains("expected 'ok length=14', found 'ok length=15'"));
    let text = difference.text();
    assert!(
        text.ends_with(" # kpalumere: ok length=14; faulty: ok length=15\n"),
        "{text}"
    );
}

#[test]
fn a_program_that_stops_early_is_found() {
    let faulty = faulty("3q");
    let subject = SUBJECTS.iter().find(|subject| subject.name == "mailbox");
    let found = search(subject.unwrap(), 500).run(&Program::tool(), &faulty, |_| {});
    let difference = found.unwrap_err();
    assert!(difference.told.contains("found none"), "{difference:?}");
    assert_eq!(difference.script.len(), 4);
}

#[test]
fn a_program_agrees_with_itself_on_every_subject() {
    for subject in SUBJECTS {
        let (tool, mut watched) = (Program::tool(), 0);
        let seen = search(subject, 500).run(&tool, &tool, |answered| watched = answered);
        let seen = seen.unwrap();
        assert!(seen.scripts > 0 && watched == seen.tally.answers());
        assert!(watched >= 500, "{}: {watched}", subject.name);
    }
}
