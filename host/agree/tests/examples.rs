//! The examples of docs/ASK.md: scripts with each answer in a comment. Both programs answer what the page says.

use agree::cases;
use agree::compare::{answers_of, departure, status_after};
use agree::programs::Program;
use std::fs;
use std::path::Path;

/// The examples of the page, each a block of its own.
fn examples() -> Vec<String> {
    let page = Path::new(env!("CARGO_MANIFEST_DIR")).join("../../docs/ASK.md");
    let page = fs::read_to_string(page).expect("the page can be read");
    let blocks = page.split("```ask\n").skip(1);
    blocks
        .map(|rest| rest.split("```").next().unwrap_or_default().to_string())
        .collect()
}

/// The answers that an example promises: what stands in the comments.
fn promised(example: &str) -> String {
    let answer = |line: &str| match line.split_once('#') {
        Some((_, answer)) => answer.trim().to_string() + "\n",
        None => panic!("{line:?} promises no answer"),
    };
    example.lines().map(answer).collect()
}

#[test]
fn both_programs_answer_the_examples_as_the_page_says() {
    let examples = examples();
    for example in &examples {
        let expected = answers_of(promised(example).as_bytes());
        for program in [Program::tool(), Program::second()] {
            let run = program.answers_to(example.as_bytes(), &cases::folder());
            let status = status_after(&expected);
            let told = departure(example.as_bytes(), &expected, status, &run);
            assert_eq!(told, None, "{}:\n{example}", program.name);
        }
    }
    assert!(!examples.is_empty(), "the page has no example");
}
