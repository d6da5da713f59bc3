//! Every recorded case, answered by both programs, from a file and over standard input.

use agree::cases;
use agree::programs::Program;

#[test]
fn the_tool_answers_every_case_as_recorded() {
    answers_every_case(&Program::tool());
}

#[test]
fn the_second_program_answers_every_case_as_recorded() {
    answers_every_case(&Program::second());
}

fn answers_every_case(program: &Program) {
    let cases = cases::all().expect("the cases can be read");
    assert!(!cases.is_empty(), "there is no case in host/cases");
    let mut departures = Vec::new();
    for case in &cases {
        departures.extend(case.departure_of(program));
        departures.extend(case.departure_from_file(program));
    }
    assert!(
        departures.is_empty(),
        "{} departs from host/cases:\n{}",
        program.name,
        departures.join("\n")
    );
}
