//! `agree`: random calls from a seed, given to the tool and to the second program.

mod command_line;
mod progress;

use agree::answers::Tally;
use agree::cases;
use agree::difference::Difference;
use agree::programs::{built_folder, Program};
use agree::search::{Agreement, Search};
use command_line::{wanted, Wanted, HELP};
use progress::Progress;
use std::process::ExitCode;
use std::time::{Duration, Instant};

fn main() -> ExitCode {
    let words: Vec<String> = std::env::args().skip(1).collect();
    if words == ["--help"] || words == ["-h"] {
        println!("{HELP}");
        return ExitCode::SUCCESS;
    }
    let wanted = match wanted(&words) {
        Ok(wanted) => wanted,
        Err(wrong) => {
            eprintln!("agree: {wrong}. `agree --help` has the words.");
            return ExitCode::from(2);
        }
    };
    let all_agree = match wanted.cases {
        true => try_cases(&wanted),
        false => try_random_calls(&wanted),
    };
    ExitCode::from(u8::from(!all_agree))
}

/// The second program, or the one that is to take its place.
fn second(wanted: &Wanted) -> Program {
    match &wanted.second {
        Some(path) => Program::in_place_of_second(path),
        None => Program::second(),
    }
}

/// The second program against the recorded answers. Gives whether all are as recorded.
fn try_cases(wanted: &Wanted) -> bool {
    let cases = match cases::all() {
        Ok(cases) => cases,
        Err(error) => {
            println!("agree: the cases cannot be read: {error}\n0 passed, 1 failed");
            return false;
        }
    };
    let second = second(wanted);
    let (mut passed, mut failed) = (0, 0);
    for case in &cases {
        match case.departure_of(&second) {
            None => passed += 1,
            Some(told) => {
                println!("agree: {told}");
                failed += 1;
            }
        }
        if wanted.first && failed > 0 {
            break;
        }
    }
    println!("{passed} passed, {failed} failed");
    failed == 0
}

/// Random calls of each subject. Gives whether both programs agree on all.
fn try_random_calls(wanted: &Wanted) -> bool {
    let (first, second) = (Program::tool(), second(wanted));
    let subjects = wanted.subjects.len();
    println!(
        "agree: seed {}, {} calls in all, {subjects} subjects",
        wanted.seed, wanted.calls
    );
    let began = Instant::now();
    let mut progress = Progress::shown_if(wanted.progress, wanted.calls);
    let mut tally = Tally::default();
    let (mut passed, mut failed) = (0, 0);
    for (place, subject) in wanted.subjects.iter().enumerate() {
        let search = Search {
            subject,
            seed: wanted.seed,
            calls: wanted.share(place),
        };
        let (subject_began, before) = (Instant::now(), tally.answers());
        let found = search.run(&first, &second, |answered| {
            progress.tell(subject.name, before + answered);
        });
        match found {
            Ok(seen) => {
                passed += 1;
                print_agreement(&search, &seen, subject_began.elapsed());
                tally.add(&seen.tally);
            }
            Err(difference) => {
                failed += 1;
                print_difference(&search, &difference);
            }
        }
        if wanted.first && failed > 0 {
            break;
        }
    }
    print!("agree: answers by call:\n{tally}");
    for told in tally.misplaced() {
        println!("agree: an answer that docs/ASK.md does not have: {told}");
        failed += 1;
    }
    println!(
        "agree: {} calls answered, {} of them by the library, in {:.1} s",
        tally.answers(),
        tally.answers_of_library(),
        began.elapsed().as_secs_f64()
    );
    println!("{passed} passed, {failed} failed");
    failed == 0
}

fn print_agreement(search: &Search, seen: &Agreement, took: Duration) {
    println!(
        "agree: {}: {} scripts, {} calls, all answers equal, {:.1} s",
        search.subject.name,
        seen.scripts,
        seen.tally.answers(),
        took.as_secs_f64()
    );
}

fn print_difference(search: &Search, difference: &Difference) {
    let name = search.subject.name;
    println!("agree: {name}: DIFFERENT. {}", difference.told);
    println!(
        "agree: again: agree --seed {} --calls {} --subject {name}",
        search.seed, search.calls
    );
    println!(
        "agree: a script of {} lines shows it:",
        difference.script.len()
    );
    print!("{}", difference.text());
    match difference.save(&built_folder(), "agree-difference") {
        Ok(files) => {
            let files = files.iter().map(|file| file.display().to_string());
            let files: Vec<String> = files.collect();
            println!(
                "agree: it is in {}. To keep it as a case, copy the script to host/cases/NAME.ask and the right answers to \
                 NAME.answers.",
                files.join(", ")
            );
        }
        Err(error) => println!("agree: it cannot be kept as a file: {error}"),
    }
}
