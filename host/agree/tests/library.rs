//! The library of recorded cases: its index, host/cases/README.md, and what every image of it is asked.

use agree::cases::{self, Case};
use std::collections::BTreeSet;
use std::fs;

fn all_cases() -> Vec<Case> {
    cases::all().expect("the cases can be read")
}

/// The row that the index has for a case: its name, and the first sentence of its script's first line.
fn row(case: &Case) -> String {
    let line = case.script.split(|&byte| byte == b'\n').next();
    let line = String::from_utf8_lossy(line.unwrap_or_default()).into_owned();
    let told = line.strip_prefix("# ").unwrap_or_else(|| {
        let name = &case.name;
        panic!("{name}.ask has no first line that says what it shows: begin it with '# '")
    });
    let end = told.find(". ").map_or(told.len(), |point| point + 1);
    let name = &case.name;
    format!("| [{name}]({name}.ask) | {} |", &told[..end].trim_end())
}

#[test]
fn the_index_has_every_case_with_its_first_sentence() {
    let index = cases::folder().join("README.md");
    let index = fs::read_to_string(index).expect("host/cases/README.md can be read");
    let rows = index.lines().filter(|line| line.starts_with("| ["));
    let found: Vec<String> = rows.map(String::from).collect();
    let expected: BTreeSet<String> = all_cases().iter().map(row).collect();
    let indexed: BTreeSet<String> = found.iter().cloned().collect();
    let lines = |rows: Vec<&String>| rows.into_iter().map(|row| format!("{row}\n")).collect();
    let lacking: String = lines(expected.difference(&indexed).collect());
    let wrong: String = lines(indexed.difference(&expected).collect());
    assert!(
        lacking.is_empty() && wrong.is_empty(),
        "host/cases/README.md lacks these rows:\n{lacking}and has these, which fit no case:\n{wrong}"
    );
    assert_eq!(
        found.len(),
        indexed.len(),
        "a row of the index is there twice"
    );
}

/// The calls of a case, each with its answer.
fn calls_and_answers(case: &Case) -> Vec<(Vec<String>, String)> {
    let script = String::from_utf8_lossy(&case.script).into_owned();
    let calls = script.lines().map(|line| {
        let call = line.split('#').next().unwrap_or_default();
        call.split_whitespace().map(String::from).collect()
    });
    let calls = calls.filter(|words: &Vec<String>| !words.is_empty());
    let answers = String::from_utf8_lossy(&case.answers).into_owned();
    calls.zip(answers.lines().map(String::from)).collect()
}

#[test]
fn every_image_is_asked_every_kind_of_call() {
    let mut images = 0;
    for case in all_cases() {
        let asked = calls_and_answers(&case);
        let efs = |words: &[String]| words[0] == "patch" && words[3] == "aa55aa55";
        let in_library = case.name.starts_with("images/");
        if !in_library || !asked.iter().any(|(words, _)| efs(words)) {
            continue;
        }
        images += 1;
        // Each begins with a call, and some such call has an answer that begins so.
        for (call, answer) in [
            ("directory i 1", "ok "),
            ("directory i 2", ""),
            ("entry i ", "ok "),
            ("entry i ", "refused 8"),
            ("bytes i ", "ok "),
            ("bytes i ", "refused "),
            ("find i ", "ok "),
            ("find i ", "refused 8 tested="),
            ("find-image i ", "ok "),
            ("find-image i ", "refused 8 tested="),
        ] {
            let seen = asked
                .iter()
                .any(|(words, told)| words.join(" ").starts_with(call) && told.starts_with(answer));
            let name = &case.name;
            assert!(seen, "{name}.ask has no `{call}` answered `{answer}`");
        }
    }
    assert!(images >= 29, "there are only {images} flash images");
}

#[test]
fn every_refusal_number_has_a_case_of_its_own() {
    let cases = all_cases();
    for number in 1..=18 {
        let name = format!("images/refused-{number:02}-");
        let found: Vec<&Case> = cases
            .iter()
            .filter(|case| case.name.starts_with(&name))
            .collect();
        assert_eq!(found.len(), 1, "one case is named {name}...");
        let refusal = format!("refused {number}");
        let answers = calls_and_answers(found[0]);
        // What is behind the number, a count or a place, has no part in it.
        let refused = answers
            .iter()
            .any(|(_, told)| told == &refusal || told.starts_with(&format!("{refusal} ")));
        assert!(
            refused,
            "{}.ask is never answered `{refusal}`",
            found[0].name
        );
    }
}

#[test]
fn five_machines_have_no_boot_loader_and_the_sixth_has_two_programs() {
    let cases = all_cases();
    for (number, tested) in [(1, 6), (2, 4), (3, 6), (4, 2), (5, 14)] {
        let name = format!("images/machine-{number}-");
        let case = cases.iter().find(|case| case.name.starts_with(&name));
        let asked = calls_and_answers(case.unwrap_or_else(|| panic!("no case is named {name}...")));
        let first = asked
            .iter()
            .find(|(words, _)| words.join(" ") == "find-image i 1 0");
        let (_, answer) = first.unwrap_or_else(|| panic!("{name}... looks up no boot loader"));
        assert_eq!(answer, &format!("refused 8 tested={tested}"), "{name}...");
    }
    let six = cases
        .iter()
        .find(|case| case.name.starts_with("images/machine-6-"));
    let asked = calls_and_answers(six.expect("there is a sixth machine"));
    // All but the answer to 0x81 repeat the data, which tell whose word it is: caller 3 sends threes, caller 5 fives.
    for (caller, own) in [("3", "333"), ("5", "555")] {
        let words = asked.iter().filter_map(|(words, told)| {
            let word = told.strip_prefix("ok word=0x")?;
            (words[..] == ["take", caller] && !word.starts_with("8081")).then(|| word)
        });
        let words: Vec<&str> = words.collect();
        assert!(words.len() >= 2, "caller {caller} takes {words:?} alone");
        let all_own = words.iter().all(|word| word.ends_with(own));
        assert!(all_own, "caller {caller} takes {words:?}");
    }
}
