//! What the header for C gives by name, held to the library and to the bindings.

use crate::{all, answer, aspt, exported, mailbox};
use std::collections::{BTreeMap, BTreeSet};

const HEADER: &str = include_str!("../../kpalumere.h");

/// The numbers that the header has by name, without the project's name before them. A value may be a sum or product of such names.
fn names() -> BTreeMap<&'static str, u64> {
    let mut names = BTreeMap::new();
    for line in HEADER.lines() {
        let line = line.trim();
        let declared = match line.strip_prefix("#define ") {
            Some(rest) => rest.split_once(' '),
            None => line.split_once(" = "),
        };
        let declared = declared
            .and_then(|(name, value)| Some((name.strip_prefix("KPALUMERE_")?, value)))
            .filter(|(_, value)| !value.starts_with('"'));
        if let Some((name, value)) = declared {
            let value = value.split("/*").next().unwrap_or_default();
            let value = value.trim().trim_end_matches(',');
            let number = sum_of(value, &names);
            assert_eq!(names.insert(name, number), None, "{name} is there twice");
        }
    }
    names
}

/// The number that a sum of products is.
fn sum_of(value: &str, names: &BTreeMap<&str, u64>) -> u64 {
    let number = |word: &str| match word.trim().strip_prefix("KPALUMERE_") {
        Some(name) => names[name],
        None => word.trim().parse().expect("a number or a name of before"),
    };
    let products = value.split('+').map(|product| product.split('*'));
    products
        .map(|factors| factors.map(number).product::<u64>())
        .sum()
}

#[test]
fn refusals_have_the_names_and_numbers_of_the_library() {
    let names = names();
    let library = answer::numbers_of_library();
    assert_eq!(library.len(), 18);
    for (name, number) in &library {
        assert_eq!(names.get(name.as_str()), Some(number), "{name}");
    }
    assert_eq!(names["ACCEPTED"], 0);
    // No number has a second name: what is not a refusal's is a count of words, what it was met in, or the version.
    let refusals: BTreeSet<&str> = library
        .keys()
        .map(String::as_str)
        .chain(["ACCEPTED"])
        .collect();
    let others = names.keys().filter(|name| !refusals.contains(*name));
    for name in others {
        let known = ["_WORDS", "_VALUES"].iter().any(|end| name.ends_with(end))
            || ["MET_", "MOST_", "VERSION_"]
                .iter()
                .any(|start| name.starts_with(start));
        assert!(known, "{name}");
    }
}

#[test]
fn every_call_that_is_lent_words_has_their_count_by_name() {
    let names = names();
    // The words of a mailbox are those of all its calls.
    let mailbox: BTreeSet<&str> = mailbox::EXPORTED.iter().map(|(call, _)| *call).collect();
    let mut calls: BTreeSet<String> = exported::calls_of_header()
        .into_iter()
        .filter(|(call, types)| {
            !mailbox.contains(call.as_str()) && types.iter().any(|one| one.ends_with(" u64"))
        })
        .map(|(call, _)| call["kpalumere_".len()..].to_uppercase() + "_WORDS")
        .collect();
    let others = [
        "PLACE_WORDS",
        "HEAD_WORDS",
        "ROW_WORDS",
        "ENTERED_WORDS",
        "MAILBOX_WORDS",
    ];
    calls.extend(others.map(String::from));
    let counts = names.keys().filter(|name| name.ends_with("_WORDS"));
    assert_eq!(
        counts.map(|name| name.to_string()).collect::<BTreeSet<_>>(),
        calls
    );
}

/// With fewer a call on a directory may be refused for want of words, though it gives fewer.
#[test]
fn every_call_on_a_directory_is_lent_words_for_a_place() {
    let names = names();
    let calls = [
        "DIRECTORY",
        "DIRECTORIES",
        "REPEATED",
        "ENTRY",
        "PART",
        "FIND",
        "FIND_IMAGE",
        "VIEW",
        "VIEW_ENTRY",
        "VIEW_PART",
        "VIEW_ENTRIES",
        "ENTRY_VERSION",
        "VIEW_VERSION",
        "EXTEND",
    ];
    for call in calls {
        let count = names[&*format!("{call}_WORDS")];
        assert!(count >= answer::PLACE_WORDS as u64, "{call}");
    }
}

#[test]
fn counts_are_those_of_the_bindings() {
    let names = names();
    let of_bindings = [
        ("PLACE_WORDS", answer::PLACE_WORDS),
        ("MET_HEADER", answer::MET_HEADER as usize),
        ("MET_ENTRY", answer::MET_ENTRY as usize),
        ("HEAD_WORDS", all::HEAD_WORDS),
        ("MOST_ENTRIES", all::MOST_ENTRIES),
        ("ROW_WORDS", all::ROW_WORDS),
        ("VIEW_ENTRIES_WORDS", all::WORDS_FOR_ENTRIES),
        ("MOST_DIRECTORIES", all::MOST_DIRECTORIES),
        ("ENTERED_WORDS", all::ENTERED_WORDS),
        ("DIRECTORIES_WORDS", all::WORDS_FOR_ALL),
        ("ASPT_READ_WORDS", aspt::ALL),
        ("ASPT_WRITE_WORDS", aspt::ALL),
        ("MAILBOX_WORDS", mailbox::ALL),
    ];
    for (name, count) in of_bindings {
        assert_eq!(names[name], count as u64, "{name}");
    }
}

#[test]
fn the_version_is_that_of_the_tool() {
    let manifest = include_str!("../../tool/Cargo.toml");
    let quoted = |text: &'static str, before: &str| -> &'static str {
        let line = text.lines().find_map(|line| line.strip_prefix(before));
        line.expect("there is such a line").trim_matches('"')
    };
    let version = quoted(manifest, "version = ");
    assert_eq!(quoted(HEADER, "#define KPALUMERE_VERSION "), version);
    let names = names();
    let numbers = ["MAJOR", "MINOR", "PATCH"].map(|part| names[&*format!("VERSION_{part}")]);
    assert_eq!(numbers.map(|number| number.to_string()).join("."), version);
}
