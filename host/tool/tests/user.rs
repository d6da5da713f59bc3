//! docs/USER.md: every command that it shows is run, in the order of the page, and writes what stands below it there.

use agree::programs::{built, run, Program};
use agree::workplace::{Outcome, Workplace};
use std::ffi::OsString;
use std::fs::{self, Permissions};
use std::os::unix::fs::PermissionsExt;
use std::path::Path;

/// A command of the page, and what stands below it.
#[derive(Debug, PartialEq, Eq)]
struct Shown {
    command: String,
    written: String,
}

/// What parts the outputs of two commands. No command writes it.
const MARK: &str = "\u{1}";

fn page() -> String {
    let page = Path::new(env!("CARGO_MANIFEST_DIR")).join("../../docs/USER.md");
    fs::read_to_string(page).expect("the page can be read")
}

/// The commands of a page: after `$ `, with what follows it after `> `; the other lines of their blocks are what they write.
fn shown(page: &str) -> Vec<Shown> {
    let mut all: Vec<Shown> = Vec::new();
    for rest in page.split("```console\n").skip(1) {
        let block = rest.split("```").next().unwrap_or_default();
        let mut first = true;
        for line in block.lines() {
            let last = all.last_mut();
            match (line.strip_prefix("$ "), line.strip_prefix("> "), last) {
                (Some(command), _, _) => all.push(Shown {
                    command: format!("{command}\n"),
                    written: String::new(),
                }),
                (None, Some(more), Some(last)) if last.written.is_empty() => {
                    last.command += &format!("{more}\n");
                }
                (None, _, Some(last)) if !first => last.written += &format!("{line}\n"),
                _ => panic!("a block of the page does not begin with a command: {line}"),
            }
            first = false;
        }
    }
    all
}

/// Puts a program under a short name into the folder, so that the page need not say how it is started on this machine.
fn put_program(place: &Workplace, name: &str, words: &[OsString]) {
    let words: Vec<String> = words
        .iter()
        .map(|word| format!("'{}'", word.to_str().expect("a path is text")))
        .collect();
    let script = format!("#!/bin/sh\nexec {} \"$@\"\n", words.join(" "));
    place.put(name, script);
    fs::set_permissions(place.path(name), Permissions::from_mode(0o755)).unwrap();
}

#[test]
fn every_command_of_the_page_writes_what_the_page_shows() {
    let all = shown(&page());
    assert!(all.len() > 20, "the page shows {} commands", all.len());
    let place = Workplace::new("user");
    put_program(&place, "kpalumere", &built("kpalumere"));
    put_program(&place, "second", &built("second"));
    let mut script = String::from("exec 2>&1\n");
    for Shown { command, .. } in &all {
        script += &format!("{command}printf '\\001'\n");
    }
    place.put("page.sh", script);
    let shell = Program::of_words("the shell", vec!["sh".into(), "page.sh".into()]);
    let mut command = shell.command(place.folder());
    command.env_remove("COLUMNS").env("LC_ALL", "C");
    let outcome = Outcome::of(run(command, b""));
    let written: Vec<&str> = outcome.wrote.split_terminator(MARK).collect();
    for (shown, written) in all.iter().zip(&written) {
        assert_eq!(
            &shown.written,
            written,
            "below `{}`",
            shown.command.trim_end()
        );
    }
    assert_eq!(written.len(), all.len(), "{outcome:?}");
}

#[test]
fn the_page_names_every_command_of_the_tool() {
    let help = Workplace::new("user-commands").tool(&["--help"]).wrote;
    let names = list_of_help(&help, "Commands:").into_iter();
    let names: Vec<&str> = names.map(|(name, _)| name).collect();
    assert!(names.len() > 10, "{help}");
    for name in names {
        assert!(page().contains(&format!("kpalumere {name}")), "{name}");
    }
}

#[test]
fn the_page_has_the_statuses_that_the_tool_tells() {
    let help = Workplace::new("user-statuses").tool(&["--help"]).wrote;
    let statuses = list_of_help(&help, "Status:");
    let numbers: Vec<&str> = statuses.iter().map(|(number, _)| *number).collect();
    assert_eq!(numbers, ["0", "1", "2", "3", "4", "5"]);
    let page = page();
    let section = page.split("\n## Statuses\n").nth(1).expect("there is one");
    let section = section.split("\n## ").next().unwrap_or_default();
    for (number, when) in &statuses {
        let row = format!("| {number} | {when} |\n");
        assert!(section.contains(&row), "{row}");
    }
    assert_eq!(
        section.matches("\n| ").count(),
        statuses.len() + 1,
        "{section}"
    );
}

/// A list of the help, by the line before it: what begins each of its lines, and the rest of the line.
fn list_of_help<'a>(help: &'a str, head: &str) -> Vec<(&'a str, &'a str)> {
    let lines = help.lines().skip_while(|line| *line != head).skip(1);
    let lines = lines.map_while(|line| line.strip_prefix("  "));
    let rows = lines.filter_map(|line| line.split_once(' '));
    rows.map(|(first, rest)| (first, rest.trim())).collect()
}

#[test]
fn commands_and_what_they_write_are_told_apart() {
    let page = "text\n```console\n$ cat <<END\n> a\n> END\na\n$ true\n```\n```ask\n$ x\n```\n";
    let expected = [
        Shown {
            command: String::from("cat <<END\na\nEND\n"),
            written: String::from("a\n"),
        },
        Shown {
            command: String::from("true\n"),
            written: String::new(),
        },
    ];
    assert_eq!(shown(page), expected);
}
