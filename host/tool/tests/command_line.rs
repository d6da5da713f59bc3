//! The tool as people start it: its words, its messages, its statuses.

use agree::cases;
use agree::programs::{run, Program, Run};
use std::ffi::OsStr;
use std::io::Read;
use std::process::{Command, Stdio};

/// The commands.
const COMMANDS: [&str; 14] = [
    "register",
    "find",
    "entry",
    "extract",
    "build",
    "aspt",
    "guids",
    "explain",
    "mailbox",
    "ask",
    "check",
    "samples",
    "completions",
    "help",
];

/// The tool with some words, and nothing on standard input.
fn tool(words: &[&str]) -> Run {
    run(command(words), b"")
}

fn command(words: &[&str]) -> Command {
    let mut command = Program::tool_as_people_start_it().command(&cases::folder());
    command.args(words);
    command
}

fn text(bytes: &[u8]) -> String {
    String::from_utf8(bytes.to_vec()).expect("the tool writes text")
}

#[test]
fn help_and_version_are_printed() {
    for words in [&["--help"][..], &["-h"], &["help"]] {
        let run = tool(words);
        assert_eq!((run.status, text(&run.said)), (Some(0), String::new()));
        for name in COMMANDS {
            assert!(
                text(&run.answers).contains(&format!("\n  {name} ")),
                "{name}"
            );
        }
    }
    for words in [&["ask", "--help"][..], &["ask", "-h"], &["help", "ask"]] {
        let run = tool(words);
        assert_eq!((run.status, text(&run.said)), (Some(0), String::new()));
        assert!(text(&run.answers).contains("buffer NAME LENGTH [BYTE]"));
    }
    for name in COMMANDS {
        for words in [[name, "--help"], [name, "-h"], ["help", name]] {
            let run = tool(&words);
            assert_eq!((run.status, text(&run.said)), (Some(0), String::new()));
            let usage = format!("\n\nUsage: kpalumere {name} ");
            assert!(text(&run.answers).contains(&usage), "{words:?}");
            let statuses = text(&run.answers).contains("\nStatus:\n  0  ");
            assert_eq!(statuses, name != "help", "{words:?}");
        }
    }
    for words in ["--version", "-V"] {
        let run = tool(&[words]);
        assert_eq!(run.status, Some(0));
        let version = text(&run.answers);
        let numbers = version.strip_prefix("kpalumere ").unwrap().trim_end();
        assert_eq!(numbers.split('.').count(), 3, "{version}");
    }
}

#[test]
fn bash_accepts_its_completions_and_they_have_every_command() {
    for shell in ["bash", "elvish", "fish", "powershell", "zsh"] {
        let script = tool(&["completions", shell]);
        assert_eq!(
            (script.status, text(&script.said)),
            (Some(0), String::new())
        );
        for name in COMMANDS {
            assert!(text(&script.answers).contains(name), "{shell}: {name}");
        }
    }
    let script = tool(&["completions", "bash"]).answers;
    let mut bash = Command::new("bash");
    bash.arg("-n").stderr(Stdio::piped());
    let checked = run(bash, &script);
    assert_eq!(
        (checked.status, text(&checked.said)),
        (Some(0), String::new())
    );
    // The words that bash offers after the name of the tool are the commands.
    let script = text(&script)
        + "COMP_WORDS=(kpalumere '') COMP_CWORD=1\n\
           _kpalumere kpalumere '' kpalumere\n\
           printf '%s\\n' \"${COMPREPLY[@]}\"\n";
    let offered = run(Command::new("bash"), script.as_bytes());
    let offered = text(&offered.answers);
    for name in COMMANDS {
        assert!(
            offered.lines().any(|word| word == name),
            "{name}: {offered}"
        );
    }
}

#[test]
fn columns_are_followed_where_the_output_is_no_terminal() {
    for words in [
        &["register"][..],
        &["mailbox", "images/machine-6-two-programs.ask"],
        &["guids", "/usr/share/OVMF/OVMF_CODE.fd"],
        &["explain", "4"],
    ] {
        let shown = |columns: Option<&str>| {
            let mut command = command(words);
            command.env_remove("COLUMNS");
            if let Some(columns) = columns {
                command.env("COLUMNS", columns);
            }
            text(&run(command, b"").answers)
        };
        let widest = |shown: &str| shown.lines().map(|line| line.chars().count()).max();
        assert!(
            widest(&shown(None)) > Some(70),
            "{words:?} is too narrow to tell"
        );
        let narrow = shown(Some("70"));
        assert!(widest(&narrow) <= Some(70), "{narrow}");
        // A width that is none is not followed.
        assert_eq!(shown(Some("0")), shown(None));
    }
}

#[test]
fn standard_input_is_asked_by_a_hyphen_too() {
    for words in [&["ask"][..], &["ask", "-"], &["ask", "--", "-"]] {
        let run = run(command(words), b"buffer a 1\n");
        assert_eq!(
            (run.status, text(&run.answers)),
            (Some(0), String::from("ok length=1\n"))
        );
    }
}

#[test]
fn wrong_words_end_with_2_and_say_what_to_do() {
    for words in [
        &[][..],
        &["nonsense"],
        &["ask", "a", "b"],
        &["ask", "--fast"],
        &["--fast", "ask"],
        &["help", "nonsense"],
    ] {
        let run = tool(words);
        assert_eq!(
            (run.status, text(&run.answers)),
            (Some(2), String::new()),
            "{words:?}"
        );
        assert!(text(&run.said).starts_with("kpalumere: "), "{words:?}");
        assert!(text(&run.said).contains("kpalumere ask") || text(&run.said).contains("--help"));
    }
}

#[test]
fn calls_that_cannot_be_read_end_with_3() {
    for program in [Program::tool(), Program::second()] {
        for file in ["there-is-none.ask", "data", "lines.ask/none"] {
            let run = program.answers_to_file(OsStr::new(file), &cases::folder());
            assert_eq!(
                (run.status, text(&run.answers)),
                (Some(3), String::new()),
                "{file}"
            );
            assert!(text(&run.said).contains(file), "{}: {file}", program.name);
        }
    }
}

#[test]
fn a_reader_that_has_seen_enough_is_no_fault() {
    // Far more answers than a pipe holds, and one of them read.
    let script = "buffer a 100\nshow a 0 100\n".repeat(20_000);
    let mut child = command(&["ask"])
        .stdin(Stdio::piped())
        .stdout(Stdio::piped())
        .stderr(Stdio::piped())
        .spawn()
        .unwrap();
    let mut calls = child.stdin.take().unwrap();
    let writing = std::thread::spawn(move || {
        drop(std::io::Write::write_all(&mut calls, script.as_bytes()));
    });
    let mut answers = child.stdout.take().unwrap();
    answers.read_exact(&mut [0; 12]).unwrap();
    drop(answers);
    let output = child.wait_with_output().unwrap();
    writing.join().unwrap();
    assert_eq!(
        (output.status.code(), text(&output.stderr)),
        (Some(0), String::new())
    );
}
