//! `kpalumere mailbox` as people and programs start it: what it shows of the recorded cases, its JSON, read by Python and held against
//! the second program, its messages and its statuses.

use agree::cases;
use agree::compare::{answers_of, calls_of};
use agree::programs::{run, Program, Run};
use agree::workplace::Workplace;
use std::collections::BTreeMap;
use std::fs;
use std::path::Path;
use std::process::Command;

/// Plays a recording that is named, or that is given on standard input, in the folder of the cases.
fn mailbox(words: &[&str], input: &[u8]) -> Run {
    let mut command = Program::tool_as_people_start_it().command(&cases::folder());
    command.arg("mailbox").args(words);
    run(command, input)
}

fn text(bytes: &[u8]) -> String {
    String::from_utf8(bytes.to_vec()).expect("the tool writes text")
}

/// The recorded cases beside which `NAME.report` lies: what is shown of them.
fn reports() -> Vec<(String, String)> {
    let mut reports = Vec::new();
    for case in cases::all().expect("the cases can be read") {
        let path = cases::folder().join(format!("{}.report", case.name));
        if path.is_file() {
            let report = fs::read_to_string(path).expect("a report can be read");
            reports.push((case.file.display().to_string(), report));
        }
    }
    reports
}

#[test]
fn recordings_are_shown_as_recorded() {
    let reports = reports();
    assert!(!reports.is_empty(), "there is no NAME.report in host/cases");
    for (file, report) in reports {
        let script = fs::read(cases::folder().join(&file)).unwrap();
        for (words, input) in [
            (&[file.as_str()][..], &b""[..]),
            (&["-"], &script),
            (&[], &script),
        ] {
            assert_eq!(text(&mailbox(words, input).answers), report, "{file}");
        }
    }
}

#[test]
fn a_line_that_is_no_call_is_told_and_left_out() {
    let run = mailbox(&["mailbox-recording.ask"], b"");
    let said = text(&run.said);
    assert_eq!((run.status, said.lines().count()), (Some(5), 1), "{said}");
    assert!(said.starts_with("kpalumere: \"mailbox-recording.ask\", line "));
    assert!(said.contains("write `post CALLER COMMAND DATA`"), "{said}");
}

#[test]
fn the_status_tells_whether_anything_was_refused() {
    for (script, status) in [
        (&b"post 0 0x81 0\nload\nturn\nunload\ntake 0\nload"[..], 0),
        (b"", 0),
        (b"take 0\n", 5),
        (b"buffer a 1\n", 1),
        (b"buffer a 1\ntake 0\n", 5),
    ] {
        let run = mailbox(&[], script);
        assert_eq!(run.status, Some(status), "{}", text(script));
    }
}

/// What a recording comes to by the second program, in the form of mailbox.py, sorted.
fn by_second_program(script: &[u8]) -> Vec<String> {
    let mut calls: Vec<(Option<usize>, String)> = Vec::new();
    // What is not taken is seen by a take of each caller before the next mailbox, where it changes nothing any more.
    let end_mailbox = |calls: &mut Vec<(Option<usize>, String)>| {
        calls.push((None, String::from("firmware")));
        calls.extend((0..8).map(|caller| (None, format!("take {caller}"))));
    };
    for (line, call) in calls_of(script) {
        let call = text(call);
        let call = call.split('#').next().unwrap_or_default().trim_end();
        if call.starts_with("mailbox") {
            end_mailbox(&mut calls);
        }
        calls.push((Some(line), call.to_string()));
    }
    end_mailbox(&mut calls);
    let given: Vec<&str> = calls.iter().map(|(_, call)| call.as_str()).collect();
    let run = Program::second().answers_to(given.join("\n").as_bytes(), &cases::folder());
    let answers = answers_of(&run.answers);
    assert_eq!(answers.len(), calls.len());
    let answered = calls.iter().zip(answers.iter().map(|answer| text(answer)));
    told_of(answered)
}

/// The lines of mailbox.py for calls and their answers; those without a line of their own are asked at a mailbox's end.
fn told_of<'a>(
    answered: impl Iterator<Item = (&'a (Option<usize>, String), String)>,
) -> Vec<String> {
    let (mut told, mut mailbox) = (Vec::new(), 0);
    let mut steps: BTreeMap<(usize, String), [u64; 2]> = BTreeMap::new();
    for ((line, call), answer) in answered {
        let name = call.split(' ').next().unwrap_or_default();
        match (line, name) {
            (None, "firmware") => {
                for step in ["load", "turn", "unload"] {
                    steps.entry((mailbox, step.to_string())).or_default();
                }
                told.push(format!("{mailbox}\tfirmware\t{answer}"));
            }
            (None, _) if answer.starts_with("ok") || answer == "refused 11" => {
                let caller = call.trim_start_matches("take ");
                told.push(format!("{mailbox}\tleft\t{caller}\t{answer}"));
            }
            (None, _) | (Some(_), "firmware") => (),
            (Some(line), _) if answer == "bad line" => told.push(format!("{line}\tbad line")),
            (Some(_), "mailbox" | "mailbox-of") => mailbox += 1,
            (Some(line), "post" | "take") => {
                told.push(format!("{line}\t{}\t{answer}", in_decimal(call)));
            }
            (Some(line), step) => {
                let [asked, acted] = steps.entry((mailbox, step.to_string())).or_default();
                *asked += 1;
                *acted += u64::from(answer == "yes");
                if answer.starts_with("refused") {
                    told.push(format!("{line}\t{step}\t{answer}"));
                }
            }
        }
    }
    let counts = steps.iter();
    told.extend(
        counts.map(|((mailbox, step), [asked, acted])| {
            format!("{mailbox}\t{step}\t{asked}\t{acted}")
        }),
    );
    told.sort();
    told
}

/// A call with its numbers in decimal digits.
fn in_decimal(call: &str) -> String {
    let word = |word: &str| match word.strip_prefix("0x") {
        Some(digits) => u64::from_str_radix(digits, 16).expect(call).to_string(),
        None => word.to_string(),
    };
    call.split(' ').map(word).collect::<Vec<_>>().join(" ")
}

/// What Python reads in the JSON of a recording, sorted.
fn read_by_python(place: &Workplace, json: &[u8]) -> Vec<String> {
    place.put("mailbox.json", json);
    let reader = Path::new(env!("CARGO_MANIFEST_DIR")).join("tests/mailbox.py");
    let mut python = Command::new("python3");
    python.arg(reader).arg(place.path("mailbox.json"));
    let run = run(python, b"");
    assert_eq!(text(&run.said), "");
    let read = text(&run.answers);
    let mut lines: Vec<String> = read.lines().map(String::from).collect();
    lines.sort();
    lines
}

#[test]
fn json_tells_what_the_second_program_answers() {
    let place = Workplace::new("mailbox-json");
    for name in [
        "mailbox-recording",
        "mailbox-story",
        "mailbox-eight",
        "mailbox-values",
        "images/machine-6-two-programs",
    ] {
        let file = format!("{name}.ask");
        let script = fs::read(cases::folder().join(&file)).expect(name);
        let from_file = mailbox(&[&file, "--json"], b"");
        let expected = by_second_program(&script);
        assert!(expected.len() > 10, "{name}: {expected:?}");
        assert_eq!(
            read_by_python(&place, &from_file.answers),
            expected,
            "{name}"
        );
        // Only the file's name differs where the recording comes over standard input.
        let over_input = mailbox(&["--json", "-"], &script);
        assert_eq!(over_input.status, from_file.status, "{name}");
        let renamed = text(&over_input.answers).replacen("\"-\"", &format!("{file:?}"), 1);
        assert_eq!(renamed, text(&from_file.answers), "{name}");
    }
}

#[test]
fn answers_that_somebody_saw_are_left_out() {
    let place = Workplace::new("mailbox-seen");
    place.tool(&["samples", "six"]);
    let [filed, right] = ["filed", "it-should-be"]
        .map(|how| place.tool(&["mailbox", &format!("six/recordings/sixth-as-{how}.check")]));
    assert_eq!(filed, right);
    assert_eq!((filed.status, filed.said.as_str()), (Some(0), ""));
    assert!(filed.wrote.contains("0x80830333"), "{filed:?}");
}

#[test]
fn json_has_nothing_where_nothing_is_asked() {
    let run = mailbox(&["--json"], b"# nothing\n");
    assert_eq!((run.status, text(&run.said)), (Some(0), String::new()));
    let place = Workplace::new("mailbox-json-nothing");
    assert!(read_by_python(&place, &run.answers).is_empty());
}

#[test]
fn help_wrong_words_and_a_missing_file() {
    let run = mailbox(&["--help"], b"");
    assert_eq!((run.status, text(&run.said)), (Some(0), String::new()));
    assert!(text(&run.answers).contains("post CALLER COMMAND DATA"));
    for (words, status) in [
        (&["--csv"][..], 2),
        (&["a", "b"], 2),
        (&["none.ask"], 3),
        (&["data"], 3),
    ] {
        let run = mailbox(words, b"");
        let answered = (run.status, text(&run.answers));
        assert_eq!(answered, (Some(status), String::new()), "{words:?}");
        assert!(text(&run.said).contains("kpalumere mailbox"), "{words:?}");
    }
}
