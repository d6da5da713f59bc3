//! `kpalumere samples` as people start it: what it writes, that it writes over nothing, and that what it says to try next can be tried.
//! The machines are held to the recorded cases, and the recordings to both programs.

use agree::cases;
use agree::programs::Program;
use agree::workplace::Workplace;
use std::fs;

/// The five machines: the names of their cases, and of their images.
const MACHINES: [&str; 5] = [
    "machine-1-behind-the-last-entry",
    "machine-2-nothing-leads-there",
    "machine-3-another-subprogram",
    "machine-4-another-efs",
    "machine-5-thirteenth-of-twelve",
];

/// The boards that are refused.
const REFUSED: [&str; 2] = ["entry-300-of-301", "as-amdfwtool-writes-it"];

/// The files that are written, from the folder on.
fn files() -> Vec<String> {
    let machines = MACHINES.iter().map(|name| format!("boards/{name}.rom"));
    machines
        .chain(["boards/sample-board.rom".to_string()])
        .chain(["filed", "it-should-be"].map(|how| format!("recordings/sixth-as-{how}.check")))
        .chain(REFUSED.map(|name| format!("refused/{name}.rom")))
        .collect()
}

/// The bytes of all files that are written into a folder.
fn bytes_in(place: &Workplace, folder: &str) -> Vec<Vec<u8>> {
    let files = files().into_iter();
    files
        .map(|name| place.get(&format!("{folder}/{name}")))
        .collect()
}

#[test]
fn a_new_folder_has_the_samples_and_no_more() {
    let place = Workplace::new("samples-new");
    let outcome = place.tool(&["samples", "six"]);
    assert_eq!((outcome.status, outcome.said.as_str()), (Some(0), ""));
    let bytes = bytes_in(&place, "six");
    for (name, bytes) in files().iter().zip(&bytes) {
        let line = format!("\"six/{name}\" is written, {} bytes\n", bytes.len());
        assert!(outcome.wrote.contains(&line), "{outcome:?}");
    }
    let written = |folder: &str| fs::read_dir(place.path(folder)).unwrap().count();
    let amounts = ["six", "six/boards", "six/recordings", "six/refused"].map(written);
    assert_eq!(amounts, [3, 6, 2, 2]);
}

#[test]
fn the_machines_are_those_of_the_cases() {
    let place = Workplace::new("samples-machines");
    place.tool(&["samples", "six"]);
    let tool = Program::tool();
    for name in MACHINES {
        let script = cases::folder().join(format!("images/{name}.ask"));
        let script = fs::read_to_string(script).expect("the case can be read");
        // The calls that make the image stand before the first empty line.
        let (made, _) = script.split_once("\n\n").expect(name);
        let calls = format!("{made}\ndigest i\nfile j six/boards/{name}.rom\ndigest j\n");
        let run = tool.answers_to(calls.as_bytes(), place.folder());
        let answers = String::from_utf8(run.answers).expect("answers are text");
        let digests: Vec<&str> = answers
            .lines()
            .filter(|line| line.starts_with("digest"))
            .collect();
        assert_eq!(digests.len(), 2, "{name}: {answers}");
        assert_eq!(digests[0], digests[1], "{name}");
    }
}

#[test]
fn the_board_is_the_one_that_the_register_shows() {
    let place = Workplace::new("samples-board");
    place.tool(&["samples", "six"]);
    // The first line has the name, and behind the sample it is said how to name an image.
    let without_first = |text: String| text.split_once('\n').unwrap().1.to_string();
    let named = place.tool(&["register", "six/boards/sample-board.rom"]);
    let unnamed = place.tool(&["register"]);
    assert_eq!((named.status, unnamed.status), (Some(0), Some(0)));
    let (named, unnamed) = (without_first(named.wrote), without_first(unnamed.wrote));
    assert!(named.lines().count() > 10, "{named}");
    assert!(unnamed.starts_with(&named), "{named}\n{unnamed}");
}

#[test]
fn both_programs_tell_where_a_refused_board_is_at_fault() {
    let place = Workplace::new("samples-refused");
    place.tool(&["samples", "six"]);
    let files = REFUSED.map(|name| format!("file a six/refused/{name}.rom\ndirectory a 1\n"));
    let due =
        "ok length=524288\nrefused 5 level=1 index=300\nok length=524288\nrefused 5 level=1\n";
    for program in [Program::tool(), Program::second()] {
        let run = program.answers_to(files.concat().as_bytes(), place.folder());
        let answers = String::from_utf8(run.answers).expect("answers are text");
        assert_eq!(answers, due);
    }
}

#[test]
fn the_second_program_answers_as_the_recording_should_be() {
    let place = Workplace::new("samples-second");
    place.tool(&["samples", "six"]);
    let recording = place.get("six/recordings/sixth-as-it-should-be.check");
    let recording = String::from_utf8(recording).expect("a recording is text");
    let lines = recording.lines().filter_map(|line| line.split_once(" => "));
    let (calls, answers): (Vec<&str>, Vec<&str>) = lines.unzip();
    let run = Program::second().answers_to(calls.join("\n").as_bytes(), place.folder());
    let second = String::from_utf8(run.answers).expect("answers are text");
    assert_eq!(second.lines().collect::<Vec<_>>(), answers);
    assert!(answers.len() > 20, "{recording}");
}

#[test]
fn what_is_said_to_be_tried_next_can_be_tried() {
    let place = Workplace::new("samples-next");
    let wrote = place.tool(&["samples", "six"]).wrote;
    let (_, next) = wrote
        .split_once("\nTry next:\n")
        .expect("it says what to try");
    let mut statuses = Vec::new();
    let mut last = Vec::new();
    for line in next.lines() {
        let words: Vec<&str> = line.split_whitespace().skip(1).collect();
        let outcome = place.tool(&words);
        assert_eq!(outcome.said, "", "{line}");
        statuses.push(outcome.status);
        last.push(outcome.wrote.lines().last().unwrap_or_default().to_string());
    }
    // Machines without a boot loader; none found; no such entry; words that differ; none that does; and boards that are refused.
    let due = [1, 1, 5, 1, 0, 5].map(Some);
    assert_eq!(statuses, due);
    assert_eq!(last[1], "none (14 entries tested)");
    assert_eq!(
        last[3..5],
        [
            "21 answers checked, 4 differ",
            "21 answers checked, 0 differ"
        ]
    );
}

#[test]
fn the_sixth_machine_is_told_whose_words_were_filed() {
    let place = Workplace::new("samples-sixth");
    place.tool(&["samples", "six"]);
    let outcome = place.tool(&["check", "six/recordings/sixth-as-filed.check"]);
    let owners: Vec<&str> = outcome
        .wrote
        .lines()
        .filter_map(|line| line.strip_prefix("  0x"))
        .collect();
    assert_eq!(
        owners,
        [
            "80810001 is the answer to caller 3's post on line 5",
            "80800555 is the answer to caller 5's post on line 6",
            "80820555 is the answer to caller 5's post on line 19",
            "80830333 is the answer to caller 3's post on line 20",
        ]
    );
}

#[test]
fn what_is_there_is_left_as_it_is_unless_force_is_said() {
    let place = Workplace::new("samples-there");
    place.tool(&["samples", "six"]);
    let right = bytes_in(&place, "six");
    fs::remove_file(place.path("six/boards/sample-board.rom")).unwrap();
    place.put("six/boards/machine-4-another-efs.rom", "mine");
    place.put("six/notes.txt", "mine");
    let outcome = place.tool(&["samples", "six"]);
    outcome.expect_message(
        3,
        "\"six/boards/machine-1-behind-the-last-entry.rom\" and 8 more would be written over, and nothing is written. \
         Name another folder, or say --force to write over what is there.",
    );
    assert!(!place.path("six/boards/sample-board.rom").exists());
    assert_eq!(place.get("six/boards/machine-4-another-efs.rom"), b"mine");
    let outcome = place.tool(&["samples", "--force", "six"]);
    assert_eq!((outcome.status, outcome.said.as_str()), (Some(0), ""));
    assert_eq!(bytes_in(&place, "six"), right);
    assert_eq!(place.get("six/notes.txt"), b"mine");
}

#[test]
fn a_folder_that_cannot_be_made_or_filled_is_told() {
    let place = Workplace::new("samples-unwritable");
    place.put("file", "mine");
    fs::create_dir(place.path("half")).unwrap();
    place.put("half/recordings", "mine");
    for (folder, named) in [
        ("none/six", "none/six"),
        ("file", "file"),
        ("file/six", "file/six"),
        ("half", "half/recordings"),
        ("/proc/six", "/proc/six"),
    ] {
        let outcome = place.tool(&["samples", folder]);
        assert_eq!((outcome.status, outcome.wrote.as_str()), (Some(3), ""));
        let begins = format!("kpalumere: \"{named}\" cannot be made: ");
        assert!(outcome.said.starts_with(&begins), "{outcome:?}");
        assert!(outcome.said.contains("Name a folder, or a new one"));
    }
    assert_eq!(place.get("file"), b"mine");
}

#[test]
fn wrong_words_end_with_2() {
    let place = Workplace::new("samples-words");
    for words in [
        &["samples"][..],
        &["samples", "a", "b"],
        &["samples", "-"],
        &["samples", ""],
        &["samples", "--all", "a"],
    ] {
        let outcome = place.tool(words);
        assert_eq!((outcome.status, outcome.wrote.as_str()), (Some(2), ""));
        assert!(
            outcome.said.contains("kpalumere samples --help"),
            "{outcome:?}"
        );
    }
    assert!(place.names().is_empty());
}
