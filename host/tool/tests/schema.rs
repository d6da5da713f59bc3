//! What programs read: the JSON of every command is held to its schema of docs/schema/ by a validator that is not ours, and CSV to
//! its rule of docs/schema/README.md, whatever the files are called and whatever they hold.

use agree::board::{entry, Board};
use agree::programs::{run, Program};
use agree::workplace::{Outcome, Workplace};
use bindings::{aspt_write, guid_extend, guid_start, AsptStructure, AsptTable, Guid};
use std::ffi::{OsStr, OsString};
use std::fs;
use std::os::unix::ffi::OsStrExt;
use std::path::{Path, PathBuf};
use std::process::Command;

/// Names that a file may have, and that a terminal or a spreadsheet would take for something else.
const NAMES: [&[u8]; 12] = [
    b"board.rom",
    b"=1+1",
    b"@sum(a1)",
    b"+1;=1+1",
    b"-x.rom",
    b" \"-2+3",
    b"a,b;\"=1\"",
    b"quote\"back\\slash\\u0041'",
    b"\x1b[31mred\x07\x7f",
    b"line\nfeed\r\ttab\\",
    "\u{9b}31m\u{85}\u{2028}\u{202e}\u{2069}\u{e9}".as_bytes(),
    b"\xff\xfe=\x80",
];

/// Images that are good, that are odd, and that are refused, each for another reason: as many as there are names.
fn images() -> [Vec<u8>; NAMES.len()] {
    [
        Board::new().bytes(),
        // No boot loader, or one with another subprogram, or one without bytes.
        Board::with(|board| board.two.entries[0] = entry(0x77, 0, 1, 0, 1)),
        Board::with(|board| board.two.entries[0].subprogram = 7),
        Board::with(|board| board.two.entries[0] = entry(0x01, 0, 1, 0, 3)),
        // No level 2, and no entries.
        Board::with(|board| board.one.entries[3].class = 0x41),
        Board::with(|board| {
            board.one.entries.clear();
            board.one.total = 0;
        }),
        Board::with(|board| board.one.wrong = 1),
        Board::with(|board| board.two.wrong = 1),
        Board::with(|board| board.two.entries[3].class = 0x5A),
        Board::with(|board| board.late = 0),
        Vec::new(),
        b"no image at all".to_vec(),
    ]
}

/// An ASPT that is accepted.
fn aspt() -> Vec<u8> {
    let structure = |kind, id, registers| AsptStructure {
        kind,
        id,
        registers,
    };
    let table = AsptTable {
        oem: *b"AMDINC",
        oem_table: *b"AMDICRB\0",
        oem_revision: 1,
        creator: 2,
        creator_revision: 3,
        base: 0xFED0_0000,
        pages: 16,
        structures: [
            structure(1, 1, [0x570, 0x574, 0x578]),
            structure(0, 0, [0x10, 0x14, 0x18]),
            structure(2, 0, [0x20, 0, 0]),
        ],
    };
    let mut bytes = vec![0; 112];
    aspt_write(&mut bytes, &table).expect("the table keeps the rules");
    bytes
}

/// An image with a GUID table of two entries, of which one has a name.
fn guids() -> Vec<u8> {
    let reset_block = b"\xde\x71\xf7\x00\x7e\x1a\xcb\x4f\x89\x0e\x68\xc7\x7e\x2f\xb4\x4e";
    let mut bytes = vec![0; 200];
    guid_start(&mut bytes).expect("there is room");
    for guid in [Guid([0xAB; 16]), Guid(*reset_block)] {
        guid_extend(&mut bytes, &guid, b"data").expect("there is room");
    }
    bytes
}

/// A recording with every sort of call, outcome and line that is no call.
const RECORDING: &str = "\
post 7 0x81 0
load
turn
unload
post 2 0x85 0
take 0
take 7
nonsense
mailbox-of - idle 3:5
take 3
mailbox-of 8:0:0 idle -
load
mailbox
post 1 0x82 0x1234
load
turn
unload
take 1
post 1 0x3ff 0
load
turn
unload
";

/// Documents that the tool wrote, each in a file of its own, with the schema that it is to be held to.
struct Documents<'a> {
    place: &'a Workplace,
    all: Vec<(String, PathBuf)>,
}

impl<'a> Documents<'a> {
    fn of(place: &'a Workplace) -> Documents<'a> {
        let all = Vec::new();
        Documents { place, all }
    }

    /// Starts a command with `--json` and keeps what it writes, in which nothing may be obeyed by a terminal.
    fn add(&mut self, command: &str, words: &[&OsStr]) {
        let words = [&[OsStr::new(command), OsStr::new("--json")], words].concat();
        let outcome = tool(self.place, &words);
        assert!(!outcome.wrote.is_empty(), "{outcome:?}");
        let obeyed = |character: char| character != '\n' && character.is_control();
        assert!(!outcome.wrote.contains(obeyed), "{outcome:?}");
        for mark in ['\u{2028}', '\u{202e}', '\u{2069}'] {
            assert!(!outcome.wrote.contains(mark), "{outcome:?}");
        }
        let file = format!("document-{}", self.all.len());
        self.place.put(&file, &outcome.wrote);
        let file = self.place.path(&file);
        self.all.push((format!("{command}.json"), file));
    }

    /// What the validator finds wrong with them, a line each.
    fn faults(&self) -> String {
        let folder = schemas();
        let mut words = vec![OsStr::new("json"), folder.as_os_str()];
        for (schema, file) in &self.all {
            words.extend([OsStr::new(schema), file.as_os_str()]);
        }
        python(&words)
    }

    /// How many small changes the validator refuses in the documents, all that were tried.
    fn refused_changes(&self) -> usize {
        let folder = schemas();
        let mut all = 0;
        for (schema, file) in &self.all {
            let words = [
                OsStr::new("changes"),
                folder.as_os_str(),
                OsStr::new(schema),
                file.as_os_str(),
            ];
            let told = python(&words);
            let (accepted, count) = told.trim_end().rsplit_once('\n').unwrap_or(("", &told));
            assert_eq!(accepted, "", "{schema} accepts what it should not");
            let count = count.trim_end().strip_suffix(" changes");
            all += count.and_then(|count| count.parse().ok()).unwrap_or(0);
        }
        all
    }
}

/// Starts the tool here with words that need not be text.
fn tool(place: &Workplace, words: &[&OsStr]) -> Outcome {
    let mut command = Program::tool_as_people_start_it().command(place.folder());
    command.args(words);
    Outcome::of(run(command, b""))
}

/// What schema.py tells, which reads as other programs would.
fn python(words: &[&OsStr]) -> String {
    let has = Command::new("python3")
        .args(["-c", "import csv, json, jsonschema"])
        .status();
    assert!(
        has.map_or(false, |status| status.success()),
        "there is no python3 with the package jsonschema, and it is to hold the JSON to its schemas: install Debian's package \
         python3-jsonschema, as ./test does (apt-get install -y --no-install-recommends python3-jsonschema)"
    );
    let script = Path::new(env!("CARGO_MANIFEST_DIR")).join("tests/schema.py");
    let mut command = Command::new("python3");
    command.arg(script).args(words);
    let outcome = Outcome::of(run(command, b""));
    assert_eq!(outcome.status, Some(0), "{outcome:?}");
    outcome.wrote
}

fn schemas() -> PathBuf {
    Path::new(env!("CARGO_MANIFEST_DIR")).join("../../docs/schema")
}

/// Puts a file under a name that need not be text.
fn put(place: &Workplace, name: &[u8], bytes: &[u8]) {
    let path = place.folder().join(OsStr::from_bytes(name));
    fs::write(path, bytes).expect("a file can be written");
}

/// Words as the system takes them.
fn words<'a>(texts: &[&'a str]) -> Vec<&'a OsStr> {
    texts.iter().map(|text| OsStr::new(*text)).collect()
}

#[test]
fn what_find_and_entry_write_keeps_to_its_schema() {
    let place = Workplace::new("schema-entries");
    let mut documents = Documents::of(&place);
    let last = OsStr::new("--");
    for (name, image) in NAMES.into_iter().zip(images()) {
        put(&place, name, &image);
        let name = OsStr::from_bytes(name);
        documents.add("find", &[&[last, name], &words(&["1", "0"])[..]].concat());
        documents.add("entry", &[&[last, name], &words(&["2", "0"])[..]].concat());
    }
    for more in [
        &["board.rom", "smu-firmware", "1", "--level=2"][..],
        &["board.rom", "soft-fuse-chain", "0"],
        &["board.rom", "token-unlock", "0"],
        &["board.rom", "9", "9", "--level=4294967295"],
    ] {
        documents.add("find", &words(more));
    }
    for more in [
        &["board.rom", "1", "2"][..],
        &["board.rom", "1", "4"],
        &["board.rom", "4294967295", "0"],
        &["board.rom", "--at", "0x28000", "3"],
        &["board.rom", "--at", "18446744073709551615", "3"],
        // Neither cookie, and a header that is cut off: no level is told.
        &["board.rom", "--at", "0x21001", "0"],
        &["board.rom", "--at", "0x7ffff", "0"],
    ] {
        documents.add("entry", &words(more));
    }
    assert_eq!(documents.faults(), "");
}

#[test]
fn what_aspt_and_guids_write_keeps_to_its_schema() {
    let place = Workplace::new("schema-tables");
    let mut documents = Documents::of(&place);
    for (command, good) in [("aspt", aspt()), ("guids", guids())] {
        for (at, name) in NAMES.into_iter().enumerate() {
            let bytes = if at % 2 == 0 { &good[..] } else { b"no table" };
            put(&place, name, bytes);
            documents.add(command, &[OsStr::new("--"), OsStr::from_bytes(name)]);
        }
    }
    assert_eq!(documents.faults(), "");
}

#[test]
fn what_register_writes_keeps_to_its_schema_and_its_csv_to_its_rule() {
    let place = Workplace::new("schema-register");
    let mut documents = Documents::of(&place);
    let mut all = words(&["--", "there is none"]);
    for (name, image) in NAMES.into_iter().zip(images()) {
        put(&place, name, &image);
        all.push(OsStr::from_bytes(name));
    }
    documents.add("register", &all);
    documents.add("register", &words(&["--sample"]));
    documents.add("register", &words(&["--quiet", "board.rom"]));
    assert_eq!(documents.faults(), "");
    let csv = tool(&place, &[&words(&["register", "--csv"])[..], &all].concat());
    place.put("cells.csv", &csv.wrote);
    let cells = place.path("cells.csv");
    let told = python(&[OsStr::new("csv"), cells.as_os_str()]);
    let hexadecimal = |name: &OsStr| -> String {
        let digits = name.as_bytes().iter().map(|byte| format!("{byte:02x}"));
        digits.collect()
    };
    let names: Vec<String> = all[1..].iter().map(|name| hexadecimal(name)).collect();
    assert_eq!(told.lines().collect::<Vec<_>>(), names);
}

#[test]
fn the_page_undoes_a_cell_as_the_tests_do() {
    let page = fs::read_to_string(schemas().join("README.md")).expect("the page can be read");
    let undoing = page
        .lines()
        .find_map(|line| line.strip_prefix("    re.sub("));
    let undoing = undoing.expect("the page has a line that undoes a cell");
    let tests = Path::new(env!("CARGO_MANIFEST_DIR")).join("tests/schema.py");
    let tests = fs::read_to_string(tests).expect("the script can be read");
    assert!(
        tests.contains(&format!("return re.sub({undoing}\n")),
        "{undoing}"
    );
}

#[test]
fn a_message_is_told_to_programs_without_the_programs_name() {
    let place = Workplace::new("schema-message");
    for form in ["--json", "--csv"] {
        let outcome = place.tool(&["register", form, "there is none"]);
        assert_eq!(outcome.status, Some(3));
        assert!(outcome.wrote.contains("cannot be read: "), "{outcome:?}");
        assert!(!outcome.wrote.contains("kpalumere"), "{outcome:?}");
        let said = "kpalumere: \"there is none\" cannot be read: ";
        assert!(outcome.said.starts_with(said), "{outcome:?}");
    }
}

#[test]
fn what_mailbox_writes_keeps_to_its_schema() {
    let place = Workplace::new("schema-mailbox");
    let mut documents = Documents::of(&place);
    let scripts = [RECORDING, "", "load\nload\n", "\u{9b}\u{202e} no call\n"];
    for (name, script) in NAMES.into_iter().zip(scripts.into_iter().cycle()) {
        put(&place, name, script.as_bytes());
        documents.add("mailbox", &[OsStr::new("--"), OsStr::from_bytes(name)]);
    }
    assert_eq!(documents.faults(), "");
}

#[test]
fn a_document_that_lacks_a_field_or_has_another_type_in_it_is_refused_by_its_schema() {
    let place = Workplace::with_board("schema-changes");
    place.put("bad.rom", Board::with(|board| board.one.wrong = 1));
    place.put(
        "bit.rom",
        Board::with(|board| board.two.entries[1].reserved = 1),
    );
    place.put("aspt.bin", aspt());
    place.put("guids.fd", guids());
    place.put("recording.ask", RECORDING);
    let mut documents = Documents::of(&place);
    for (command, more) in [
        ("find", &["board.rom", "1", "0"][..]),
        ("find", &["board.rom", "9", "9"]),
        ("find", &["bad.rom", "1", "0"]),
        ("find", &["board.rom", "token-unlock", "0"]),
        ("entry", &["board.rom", "1", "2"]),
        ("entry", &["board.rom", "--at=1", "2"]),
        ("entry", &["bit.rom", "2", "0"]),
        ("aspt", &["aspt.bin"]),
        ("aspt", &["bad.rom"]),
        ("guids", &["guids.fd"]),
        ("guids", &["bad.rom"]),
        ("mailbox", &["recording.ask"]),
        ("register", &["board.rom"]),
        ("register", &["bad.rom", "none.rom"]),
        ("register", &["bit.rom"]),
    ] {
        documents.add(command, &words(more));
    }
    assert!(documents.refused_changes() > 1000);
    // What is right for one command is wrong for another, or the schemas would say nothing.
    for (schema, _) in &mut documents.all {
        *schema = String::from(match schema.as_str() {
            "find.json" => "entry.json",
            _ => "find.json",
        });
    }
    let faults = documents.faults();
    for (_, file) in &documents.all {
        let name = file.to_str().expect("a name of ours is text");
        assert!(faults.contains(&format!("{name}: ")), "{name}: {faults}");
    }
}

#[test]
fn every_command_that_writes_json_has_a_schema() {
    let help = tool(&Workplace::new("schema-help"), &[OsStr::new("--help")]).wrote;
    let names: Vec<&str> = help
        .lines()
        .skip_while(|line| !line.starts_with("Commands:"))
        .skip(1)
        .map_while(|line| line.strip_prefix("  "))
        .filter_map(|line| line.split(' ').next().filter(|name| !name.is_empty()))
        .collect();
    assert!(names.contains(&"find") && names.contains(&"ask"), "{help}");
    let place = Workplace::new("schema-commands");
    for name in names {
        let words = [OsString::from(name), OsString::from("--help")];
        let words: Vec<&OsStr> = words.iter().map(OsString::as_os_str).collect();
        let writes_json = tool(&place, &words).wrote.contains("--json");
        let schema = schemas().join(format!("{name}.json"));
        assert_eq!(schema.is_file(), writes_json, "{name}");
    }
}
