//! `kpalumere register` as people and programs use it: what it shows of a sample and of refused images, on wide terminals and
//! narrow ones; its JSON and CSV, read by Python and held against the second program; boards of other sizes; many images; its
//! statuses.

use agree::board::{entry, Board, EFS, LENGTH, LEVEL_ONE, WINDOW};
use agree::cases;
use agree::programs::{built, built_folder, run, Program, Run};
use agree::subjects::directory::{Directory, Entry};
use std::ffi::{OsStr, OsString};
use std::fs;
use std::os::unix::ffi::{OsStrExt, OsStringExt};
use std::path::{Path, PathBuf};
use std::process::Command;

// ---- images

/// Where level two of a test's board lies: right behind the longest level one.
const LEVEL_TWO: usize = 0x2_3800;
/// Where a second directory of level two begins, in a board that has one.
const THIRD: usize = 0x2_7000;

/// A board with an EFS that leads to level one, and the directories given.
fn board(one: &Directory, two: &Directory) -> Vec<u8> {
    let mut image = vec![0; LENGTH];
    put(&mut image, EFS, &[0xAA, 0x55, 0xAA, 0x55]);
    put(&mut image, EFS + 0x14, &(LEVEL_ONE as u32).to_le_bytes());
    put(&mut image, LEVEL_ONE, &one.bytes());
    put(&mut image, LEVEL_TWO, &two.bytes());
    image
}

fn put(image: &mut [u8], place: usize, bytes: &[u8]) {
    image[place..place + bytes.len()].copy_from_slice(bytes);
}

/// A level one that leads to level two, and more entries behind.
fn level_one(more: &[Entry]) -> Directory {
    let lead = entry(0x40, 0, 0, LEVEL_TWO as u64, 1);
    let first = [entry(0x00, 0, 0x40, 0x2_4000, 1), lead];
    Directory::of(1, [&first[..], more].concat())
}

/// A level two with a boot loader, and more entries behind.
fn level_two(more: &[Entry]) -> Directory {
    let first = [entry(0x01, 0, 0x100, 0x2_5000, 1)];
    Directory::of(2, [&first[..], more].concat())
}

fn good() -> Vec<u8> {
    board(&level_one(&[]), &level_two(&[]))
}

/// The good board with some bytes changed.
fn changed(place: usize, bytes: &[u8]) -> Vec<u8> {
    let mut image = good();
    put(&mut image, place, bytes);
    image
}

/// Images that are refused, each with the number that it is refused by.
fn refused() -> Vec<(&'static str, u64, Vec<u8>)> {
    let mut reserved = level_one(&[]);
    reserved.reserved = 1;
    let misplaced = level_two(&[entry(0x40, 0, 0, 0, 1)]);
    let partition = Directory::of(1, vec![entry(0x40, 0, 0, LEVEL_TWO as u64, 3)]);
    let astray = level_one(&[entry(0x40, 1, 0, LENGTH as u64 + 1, 1)]);
    // The public key again, and the boot loader again: other sizes and places make no other entries of them.
    let key_again = entry(0x00, 0, 0x20, 0x2_4100, 1);
    let boot_loader_again = entry(0x01, 0, 0x80, 0x2_5200, 1);
    let two_repeats = level_two(&[entry(0x02, 0, 0x40, 0x2_6000, 1), boot_loader_again]);
    let to_a_third = level_one(&[entry(0x40, 1, 0, THIRD as u64, 1)]);
    let mut third_repeats = board(&to_a_third, &level_two(&[]));
    put(&mut third_repeats, THIRD, &two_repeats.bytes());
    // A dump that lacks its last byte, and one that is padded to twice its length: its pointer leads into the padding.
    let dump = Board::new().bytes();
    let padded = [&dump[..], &[0xFF; LENGTH]].concat();
    vec![
        (
            "one-runs-out.rom",
            1,
            changed(EFS + 0x14, &(LENGTH as u32 - 8).to_le_bytes()),
        ),
        ("no-efs.rom", 2, changed(EFS, &[0])),
        ("cut-off.rom", 2, dump[..LENGTH - 1].to_vec()),
        ("padded.rom", 2, padded),
        ("one-cookie.rom", 2, changed(LEVEL_ONE, b"$PL2")),
        (
            "one-total.rom",
            3,
            changed(LEVEL_ONE + 8, &513u32.to_le_bytes()),
        ),
        ("one-checksum.rom", 4, changed(LEVEL_ONE + 16, &[0x77])),
        ("two-checksum.rom", 4, changed(LEVEL_TWO + 16, &[0x77])),
        ("one-reserved.rom", 5, board(&reserved, &level_two(&[]))),
        (
            "pointer-astray.rom",
            7,
            // Where level one is in an image of 16 MiB.
            changed(EFS + 0x14, &0xFF02_1000u32.to_le_bytes()),
        ),
        ("second-two-astray.rom", 7, board(&astray, &level_two(&[]))),
        ("no-pointer.rom", 8, changed(EFS + 0x14, &[0; 4])),
        ("two-in-two.rom", 14, board(&level_one(&[]), &misplaced)),
        ("empty.rom", 15, Vec::new()),
        (
            "two-in-a-partition.rom",
            16,
            board(&partition, &level_two(&[])),
        ),
        (
            "one-repeats.rom",
            18,
            board(&level_one(&[key_again]), &level_two(&[])),
        ),
        ("two-repeats.rom", 18, board(&level_one(&[]), &two_repeats)),
        ("second-two-repeats.rom", 18, third_repeats),
    ]
}

/// Images that are accepted: without level two, with a type and subprogram that both levels have, with every field of an entry in
/// use, with two directories of level two, with full directories, and with the longest image that there may be.
fn accepted() -> Vec<(&'static str, Vec<u8>)> {
    let alone = Directory::of(1, vec![entry(0x01, 0, 0x10, 0x2_5000, 1)]);
    let empty = Directory::of(1, Vec::new());
    let none = Directory::of(2, Vec::new());
    let boot_loader_of_one = level_one(&[entry(0x01, 0, 0x80, 0x2_5200, 1)]);
    let wide = level_two(&[
        entry(0xFE, 0xFD, u32::MAX, (1 << 62) - 1, 0),
        entry(0x0B, 1, 0, (1 << 62) - 1, 3),
        entry(0x12, 0, 0x40, WINDOW + 0x2_4000, 0),
        entry(0x08, 0, 0x40, 0x100, 2),
        entry(0x02, 0, LENGTH as u32, 0, 1),
        entry(0x02, 1, 1, LENGTH as u64, 1),
        entry(0x02, 2, 0, LENGTH as u64, 1),
    ]);
    let mut wide = board(&level_one(&[]), &wide);
    put(&mut wide, 0x2_5010, b"$PS1");
    put(&mut wide, 0x2_5060, &0xABCD_0F01u32.to_le_bytes());
    let filling: Vec<Entry> = (0..511)
        .map(|k| entry(0x30 + (k / 256) as u8, k as u8, 0x20, 0x2_6000, 1))
        .collect();
    // Two directories of level two, the first of them led to twice.
    let leads = level_one(&[
        entry(0x40, 1, 0, THIRD as u64, 1),
        entry(0x40, 2, 0, WINDOW + LEVEL_TWO as u64, 0),
    ]);
    let third = Directory::of(2, vec![entry(0x12, 0, 0x20, 0x2_6000, 1)]);
    let mut two_of_level_two = board(&leads, &level_two(&[]));
    put(&mut two_of_level_two, THIRD, &third.bytes());
    let mut long = vec![0; 1 << 24];
    let full = board(&level_one(&filling[1..]), &level_two(&filling));
    put(&mut long, 0, &full);
    vec![
        ("good.rom", good()),
        ("one-level.rom", board(&alone, &none)),
        ("shared.rom", board(&boot_loader_of_one, &level_two(&[]))),
        ("nothing.rom", board(&empty, &none)),
        ("wide.rom", wide),
        ("two-of-level-two.rom", two_of_level_two),
        ("long.rom", long),
    ]
}

// ---- running

/// A folder for the files of one test.
fn room(name: &str) -> PathBuf {
    let room = built_folder().join("register-tests").join(name);
    drop(fs::remove_dir_all(&room));
    fs::create_dir_all(&room).expect("the folder of the tests can be written");
    room
}

fn write(room: &Path, name: impl AsRef<Path>, bytes: &[u8]) {
    fs::write(room.join(name), bytes).expect("a file of a test can be written");
}

/// The tool with some words, in a folder; on no terminal, and without a word on how wide one is.
fn command(room: &Path, words: &[impl AsRef<OsStr>]) -> Command {
    let mut command = Program::tool_as_people_start_it().command(room);
    command
        .args(words)
        .env_remove("COLUMNS")
        .env_remove("NO_COLOR");
    command
}

fn tool(room: &Path, words: &[impl AsRef<OsStr>]) -> Run {
    run(command(room, words), b"")
}

fn tool_in_columns(room: &Path, columns: usize, words: &[&str]) -> Run {
    let mut command = command(room, words);
    command.env("COLUMNS", columns.to_string());
    run(command, b"")
}

fn text(bytes: &[u8]) -> String {
    String::from_utf8(bytes.to_vec()).expect("the tool writes text")
}

/// A recorded output.
fn recorded(name: &str) -> String {
    let path = cases::folder().join("register").join(name);
    match fs::read_to_string(&path) {
        Ok(text) => text,
        Err(error) => panic!("{} cannot be read: {error}", path.display()),
    }
}

/// Python with the script beside this test. Without Python nobody has read the JSON, so that is a failure.
fn python(words: &[impl AsRef<OsStr>]) -> Run {
    let has = Command::new("python3")
        .args(["-c", "import csv, json, pty"])
        .output();
    assert!(
        has.map_or(false, |output| output.status.success()),
        "there is no python3 with its usual modules, and it is to read the JSON and the CSV: install Debian's package \
         python3, as ./test does (apt-get install -y --no-install-recommends python3)"
    );
    let script = Path::new(env!("CARGO_MANIFEST_DIR")).join("tests/register.py");
    let mut command = Command::new("python3");
    command
        .arg(script)
        .args(words)
        .env_remove("COLUMNS")
        .env_remove("NO_COLOR")
        .env("TERM", "xterm");
    let run = run(command, b"");
    assert_eq!(run.status, Some(0), "{}", text(&run.said));
    run
}

/// What a command writes on a terminal of so many columns.
fn on_terminal(columns: usize, variable: Option<&str>, words: &[&str]) -> String {
    let mut all = vec![OsString::from("terminal"), columns.to_string().into()];
    if let Some(variable) = variable {
        all.extend(["env", variable].map(OsString::from));
    }
    all.extend(built("kpalumere"));
    all.extend(words.iter().map(OsString::from));
    text(&python(&all).answers)
}

// ---- for people

#[test]
fn the_sample_is_shown_as_recorded() {
    let room = room("sample");
    let sample = tool(&room, &["register"]);
    assert_eq!(
        (sample.status, text(&sample.said)),
        (Some(0), String::new())
    );
    assert_eq!(text(&sample.answers), recorded("sample.report"));
    for columns in [40, 60] {
        let narrow = tool_in_columns(&room, columns, &["register"]);
        assert_eq!(narrow.status, Some(0));
        let name = format!("sample-{columns}.report");
        assert_eq!(text(&narrow.answers), recorded(&name), "{name}");
    }
    for form in ["json", "csv"] {
        let run = tool(&room, &["register", "--sample", &format!("--{form}")]);
        assert_eq!(run.status, Some(0));
        assert_eq!(text(&run.answers), recorded(&format!("sample.{form}")));
    }
}

#[test]
fn refused_images_are_shown_with_what_could_be_read() {
    let room = room("refused");
    let images = refused();
    let mut words = vec!["register"];
    for (name, number, bytes) in &images {
        write(&room, name, bytes);
        words.push(name);
        let alone = tool(&room, &["register", name]);
        assert_eq!(alone.status, Some(5), "{name}");
        let begins = format!("{name:?}: refused {number}: ");
        assert!(text(&alone.answers).starts_with(&begins), "{name}");
    }
    let all = tool(&room, &words);
    assert_eq!((all.status, text(&all.said)), (Some(5), String::new()));
    assert_eq!(text(&all.answers), recorded("refused.report"));
}

#[test]
fn where_a_wrong_length_may_be_the_cause_that_is_said_first() {
    let room = room("lengths");
    for (name, number, bytes) in &refused() {
        write(&room, name, bytes);
        let shown = text(&tool(&room, &["register", name]).answers);
        let asked = shown.contains("\n  Is the file as long as the flash part? Its last byte is ");
        assert_eq!(asked, [2, 7].contains(number), "{shown}");
    }
}

#[test]
fn no_line_is_wider_than_the_terminal_and_no_number_is_broken() {
    let room = room("narrow");
    let mut words = vec!["register"];
    for (name, _, bytes) in &refused() {
        write(&room, name, bytes);
        words.push(name);
    }
    let images = accepted();
    for (name, bytes) in images.iter().filter(|(name, _)| *name != "long.rom") {
        write(&room, name, bytes);
        words.push(name);
    }
    let numbers = |text: &str| {
        let is_number = |word: &&str| word.starts_with(|first: char| first.is_ascii_digit());
        let apart = |character: char| character.is_whitespace() || ",;:()".contains(character);
        let mut numbers: Vec<String> = text
            .split(apart)
            .filter(is_number)
            .map(String::from)
            .collect();
        numbers.sort();
        numbers
    };
    let wide = text(&tool(&room, &words).answers);
    for columns in [32, 40, 50, 60, 79, 80, 100, 120, 140] {
        let shown = text(&tool_in_columns(&room, columns, &words).answers);
        for line in shown.lines() {
            let is_name = line.starts_with('"') && line.ends_with("\":");
            let fits = line.chars().count() <= columns;
            assert!(fits || is_name, "{columns}: {line}");
        }
        assert_eq!(numbers(&shown), numbers(&wide), "{columns}");
    }
}

#[test]
fn a_terminal_has_colour_and_its_own_width_and_a_pipe_has_neither() {
    let shown = on_terminal(60, None, &["register"]);
    assert!(shown.contains("\x1b[32m"), "{shown}");
    assert!(shown.ends_with("status 0\n"), "{shown}");
    let plain = on_terminal(60, Some("NO_COLOR=1"), &["register"]);
    assert_eq!(plain, recorded("sample-60.report") + "status 0\n");
    assert_eq!(uncoloured(&shown), plain);
    let narrower = on_terminal(60, Some("COLUMNS=40"), &["register"]);
    assert_eq!(
        uncoloured(&narrower),
        recorded("sample-40.report") + "status 0\n"
    );
}

/// A text without the colours.
fn uncoloured(text: &str) -> String {
    let mut parts = text.split("\x1b[");
    let first = parts.next().unwrap_or_default().to_string();
    parts.fold(first, |before, part| {
        let (_, words) = part.split_once('m').expect("a colour ends with m");
        before + words
    })
}

#[test]
fn progress_is_told_on_a_terminal_and_wiped() {
    let room = room("progress");
    write(&room, "a.rom", &good());
    let image = room.join("a.rom").display().to_string();
    for option in ["--quiet", "--brief"] {
        let shown = on_terminal(200, None, &["register", option, &image, &image]);
        let told = format!("1 of 2 done, 1 left: {image:?}");
        let (before, after) = shown
            .split_once(&told)
            .unwrap_or_else(|| panic!("{shown:?}"));
        assert!(before.contains("0 of 2 done, 2 left: "), "{shown:?}");
        assert!(after.contains("\r\x1b[2K"), "{shown:?}");
        assert!(after.contains("2 images: 2 good"), "{shown:?}");
        let one = on_terminal(200, None, &["register", option, &image]);
        assert!(!one.contains("left: "), "{one:?}");
    }
}

#[test]
fn an_image_that_repeats_an_entry_is_refused_in_every_form() {
    let room = room("repeats");
    write(&room, "good.rom", &good());
    let (name, _, bytes) = refused()
        .into_iter()
        .find(|(name, ..)| *name == "two-repeats.rom")
        .expect("there is such an image");
    write(&room, name, &bytes);
    let shown = |form: &[&str]| {
        let run = tool(&room, &[&["register"], form, &["good.rom", name]].concat());
        assert_eq!((run.status, text(&run.said)), (Some(5), String::new()));
        text(&run.answers)
    };
    let head = "\"two-repeats.rom\": refused 18: entry repeats an earlier one \
                (entry 2 of level 2 at 0x23800)\n";
    let summary = "2 images: 1 good, 0 no boot loader, 0 boot loader without bytes, \
                   1 refused (1 by 18), 0 not read\n";
    for form in [&[][..], &["--quiet"]] {
        let shown = shown(form);
        assert!(shown.contains(head) && shown.ends_with(summary), "{shown}");
        assert!(
            shown.contains(
                "  level 2: refused 18: entry repeats an earlier one\n    \
                     entry 2 of level 2 at 0x23800: its type at 0x23830 is 0x01 and its subprogram \
                     0x00, which entry 0 has already\n"
            ),
            "{shown}"
        );
        // The walk comes to level two before it has found anything.
        assert!(
            shown.contains("boot loader:              refused 18: entry repeats an earlier one\n"),
            "{shown}"
        );
    }
    for form in [&["--json"][..], &["--json", "--quiet"]] {
        let shown = shown(form);
        for expected in [
            "\"file\": \"two-repeats.rom\",\n   \"file_bytes\": null,\n   \"verdict\": \"refused\",\n   \"refused\": 18,\n   \
             \"where\": \"entry 2 of level 2 at 0x23800\",\n",
            "{\"level\": 2, \"lead\": 1, \"place\": null, \"total\": null, \"refused\": 18, \
             \"met\": {\"level\": 2, \"index\": 2, \"directory\": 145408}, \
             \"wrong\": {\"field\": 145456, \"bytes\": 1, \"stands\": \"0x1\", \"should\": \"0x0\"}, \
             \"repeat\": {\"index\": 2, \"earlier\": 0, \"type\": 1, \"subprogram\": 0}, \"entries\": []}",
        ] {
            assert!(shown.contains(expected), "{expected}\n{shown}");
        }
    }
    for form in [&["--csv"][..], &["--csv", "--quiet"]] {
        let shown = shown(form);
        for expected in [
            "2,image,two-repeats.rom,,refused,18,entry 2 of level 2 at 0x23800,,524288,",
            "2,directory,two-repeats.rom,,,18,,,,,,,,,,,,2,1,,,,,,,,,,,,,,2,0,1,0,2,2,145408,145456,1,0x1,0x0",
            "2,asked,two-repeats.rom,,,18,",
        ] {
            assert!(
                shown.lines().any(|line| line.starts_with(expected)),
                "{expected}\n{shown}"
            );
        }
    }
}

// ---- boards of other sizes

/// The sizes of flash parts.
const SIZES: [usize; 3] = [4 << 20, 8 << 20, 16 << 20];

/// Where the boot loader of such a board is.
const BOOT_LOADER: u64 = 0xFFC5_0000;

/// A board that has all its parts at the same physical addresses, and so as far from its end, whatever its length is. No location
/// counts from the image's start.
fn board_below_4_gib(length: usize, boot_loader: u64) -> Vec<u8> {
    let (efs, one, two) = (0xFFC2_0000, 0xFFC3_0000, 0xFFC4_0000);
    let level_one = [
        entry(0x00, 0, 0x240, 0xFFC5_8000, 0),
        entry(0x40, 0, 0x400, two, 0),
        entry(0x08, 0, 0x800, 0x8000, 2),
        entry(0x0B, 0, 0, 1, 0),
        entry(0x22, 0, 0x100, 0x1000, 3),
        entry(0x5A, 0, 0x11, 0xFFFF_FFF0, 0),
    ];
    let level_two = [
        entry(0x01, 0, 0x1000, boot_loader, 0),
        entry(0x12, 0, 0, 0xFFFF_FFFF, 0),
        entry(0x03, 0, 0x200, 0x4000, 2),
    ];
    let mut image = vec![0xFF; length];
    let mut put_at = |address: u64, bytes: &[u8]| {
        let place = length as u64 - ((1 << 32) - address);
        put(&mut image, place as usize, bytes);
    };
    put_at(efs, &[0xAA, 0x55, 0xAA, 0x55]);
    put_at(efs + 0x14, &(one as u32).to_le_bytes());
    put_at(one, &Directory::of(1, level_one.to_vec()).bytes());
    put_at(two, &Directory::of(2, level_two.to_vec()).bytes());
    put_at(boot_loader + 0x10, b"$PS1");
    put_at(boot_loader + 0x60, &0x0008_0174u32.to_le_bytes());
    image
}

/// A register for people with each place as its distance from the image's end, and without the length; and how many places it
/// has. On these boards sizes and locations are below 0x20000 or above 16 MiB, where no place is. Columns are as wide as their
/// numbers, so words are parted by a single space.
fn from_end(shown: &str, length: usize) -> (String, usize) {
    let mut places = 0;
    let mut parts = shown.split("0x");
    let mut told = parts.next().unwrap_or_default().to_string();
    for part in parts {
        let digits = part.find(|c: char| !c.is_ascii_hexdigit());
        let (digits, rest) = part.split_at(digits.unwrap_or(part.len()));
        let number = usize::from_str_radix(digits, 16).expect("a number");
        if (0x2_0000..1 << 24).contains(&number) {
            places += 1;
            told.push_str(&format!("end-{:x}{rest}", length - number));
        } else {
            told.push_str(&format!("0x{part}"));
        }
    }
    let length = format!("length {length} bytes");
    assert!(told.contains(&length), "{told}");
    let told = told.replace(&length, "length");
    let lines = told.lines().map(|line| {
        let words: Vec<&str> = line.split_whitespace().collect();
        words.join(" ") + "\n"
    });
    (lines.collect(), places)
}

/// The register of a board in each form, with each place as its distance from the image's end.
fn registers_from_end(room: &Path, image: &[u8]) -> [String; 3] {
    write(room, "board.rom", image);
    let shown = text(&tool(room, &["register", "board.rom"]).answers);
    let (shown, places) = from_end(&shown, image.len());
    // The EFS and where it leads, both directories, six parts of which one is empty and each other has two ends, and the
    // directories of four entries that are found.
    assert_eq!(places, 2 + 2 + 11 + 4, "{shown}");
    let [json, csv] = ["json", "csv"].map(|form| {
        let run = tool(room, &["register", &format!("--{form}"), "board.rom"]);
        let file = room.join(form);
        fs::write(&file, &run.answers).unwrap();
        let told = python(&[OsStr::new("from-end"), OsStr::new(form), file.as_os_str()]);
        text(&told.answers)
    });
    [shown, json, csv]
}

#[test]
fn boards_of_4_8_and_16_mib_have_the_same_register_but_for_places() {
    let room = room("sizes");
    let all = SIZES.map(|length| {
        let image = board_below_4_gib(length, BOOT_LOADER);
        registers_from_end(&room, &image)
    });
    let [shown, json, csv] = &all[0];
    assert!(shown.starts_with("\"board.rom\": good\n"), "{shown}");
    assert!(shown.contains("version 00.08.01.74 (3 entries tested)"));
    for (length, registers) in SIZES.iter().zip(&all) {
        let [other_shown, other_json, other_csv] = registers;
        assert_eq!(other_shown, shown, "{length}");
        assert_eq!(other_json, json, "{length}");
        assert_eq!(other_csv, csv, "{length}");
        // A boot loader one byte further from the end is told apart, in every form.
        let moved = board_below_4_gib(*length, BOOT_LOADER - 1);
        let moved = registers_from_end(&room, &moved);
        for (moved, as_it_was) in moved.iter().zip(registers) {
            assert_ne!(moved, as_it_was, "{length}");
        }
    }
}

#[test]
fn a_board_that_is_cut_off_or_padded_is_refused_and_one_padded_before_its_start_is_not() {
    let room = room("dumps");
    let dump = board_below_4_gib(8 << 20, BOOT_LOADER);
    let padding = vec![0xFF; dump.len()];
    for (name, image, verdict) in [
        ("whole.rom", dump.clone(), "good\n"),
        (
            "cut-behind.rom",
            dump[..dump.len() - 1].to_vec(),
            "refused 2",
        ),
        ("cut-before.rom", dump[1..].to_vec(), "good\n"),
        (
            "padded-behind.rom",
            [&dump[..], &padding].concat(),
            "refused 2",
        ),
        (
            "padded-before.rom",
            [&padding[..], &dump].concat(),
            "good\n",
        ),
        (
            "too-long.rom",
            [&padding[..], &padding, &dump].concat(),
            "refused 15",
        ),
    ] {
        write(&room, name, &image);
        let shown = text(&tool(&room, &["register", name]).answers);
        let begins = format!("{name:?}: {verdict}");
        assert!(shown.starts_with(&begins), "{shown}");
    }
}

/// A board with one entry of mode 0, whose EFS stands where every size from 4 MiB on has one. Its pointer is physical or not.
fn board_with_efs_at_its_start(length: usize, is_physical: bool) -> Vec<u8> {
    let window = (1 << 32) - length as u64;
    let pointer = LEVEL_ONE as u64 + if is_physical { window } else { 0 };
    let one = Directory::of(1, vec![entry(0x01, 0, 0x100, window + 0x3_0000, 0)]);
    let mut image = vec![0xFF; length];
    put(&mut image, EFS, &[0xAA, 0x55, 0xAA, 0x55]);
    put(&mut image, EFS + 0x14, &(pointer as u32).to_le_bytes());
    put(&mut image, LEVEL_ONE, &one.bytes());
    image
}

#[test]
fn a_dump_of_another_length_may_be_good_and_its_addresses_are_wrong() {
    let room = room("other-lengths");
    let (eight, sixteen) = (8 << 20, 16 << 20);
    let padded = |is_physical| {
        let mut image = board_with_efs_at_its_start(eight, is_physical);
        image.resize(sixteen, 0xFF);
        image
    };
    let cut_off = |is_physical| {
        let mut image = board_with_efs_at_its_start(sixteen, is_physical);
        image.truncate(eight);
        image
    };
    let whole = board_with_efs_at_its_start(eight, false);
    for (image, verdict, entry) in [
        (whole, "good\n", Some("0x30000 to 0x300ff ")),
        (padded(true), "refused 2: ", None),
        (padded(false), "good\n", Some("0x830000 to 0x8300ff ")),
        (cut_off(true), "refused 7: ", None),
        (
            cut_off(false),
            "boot loader without bytes, refused 7: ",
            Some("refused 7: "),
        ),
    ] {
        write(&room, "dump.rom", &image);
        let shown = text(&tool(&room, &["register", "dump.rom"]).answers);
        let begins = format!("\"dump.rom\": {verdict}");
        assert!(shown.starts_with(&begins), "{shown}");
        let row = shown.lines().find(|line| line.contains("0x01 boot loader"));
        assert_eq!(row.is_some(), entry.is_some(), "{shown}");
        let told = row
            .zip(entry)
            .map_or(true, |(row, entry)| row.contains(entry));
        assert!(told, "{shown}");
    }
}

// ---- many images, and statuses

#[test]
fn many_images_have_a_summary_and_the_status_of_the_worst() {
    let room = room("many");
    for (name, bytes) in accepted() {
        write(&room, name, &bytes);
    }
    for (name, _, bytes) in refused() {
        write(&room, name, &bytes);
    }
    for (words, status, summary) in [
        (
            &["good.rom", "one-level.rom"][..],
            0,
            "2 images: 2 good, 0 no boot loader, 0 boot loader without bytes, 0 refused, 0 not read",
        ),
        (
            &["good.rom", "nothing.rom", "wide.rom"],
            1,
            "3 images: 2 good, 1 no boot loader, 0 boot loader without bytes, 0 refused, 0 not read",
        ),
        (
            &["good.rom", "nothing.rom", "one-total.rom", "one-checksum.rom", "two-checksum.rom"],
            5,
            "5 images: 1 good, 1 no boot loader, 0 boot loader without bytes, \
             3 refused (1 by 3, 2 by 4), 0 not read",
        ),
        (
            &["missing.rom", "empty.rom", "good.rom"],
            3,
            "3 images: 1 good, 0 no boot loader, 0 boot loader without bytes, \
             1 refused (1 by 15), 1 not read",
        ),
    ] {
        let all = tool(&room, &[&["register"], words].concat());
        assert_eq!(all.status, Some(status), "{words:?}");
        let shown = text(&all.answers);
        assert_eq!(shown.lines().last(), Some(summary));
        for name in words {
            let head = format!("{name:?}: ");
            assert_eq!(shown.lines().filter(|line| line.starts_with(&head)).count(), 1);
        }
        let quiet = tool(&room, &[&["register", "--quiet"], words].concat());
        assert_eq!(quiet.status, Some(status), "{words:?}");
        let shown = text(&quiet.answers);
        assert_eq!(shown.lines().last(), Some(summary));
        let good = ["good.rom", "one-level.rom", "wide.rom"];
        for name in words {
            let head = format!("{name:?}: ");
            let is_shown = shown.lines().any(|line| line.starts_with(&head));
            assert_eq!(is_shown, !good.contains(name), "{shown}");
        }
    }
}

#[test]
fn one_image_ends_with_its_own_status() {
    let room = room("one");
    for (name, bytes) in accepted() {
        write(&room, name, &bytes);
        let (status, verdict) = match name {
            "nothing.rom" => (1, "no boot loader"),
            _ => (0, "good"),
        };
        let run = tool(&room, &["register", name]);
        assert_eq!(
            (run.status, text(&run.said)),
            (Some(status), String::new()),
            "{name}"
        );
        assert!(
            text(&run.answers).starts_with(&format!("{name:?}: {verdict}\n")),
            "{name}"
        );
    }
    let run = tool(&room, &["register", "missing.rom"]);
    assert_eq!(run.status, Some(3));
    assert!(text(&run.said).starts_with("kpalumere: \"missing.rom\" cannot be read: "));
    assert!(
        text(&run.said).contains("Name a file"),
        "{}",
        text(&run.said)
    );
}

#[test]
fn an_image_may_come_on_standard_input_and_a_name_may_begin_with_a_hyphen() {
    let room = room("input");
    let piped = run(command(&room, &["register", "-"]), &good());
    assert_eq!(piped.status, Some(0));
    write(&room, "--json", &good());
    let named = tool(&room, &["register", "--", "--json"]);
    assert_eq!(named.status, Some(0));
    let piped = text(&piped.answers);
    let below = piped.strip_prefix("standard input: ").unwrap();
    assert_eq!(text(&named.answers), format!("\"--json\": {below}"));
}

#[test]
fn wrong_words_end_with_2_and_say_what_to_do() {
    let room = room("words");
    for words in [
        &["register", "--jsn"][..],
        &["register", "--json", "--csv"],
        &["register", "--brief", "--json"],
        &["register", "--brief", "--csv"],
        &["register", "--json"],
        &["register", "--quiet"],
        &["register", "--brief"],
        &["register", "-0", "a.rom"],
        &["register", "--from"],
        &["register", "--from", "-", "-"],
        &["register", "--json", "--json"],
        &["register", "--quiet=yes"],
        &["explain", "0"],
        &["explain", "19"],
        &["explain", "four"],
        &["explain", "4", "5"],
        &["explain", "--all"],
    ] {
        let run = tool(&room, words);
        assert_eq!(
            (run.status, text(&run.answers)),
            (Some(2), String::new()),
            "{words:?}"
        );
        let said = text(&run.said);
        assert!(
            said.starts_with(&format!("kpalumere: {} ", words[0])),
            "{said}"
        );
        assert!(
            said.contains(&format!("`kpalumere {} --help`", words[0])),
            "{said}"
        );
    }
}

#[test]
fn output_that_cannot_be_written_ends_with_3() {
    let room = room("full");
    for form in [
        &["register"][..],
        &["register", "--sample", "--brief"],
        &["register", "--sample", "--json"],
        &["register", "--sample", "--csv"],
        &["explain"],
    ] {
        let full = fs::OpenOptions::new()
            .write(true)
            .open("/dev/full")
            .unwrap();
        let output = command(&room, form).stdout(full).output().unwrap();
        assert_eq!(output.status.code(), Some(3), "{form:?}");
        assert!(
            text(&output.stderr).contains("cannot be written"),
            "{form:?}"
        );
    }
}

// ---- for programs

/// What the second program answers to a call that the ask language has no line for, in the form of its answers.
fn added(call: &str, image: &[u8]) -> String {
    let told = |answer: Result<String, second::refusal::Refusal>| match answer {
        Ok(given) => format!("ok {given}"),
        Err(refusal) => format!("refused {}", refusal.number),
    };
    let words: Vec<&str> = call.split(' ').collect();
    match words.as_slice() {
        ["efs"] => told(second::flash::efs(image).map(|efs| {
            let (place, early, late) = (efs.place, efs.early, efs.late);
            format!("place={place:#x} early={early:#x} late={late:#x}")
        })),
        ["pointer"] => told(second::flash::pointer(image).map(|pointer| {
            let (field, value, place) = (pointer.field, pointer.value, pointer.place);
            format!("field={field:#x} value={value:#x} place={place:#x}")
        })),
        ["repeated", level] => {
            let repeated = second::flash::repeated(image, level.parse().unwrap());
            told(repeated.map(|repeat| {
                let (index, earlier) = (repeat.index, repeat.earlier);
                let (class, subprogram) = (repeat.kind, repeat.subprogram);
                format!("index={index} earlier={earlier} type={class:#x} sub={subprogram:#x}")
            }))
        }
        ["wrong", place, level, index] => {
            let [place, index] = [place, index].map(|word| word.parse().unwrap());
            let wrong = second::flash::wrong(image, place, level.parse().unwrap(), index);
            told(wrong.map(|wrong| {
                let (number, field, bytes) = (wrong.number, wrong.field, wrong.bytes);
                let (stands, should) = (wrong.stands, wrong.should);
                format!("number={number} field={field} bytes={bytes} stands={stands:#x} should={should:#x}")
            }))
        }
        ["version", place, length] => {
            let [place, length] = [place, length].map(|word| word.parse::<usize>().unwrap());
            match second::version::version(&image[place..place + length]) {
                Ok(version) => {
                    let digits = format!("{version:08x}");
                    [0, 2, 4, 6].map(|at| &digits[at..at + 2]).join(".")
                }
                Err(_) => String::from("none"),
            }
        }
        _ => panic!("{call} is no call"),
    }
}

/// Whether a call is one of the ask language: those have the image's name in them.
fn is_asked(call: &str) -> bool {
    call.contains(" a ")
}

#[test]
fn json_and_csv_say_what_the_second_program_answers() {
    let room = room("forms");
    let mut images = accepted();
    images.extend(refused().into_iter().map(|(name, _, bytes)| (name, bytes)));
    for (name, bytes) in &images {
        write(&room, name, bytes);
    }
    for form in ["json", "csv"] {
        let option = format!("--{form}");
        let mut words = vec!["register", &option];
        words.extend(images.iter().map(|(name, _)| *name));
        let register = tool(&room, &words);
        assert_eq!(
            (register.status, text(&register.said)),
            (Some(5), String::new())
        );
        let file = room.join(form);
        fs::write(&file, &register.answers).unwrap();
        let lines = text(&python(&[OsStr::new(form), file.as_os_str()]).answers);
        let lines: Vec<Vec<&str>> = lines
            .lines()
            .map(|line| line.split('\t').collect())
            .collect();
        let mut versions = 0;
        for (number, (name, bytes)) in images.iter().enumerate() {
            let number = number.to_string();
            let lines = || lines.iter().filter(|line| line[0] == number);
            let asked = || lines().filter(|line| is_asked(line[1]));
            let mut script = format!("file a {name}\n");
            asked().for_each(|line| script.push_str(&format!("{}\n", line[1])));
            let second = Program::second().answers_to(script.as_bytes(), &room);
            let second = text(&second.answers);
            assert_eq!(second.lines().count(), 1 + asked().count(), "{name}");
            for (line, second) in asked().zip(second.lines().skip(1)) {
                assert_eq!(line[2], second, "{form}, {name}: {}", line[1]);
            }
            for line in lines().filter(|line| !is_asked(line[1])) {
                assert_eq!(
                    line[2],
                    added(line[1], bytes),
                    "{form}, {name}: {}",
                    line[1]
                );
                versions += usize::from(line[2].starts_with("ab.cd."));
            }
            // Both directories, five questions, the EFS and the pointer at least; of the longest image every entry.
            let due = if *name == "long.rom" { 2 * 2 * 512 } else { 9 };
            assert!(
                lines().count() >= due,
                "{form}, {name}: {}",
                lines().count()
            );
        }
        assert_eq!(versions, 1, "one entry of all images has a firmware header");
    }
}

#[test]
fn any_file_name_survives() {
    let room = room("names");
    let names: Vec<OsString> = [
        &b"plain.rom"[..],
        b"comma, and \"quotes\".rom",
        b"two\nlines\r\n.rom",
        b"caf\xc3\xa9 \xf0\x9f\x90\x9d.rom",
        b"no text \xe9\xff\xed\xa0\x80.rom",
        b" spaces \t\x0b\x1b[31m\x7f ",
        b"back\\slash'",
    ]
    .iter()
    .map(|name| OsString::from_vec(name.to_vec()))
    .collect();
    for name in &names {
        write(&room, name, &good());
    }
    let expected: Vec<String> = names
        .iter()
        .map(|name| {
            name.as_bytes()
                .iter()
                .map(|byte| format!("{byte:02x}"))
                .collect()
        })
        .collect();
    for form in ["json", "csv"] {
        let mut words = vec![OsString::from("register"), format!("--{form}").into()];
        words.extend(names.iter().cloned());
        let run = tool(&room, &words);
        assert_eq!(run.status, Some(0), "{}", text(&run.said));
        let file = room.join(form);
        fs::write(&file, &run.answers).unwrap();
        let found = python(&[OsStr::new("names"), OsStr::new(form), file.as_os_str()]);
        let found: Vec<String> = text(&found.answers).lines().map(String::from).collect();
        assert_eq!(found, expected, "{form}");
    }
    // For people a name stays on its line and changes nothing of the terminal.
    let mut words = vec![OsString::from("register")];
    words.extend(names.iter().cloned());
    let shown = text(&tool(&room, &words).answers);
    assert_eq!(
        shown
            .lines()
            .filter(|line| line.ends_with(": good"))
            .count(),
        names.len()
    );
    assert!(!shown.contains(&['\x1b', '\r', '\x0b'][..]), "{shown}");
}

#[test]
fn quiet_forms_leave_out_what_is_good() {
    let room = room("quiet-forms");
    write(&room, "good.rom", &good());
    write(&room, "bad.rom", &changed(LEVEL_ONE + 16, &[0x77]));
    for form in ["json", "csv"] {
        let option = format!("--{form}");
        let run = tool(
            &room,
            &[
                "register", "--quiet", &option, "good.rom", "bad.rom", "none.rom",
            ],
        );
        assert_eq!(run.status, Some(3));
        let file = room.join(form);
        fs::write(&file, &run.answers).unwrap();
        let found = python(&[OsStr::new("names"), OsStr::new(form), file.as_os_str()]);
        let hex = |name: &str| {
            name.bytes()
                .map(|byte| format!("{byte:02x}"))
                .collect::<String>()
        };
        let expected = format!("{}\n{}\n", hex("bad.rom"), hex("none.rom"));
        assert_eq!(text(&found.answers), expected, "{form}");
    }
}

// ---- refusals

#[test]
fn every_refusal_is_explained() {
    let room = room("explain");
    let list = text(&tool(&room, &["explain"]).answers);
    for number in 1..=18u64 {
        let run = tool(&room, &["explain".to_string(), number.to_string()]);
        assert_eq!((run.status, text(&run.said)), (Some(0), String::new()));
        let page = text(&run.answers);
        let head = page.lines().next().unwrap_or_default();
        let title = head
            .strip_prefix(&format!("refused {number}: "))
            .expect(head);
        assert!(list.contains(&format!("{number:>4}  {title}\n")), "{title}");
        for part in ["It means:", "Usual causes:", "Look at:"] {
            assert!(page.lines().any(|line| line == part), "{number}: {part}");
        }
        // What the size of the flash part changes is told for each.
        for size in [
            "4 MiB, 4194304 bytes: ",
            "8 MiB, 8388608 bytes: ",
            "16 MiB, 16777216 bytes: ",
        ] {
            let told = page.contains(&format!("\n  {size}"));
            assert_eq!(told, [2, 7].contains(&number), "{number}: {size}");
        }
    }
}
