//! `kpalumere find` and `kpalumere entry` as people and programs use them.

use agree::board::{entry, Board, EFS, LENGTH, LEVEL_ONE, LEVEL_TWO, WINDOW};
use agree::programs::{built, run, Program};
use agree::subjects::directory::Directory;
use agree::workplace::{Outcome, Workplace};
use std::ffi::OsStr;
use std::fs;
use std::os::unix::ffi::OsStrExt;
use std::process::Command;

#[test]
fn an_entry_is_found_in_the_whole_image() {
    let place = Workplace::with_board("find");
    let expected = "\
entry 0 of level 2 at 0x28000 (5 entries tested)
  type        0x01 boot loader
  subprogram  0x00
  size        0xc00 (3072 bytes)
  location    0x1000, mode 2: from directory start
  bytes       0x29000 to 0x29bff of the image
  version     none: the bytes have no firmware header
  extract     kpalumere extract board.rom --at 0x28000 0 FILE
";
    for words in [
        ["find", "board.rom", "boot-loader", "0"],
        ["find", "board.rom", "0x01", "0x0"],
        ["find", "board.rom", "1", "00"],
    ] {
        place.tool(&words).expect(0, expected);
    }
    let given = Board::new().bytes();
    let expected = expected.replace("extract board.rom", "extract -");
    place
        .tool_given(&["find", "-", "boot-loader", "0"], &given)
        .expect(0, &expected);
    let expected = "\
entry 0 of level 1 at 0x21000 (1 entry tested)
  type        0x00 AMD public key
  subprogram  0x00
  size        0x240 (576 bytes)
  location    0xfffa2000, mode 0: physical address
  bytes       0x22000 to 0x2223f of the image
  version     none: the bytes have no firmware header
  extract     kpalumere extract board.rom --at 0x21000 0 FILE
";
    place
        .tool(&["find", "board.rom", "amd-public-key", "0"])
        .expect(0, expected);
}

#[test]
fn an_entry_is_found_in_one_level() {
    let place = Workplace::with_board("find-level");
    let expected = "\
entry 1 of level 2 at 0x28000 (2 entries tested)
  type        0x08 SMU firmware
  subprogram  0x01
  size        0x1000 (4096 bytes)
  location    0x2d000, mode 1: from image start
  bytes       0x2d000 to 0x2dfff of the image
  version     none: the bytes have no firmware header
  extract     kpalumere extract board.rom --at 0x28000 1 FILE
";
    for level in ["--level=2", "--level=0x2"] {
        place
            .tool(&["find", level, "board.rom", "smu-firmware", "1"])
            .expect(0, expected);
    }
    place
        .tool(&["find", "board.rom", "smu-firmware", "1", "--level", "1"])
        .expect(1, "none (5 entries tested)\n");
}

#[test]
fn what_is_not_there_is_told_with_the_count() {
    let place = Workplace::with_board("find-none");
    place
        .tool(&["find", "board.rom", "smu-firmware", "0"])
        .expect(1, "none (9 entries tested)\n");
    place.put(
        "single.rom",
        Board::with(|board| {
            board.one.entries.truncate(1);
            board.one.total = 1;
        }),
    );
    place
        .tool(&["find", "single.rom", "1", "0"])
        .expect(1, "none (1 entry tested)\n");
    place
        .tool(&["find", "single.rom", "1", "0", "--level=2"])
        .expect(
            1,
            "none (0 entries tested; there is no directory of level 2)\n",
        );
    place.put("pointless.rom", Board::with(|board| board.late = 0));
    place.tool(&["find", "pointless.rom", "1", "0"]).expect(
        1,
        "none (0 entries tested; there is no directory of level 1)\n",
    );
    place.put(
        "empty.rom",
        Board::with(|board| {
            board.one.entries.clear();
            board.one.total = 0;
        }),
    );
    place
        .tool(&["find", "empty.rom", "1", "0"])
        .expect(1, "none (0 entries tested)\n");
}

#[test]
fn an_entry_is_shown_with_its_words() {
    let place = Workplace::with_board("entry");
    let expected = "\
entry 3 of level 2 at 0x28000, which has 4 entries
  type        0x13 debug unlock image
  subprogram  0x00
  size        0x0 (0 bytes)
  location    0x80000, mode 1: from image start
  bytes       none, at 0x80000 of the image
  version     none: the bytes have no firmware header
";
    place
        .tool(&["entry", "board.rom", "2", "3"])
        .expect(0, expected);
    let expected = "\
entry 2 of level 1 at 0x21000, which has 5 entries
  type        0x0b soft fuse chain
  subprogram  0x00
  size        0x0 (0 bytes)
  value       0x100000001
  bytes       none: the entry holds the value
";
    place
        .tool(&["entry", "board.rom", "1", "2"])
        .expect(0, expected);
    let expected = "\
entry 4 of level 1 at 0x21000, which has 5 entries
  type        0x22 token unlock data
  subprogram  0x00
  size        0x100 (256 bytes)
  location    0x1000, mode 3: from partition start
  bytes       refused 16: address mode 3
  why         its location at 0x21058 has mode 3, and the highest that is followed is 2
  explain     kpalumere explain 16
";
    place
        .tool(&["entry", "board.rom", "1", "4"])
        .expect(5, expected);
    let expected = "\
entry 2 of level 2 at 0x28000, which has 4 entries
  type        0x5a unnamed type
  subprogram  0x00
  size        0x101 (257 bytes)
  location    0x7ff00, mode 1: from image start
  bytes       refused 7: address outside the image
  why         its location at 0x28038 is 0x7ff00, and its bytes do not lie in the image, which ends at 0x80000
  explain     kpalumere explain 7
";
    place
        .tool(&["entry", "board.rom", "2", "0x2"])
        .expect(5, expected);
}

/// The board with a firmware header where the bytes of its boot loader begin.
fn board_with_a_version() -> Vec<u8> {
    let mut image = Board::new().bytes();
    image[0x2_9010..0x2_9014].copy_from_slice(b"$PS1");
    image[0x2_9060..0x2_9064].copy_from_slice(&[0x74, 0x01, 0x08, 0x00]);
    image
}

#[test]
fn a_version_is_shown_to_people_and_programs() {
    let place = Workplace::new("version");
    place.put("board.rom", board_with_a_version());
    for words in [
        &["find", "board.rom", "boot-loader", "0"][..],
        &["entry", "board.rom", "2", "0"],
        &["entry", "board.rom", "--at", "0x28000", "0"],
    ] {
        let outcome = place.tool(words);
        let line = "of the image\n  version     00.08.01.74\n";
        assert!(outcome.wrote.contains(line), "{outcome:?}");
        let outcome = place.tool(&[words, &["--json"]].concat());
        let field = "\"refused\": null, \"wrong\": null, \"version\": \"00.08.01.74\"}}\n";
        assert!(outcome.wrote.ends_with(field), "{outcome:?}");
    }
}

#[test]
fn an_entry_is_shown_of_the_directory_at_a_place() {
    let place = Workplace::with_board("entry-at");
    for (level, at) in [("1", LEVEL_ONE), ("2", LEVEL_TWO)] {
        for index in ["0", "1", "2", "3"] {
            let by_level = place.tool(&["entry", "board.rom", level, index]);
            for at in [at.to_string(), format!("{at:#x}")] {
                for words in [
                    ["entry", "board.rom", "--at", &at, index],
                    ["entry", "--at", &at, "board.rom", index],
                    ["entry", "board.rom", index, "--at", &at],
                ] {
                    assert_eq!(place.tool(&words), by_level);
                }
            }
        }
    }
    let json = place.tool(&["entry", "board.rom", "--at=0x28000", "0", "--json"]);
    let fields = "\"level\": 2, \"at\": 163840, \"directory\": 163840, \"total\": 4, ";
    assert!(json.wrote.contains(fields), "{json:?}");
    let json = place.tool(&["entry", "board.rom", "2", "0", "--json"]);
    let fields = "\"level\": 2, \"at\": null, \"directory\": 163840, \"total\": 4, ";
    assert!(json.wrote.contains(fields), "{json:?}");
}

#[test]
fn a_directory_that_only_a_later_entry_leads_to_is_reached_by_its_place() {
    /// Where a second directory of level two begins.
    const LATER: usize = 0x3_0000;
    let place = Workplace::new("later-level-two");
    let mut board = Board::new();
    board.one.entries[4] = entry(0x40, 1, 0x400, LATER as u64, 1);
    let mut image = board.bytes();
    let later = Directory::of(2, vec![entry(0x02, 0, 0x300, 0x3_1000, 1)]);
    let later = later.bytes();
    image[LATER..LATER + later.len()].copy_from_slice(&later);
    place.put("two.rom", &image);
    let found = place.tool(&["find", "two.rom", "secure-os", "0"]);
    assert!(
        found.wrote.starts_with("entry 0 of level 2 at 0x30000 ("),
        "{found:?}"
    );
    let shown = place.tool(&["entry", "two.rom", "--at", "0x30000", "0"]);
    let first = "entry 0 of level 2 at 0x30000, which has 1 entry\n  type        0x02 secure OS\n";
    assert!(shown.wrote.starts_with(first), "{shown:?}");
    assert!(extracted_as_told(&place, &found) == image[0x3_1000..0x3_1300]);
}

/// Starts the words that `find` tells for what it found, as a shell takes them, and gives the bytes that they write.
fn extracted_as_told(place: &Workplace, found: &Outcome) -> Vec<u8> {
    let line = found.wrote.lines().last().expect("something is found");
    let words = line.strip_prefix("  extract     kpalumere ");
    let words = words.unwrap_or_else(|| panic!("no words to extract: {found:?}"));
    let words = words.strip_suffix("FILE").expect("the file is named last");
    let mut shell = Command::new("bash");
    let start = format!("\"$@\" {words} found.bin");
    shell
        .args(["-c", &start, "bash"])
        .args(built("kpalumere"))
        .current_dir(place.folder());
    let outcome = Outcome::of(run(shell, b""));
    assert_eq!((outcome.status, outcome.said.as_str()), (Some(0), ""));
    let bytes = place.get("found.bin");
    fs::remove_file(place.path("found.bin")).expect("it can be removed");
    bytes
}

#[test]
fn the_words_that_find_tells_extract_what_it_found_whatever_the_file_is_called() {
    let place = Workplace::new("find-words");
    for name in [
        &b"board.rom"[..],
        b"my board's $(rom) \\ \"*\".rom",
        b"-x.rom",
        b"--all",
        b"line\nfeed\t\x1b[31m.rom",
        b"\xff\xe9.rom",
        "\u{9b}\u{e9}".as_bytes(),
    ] {
        let name = OsStr::from_bytes(name);
        fs::write(place.folder().join(name), Board::new().bytes()).unwrap();
        for (class, part) in [
            ("boot-loader", 0x2_9000..0x2_9C00),
            ("0", 0x2_2000..0x2_2240),
        ] {
            let mut command = Program::tool_as_people_start_it().command(place.folder());
            command.args([OsStr::new("find"), OsStr::new("--"), name]);
            command.args([class, "0"]);
            let found = Outcome::of(run(command, b""));
            assert!(
                extracted_as_told(&place, &found) == Board::new().bytes()[part],
                "{name:?}"
            );
            // The line itself is shown on one line, and changes nothing of the terminal.
            assert!(!found.wrote.replace('\n', "").contains(char::is_control));
        }
    }
}

#[test]
fn no_words_are_told_where_there_are_no_bytes_to_extract() {
    let place = Workplace::with_board("find-no-words");
    for (words, status) in [
        // A value, a location that is refused, and no bytes.
        (["find", "board.rom", "soft-fuse-chain", "0"], 0),
        (["find", "board.rom", "token-unlock", "0"], 5),
        (["find", "board.rom", "debug-unlock-image", "0"], 0),
    ] {
        let outcome = place.tool(&words);
        assert_eq!(outcome.status, Some(status), "{outcome:?}");
        assert!(outcome.wrote.contains("\n  bytes       "), "{outcome:?}");
        assert!(!outcome.wrote.contains("extract"), "{outcome:?}");
    }
}

/// Images that are refused before any directory is looked at, each with the number and its words.
fn refused_before() -> Vec<(&'static str, Vec<u8>)> {
    let dump = Board::new().bytes();
    vec![
        ("refused 15: image empty or too long", vec![]),
        (
            "refused 15: image empty or too long",
            vec![0; (16 << 20) + 1],
        ),
        ("refused 2: signature not found", vec![0; 16 << 20]),
        // Dumps that lack the EFS's first byte, and the last byte of all, by which every address is counted.
        ("refused 2: signature not found", dump[EFS + 1..].to_vec()),
        (
            "refused 2: signature not found",
            dump[..LENGTH - 1].to_vec(),
        ),
        // The pointer is the image's length, lies just below the window, and would be in the window of a longer image.
        (
            "refused 7: address outside the image",
            Board::with(|board| board.late = LENGTH as u32),
        ),
        (
            "refused 7: address outside the image",
            Board::with(|board| board.late = WINDOW as u32 - 1),
        ),
        (
            "refused 7: address outside the image",
            Board::with(|board| board.late = 0xFF00_0000 + LEVEL_ONE as u32),
        ),
    ]
}

#[test]
fn an_image_that_is_refused_before_its_directories_is_told_with_number_and_words() {
    let place = Workplace::new("refused-images");
    for (told, image) in refused_before() {
        place.put("bad.rom", image);
        for words in [
            &["find", "bad.rom", "1", "0"][..],
            &["find", "bad.rom", "1", "0", "--level=1"],
            &["entry", "bad.rom", "1", "0"],
            &["entry", "bad.rom", "2", "0"],
        ] {
            place.tool(words).expect(5, &format!("{told}\n"));
        }
    }
}

#[test]
fn levels_and_indices_that_there_are_not_are_refused() {
    let place = Workplace::with_board("out-of-range");
    let level = "refused 9: level, caller or command out of range\n";
    for number in ["0", "3", "4294967295"] {
        place
            .tool(&["entry", "board.rom", number, "0"])
            .expect(5, level);
        place
            .tool(&["find", "board.rom", "1", "0", "--level", number])
            .expect(5, level);
    }
    for index in ["5", "4294967296", "18446744073709551615"] {
        place
            .tool(&["entry", "board.rom", "1", index])
            .expect(5, "refused 8: no such entry, pointer or post\n");
    }
    for at in ["0x80001", "0xffffffffffffffff"] {
        place
            .tool(&["entry", "board.rom", "--at", at, "0"])
            .expect(5, "refused 7: address outside the image\n");
    }
    place
        .tool(&["entry", "board.rom", "--at", "0x21000", "5"])
        .expect(5, "refused 8: no such entry, pointer or post\n");
}

#[test]
fn wrong_words_end_with_2() {
    let place = Workplace::with_board("wrong-words");
    for words in [
        &["find"][..],
        &["find", "board.rom"],
        &["find", "board.rom", "1"],
        &["find", "board.rom", "1", "0", "2"],
        &["find", "board.rom", "1", "256"],
        &["find", "board.rom", "256", "0"],
        &["find", "board.rom", "bootloader", "0"],
        &["find", "board.rom", "1", "0", "--level"],
        &["find", "board.rom", "1", "0", "--level=two"],
        &["find", "board.rom", "1", "0", "--csv"],
        &["entry", "board.rom", "1"],
        &["entry", "board.rom", "--at", "0x28000"],
        &["entry", "board.rom", "--at", "0x28000", "2", "0"],
        &["entry", "board.rom", "--at", "there", "0"],
        &["entry", "board.rom", "0", "--at"],
        &["entry", "board.rom", "one", "0"],
        &["entry", "board.rom", "1", "-1"],
        &["entry", "board.rom", "1", "18446744073709551616"],
        &["entry", "board.rom", "4294967296", "0"],
        &["entry", "board.rom", "1", "0", "--json", "--json"],
    ] {
        let outcome = place.tool(words);
        assert_eq!((outcome.status, outcome.wrote.as_str()), (Some(2), ""));
        let command = words[0];
        let begins = format!("kpalumere: {command} ");
        let ends = format!("`kpalumere {command} --help` has its words.\n");
        assert!(outcome.said.starts_with(&begins), "{outcome:?}");
        assert!(outcome.said.ends_with(&ends), "{outcome:?}");
        assert_eq!(outcome.said.lines().count(), 1, "{outcome:?}");
    }
    place
        .tool(&["find", "board.rom", "boot-lader", "0"])
        .expect_message(
        2,
        "find cannot use its words: there is no type 'boot-lader'; did you mean 'boot-loader'? \
             `kpalumere find --help` has its words.",
    );
    for words in [
        &["find", "none.rom", "1", "0"][..],
        &["entry", "none.rom", "1", "0", "--json"],
        &["entry", ".", "1", "0"],
    ] {
        let outcome = place.tool(words);
        assert_eq!((outcome.status, outcome.wrote.as_str()), (Some(3), ""));
        assert!(outcome.said.contains("cannot be read: "), "{outcome:?}");
    }
}
