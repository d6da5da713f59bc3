//! `kpalumere extract` as people use it: what it writes, and what it never writes over.

use agree::board::{Board, LENGTH};
use agree::programs::{built, run, Program};
use agree::subjects::directory::Entry;
use agree::workplace::{Outcome, Workplace};
use std::fs::{self, Permissions};
use std::ops::Range;
use std::os::unix::fs::{symlink, PermissionsExt};
use std::process::Command;

/// The words that take the public key, entry 0 of level one, into a file.
fn key_into<'a>(file: &'a str, more: &[&'a str]) -> Vec<&'a str> {
    let words = ["extract", "board.rom", "1", "0", file];
    [&words[..], more].concat()
}

/// The bytes of that entry.
fn key() -> Vec<u8> {
    Board::new().bytes()[0x2_2000..0x2_2240].to_vec()
}

/// What is written about them.
fn told(file: &str) -> String {
    format!(
        "{file:?} holds the 576 bytes of entry 0 of level 1, 0x00 AMD public key: \
         0x22000 to 0x2223f of the image\n"
    )
}

/// The board is as it was, and these are all the files beside it.
fn board_is_kept(place: &Workplace, others: &[&str]) {
    assert!(place.get("board.rom") == Board::new().bytes());
    let mut names = [&["board.rom"], others].concat();
    names.sort_unstable();
    assert_eq!(place.names(), names);
}

#[test]
fn the_bytes_of_an_entry_are_written() {
    let place = Workplace::with_board("extract");
    place
        .tool(&key_into("key.bin", &[]))
        .expect(0, &told("key.bin"));
    assert_eq!(place.get("key.bin"), key());
    let expected = "\"boot.bin\" holds the 3072 bytes of entry 0 of level 2, 0x01 boot loader: \
                    0x29000 to 0x29bff of the image\n";
    place
        .tool(&["extract", "board.rom", "2", "0", "boot.bin"])
        .expect(0, expected);
    assert_eq!(
        place.get("boot.bin"),
        Board::new().bytes()[0x2_9000..0x2_9C00]
    );
    board_is_kept(&place, &["boot.bin", "key.bin"]);
}

#[test]
fn an_entry_without_bytes_makes_an_empty_file_and_one_at_the_end_all_of_it() {
    let place = Workplace::with_board("extract-limits");
    let expected =
        "\"none.bin\" holds the 0 bytes of entry 3 of level 2, 0x13 debug unlock image: \
                    none, at 0x80000 of the image\n";
    place
        .tool(&["extract", "board.rom", "2", "3", "none.bin"])
        .expect(0, expected);
    assert_eq!(place.get("none.bin"), b"");
    // Entry 2 is one byte too long; with that byte less it ends at the image's last.
    place.put(
        "fits.rom",
        Board::with(|board| board.two.entries[2].size -= 1),
    );
    let expected = "\"last.bin\" holds the 256 bytes of entry 2 of level 2, 0x5a unnamed type: \
                    0x7ff00 to 0x7ffff of the image\n";
    place
        .tool(&["extract", "fits.rom", "2", "2", "last.bin"])
        .expect(0, expected);
    assert_eq!(
        place.get("last.bin"),
        Board::new().bytes()[LENGTH - 0x100..]
    );
}

#[test]
fn what_is_refused_writes_nothing() {
    let place = Workplace::with_board("extract-refused");
    place.put("bad.rom", Board::with(|board| board.one.wrong = 1));
    place.put("kept.bin", "kept");
    // What is met in a directory is told with where, which another test has.
    for (image, level, index, told) in [
        ("board.rom", "1", "2", "refused 17: the entry holds a value"),
        ("board.rom", "1", "4", "refused 16: address mode 3"),
        (
            "board.rom",
            "2",
            "2",
            "refused 7: address outside the image",
        ),
        (
            "board.rom",
            "1",
            "5",
            "refused 8: no such entry, pointer or post",
        ),
        (
            "board.rom",
            "3",
            "0",
            "refused 9: level, caller or command out of range",
        ),
        ("bad.rom", "1", "0", "refused 4: checksum is wrong"),
    ] {
        let expected = format!("{told}; nothing is written\n");
        for file in [&["new.bin"][..], &["kept.bin", "--force"]] {
            let outcome = place.tool(&[&["extract", image, level, index], file].concat());
            assert_eq!((outcome.status, outcome.said.as_str()), (Some(5), ""));
            assert!(outcome.wrote.starts_with(&expected), "{outcome:?}");
        }
        // To standard output go the bytes or nothing.
        let outcome = place.tool(&["extract", image, level, index, "-"]);
        assert_eq!((outcome.status, outcome.wrote.as_str()), (Some(5), ""));
        let said = format!("kpalumere: {expected}");
        assert!(outcome.said.starts_with(&said), "{outcome:?}");
    }
    assert_eq!(place.get("kept.bin"), b"kept");
    board_is_kept(&place, &["bad.rom", "kept.bin"]);
}

#[test]
fn a_file_that_is_there_is_kept_unless_force_is_given() {
    let place = Workplace::with_board("extract-force");
    place.put("key.bin", "what was there");
    fs::set_permissions(place.path("key.bin"), Permissions::from_mode(0o640)).unwrap();
    place.tool(&key_into("key.bin", &[])).expect_message(
        3,
        "\"key.bin\" is there already, and is left as it is. \
         Name another file, or say --force to write over this one.",
    );
    assert_eq!(place.get("key.bin"), b"what was there");
    place
        .tool(&key_into("key.bin", &["--force"]))
        .expect(0, &told("key.bin"));
    assert_eq!(place.get("key.bin"), key());
    let mode = fs::metadata(place.path("key.bin")).unwrap().permissions();
    assert_eq!(mode.mode() & 0o777, 0o640);
    // Force is no fault where nothing is in the way.
    place
        .tool(&key_into("new.bin", &["--force"]))
        .expect(0, &told("new.bin"));
    board_is_kept(&place, &["key.bin", "new.bin"]);
}

#[test]
fn the_image_is_never_written_over_by_whatever_name() {
    let place = Workplace::with_board("extract-same");
    fs::create_dir(place.path("folder")).unwrap();
    symlink("board.rom", place.path("soft")).unwrap();
    symlink("../soft", place.path("folder/softer")).unwrap();
    fs::hard_link(place.path("board.rom"), place.path("hard")).unwrap();
    for file in ["board.rom", "./board.rom", "soft", "folder/softer", "hard"] {
        for more in [&[][..], &["--force"]] {
            place.tool(&key_into(file, more)).expect_message(
                3,
                &format!(
                    "{file:?} is the file that is read, and is left as it is. Name another file."
                ),
            );
        }
    }
    // The same where the image is read through a link.
    let outcome = place.tool(&["extract", "hard", "1", "0", "soft", "--force"]);
    assert_eq!(outcome.status, Some(3));
    board_is_kept(&place, &["folder", "hard", "soft"]);
}

#[test]
fn a_link_stays_a_link_and_what_it_leads_to_is_replaced() {
    let place = Workplace::with_board("extract-link");
    place.put("key.bin", "old");
    symlink("key.bin", place.path("link")).unwrap();
    let outcome = place.tool(&key_into("link", &[]));
    assert_eq!(outcome.status, Some(3));
    assert_eq!(place.get("key.bin"), b"old");
    place
        .tool(&key_into("link", &["--force"]))
        .expect(0, &told("link"));
    assert_eq!(place.get("key.bin"), key());
    assert!(fs::symlink_metadata(place.path("link"))
        .unwrap()
        .is_symlink());
    board_is_kept(&place, &["key.bin", "link"]);
}

#[test]
fn what_cannot_be_written_is_told_and_left_as_it_is() {
    let place = Workplace::with_board("extract-unwritten");
    fs::create_dir(place.path("folder")).unwrap();
    symlink("nowhere", place.path("dangling")).unwrap();
    let made = Command::new("mkfifo").arg(place.path("pipe")).status();
    assert!(made.unwrap().success());
    for (file, more) in [
        ("missing/key.bin", &[][..]),
        ("missing/key.bin", &["--force"]),
        ("board.rom/key.bin", &["--force"]),
        ("folder", &["--force"]),
        ("pipe", &["--force"]),
        ("dangling", &["--force"]),
        ("", &[]),
    ] {
        let outcome = place.tool(&key_into(file, more));
        let begins = format!("kpalumere: {file:?} cannot be written: ");
        let ends = "Name a file in a folder that is there, has room, and lets you write.\n";
        assert_eq!((outcome.status, outcome.wrote.as_str()), (Some(3), ""));
        assert!(outcome.said.starts_with(&begins), "{outcome:?}");
        assert!(outcome.said.ends_with(ends), "{outcome:?}");
    }
    board_is_kept(&place, &["dangling", "folder", "pipe"]);
    assert_eq!(fs::read_dir(place.path("folder")).unwrap().count(), 0);
}

#[test]
fn a_failure_in_the_middle_leaves_the_old_file_whole_and_no_other() {
    let place = Workplace::with_board("extract-full");
    place.put("boot.bin", "old");
    // No file may grow beyond one block of 512 bytes, so that the third kilobyte cannot be written.
    let limited = "ulimit -f 1; trap '' XFSZ; exec \"$@\"";
    for (file, more) in [("boot.bin", Some("--force")), ("new.bin", None)] {
        let mut command = Command::new("sh");
        command
            .args(["-c", limited, "sh"])
            .args(built("kpalumere"))
            .args(["extract", "board.rom", "2", "0", file])
            .args(more)
            .current_dir(place.folder());
        let outcome = Outcome::of(run(command, b""));
        assert_eq!(outcome.status, Some(3), "{outcome:?}");
        assert!(outcome.said.contains("cannot be written: "), "{outcome:?}");
    }
    assert_eq!(place.get("boot.bin"), b"old");
    board_is_kept(&place, &["boot.bin"]);
}

#[test]
fn wrong_words_end_with_2_and_an_image_that_is_not_there_with_3() {
    let place = Workplace::with_board("extract-words");
    for words in [
        &["extract", "board.rom", "1", "0"][..],
        &["extract", "board.rom", "1", "0", "a", "b"],
        &["extract", "board.rom", "1", "zero", "a"],
        &["extract", "board.rom", "1", "0", "a", "--json"],
        &["extract", "board.rom", "1", "0", "a", "--force=yes"],
        &["extract", "board.rom", "--at", "0x28000", "0"],
        &["extract", "board.rom", "--at", "0x28000", "2", "0", "a"],
        &["extract", "board.rom", "--at", "x", "0", "a"],
        &["extract", "board.rom", "--all"],
        &["extract", "board.rom", "--all", "-"],
        &["extract", "board.rom", "--all", "a", "1"],
        &["extract", "board.rom", "--all", "a", "--at", "0x28000"],
        &["extract", "--all", "a"],
    ] {
        let outcome = place.tool(words);
        assert_eq!((outcome.status, outcome.wrote.as_str()), (Some(2), ""));
        assert!(outcome
            .said
            .ends_with("`kpalumere extract --help` has its words.\n"));
    }
    let outcome = place.tool(&["extract", "none.rom", "1", "0", "a"]);
    assert_eq!((outcome.status, outcome.wrote.as_str()), (Some(3), ""));
    board_is_kept(&place, &[]);
}

#[test]
fn an_entry_of_the_directory_at_a_place_is_written() {
    let place = Workplace::with_board("extract-at");
    let expected = "\"boot.bin\" holds the 3072 bytes of entry 0 of level 2 at 0x28000, \
                    0x01 boot loader: 0x29000 to 0x29bff of the image\n";
    place
        .tool(&["extract", "board.rom", "--at", "0x28000", "0", "boot.bin"])
        .expect(0, expected);
    assert_eq!(
        place.get("boot.bin"),
        Board::new().bytes()[0x2_9000..0x2_9C00]
    );
    place
        .tool(&["extract", "board.rom", "--at", "0x80001", "0", "new.bin"])
        .expect(
            5,
            "refused 7: address outside the image; nothing is written\n",
        );
    board_is_kept(&place, &["boot.bin"]);
}

#[test]
fn the_bytes_go_to_standard_output_and_what_is_told_to_standard_error() {
    let place = Workplace::with_board("extract-output");
    for words in [
        &["extract", "board.rom", "1", "0", "-"][..],
        &["extract", "board.rom", "--at", "0x21000", "0", "-"],
        &["extract", "--", "board.rom", "1", "0", "-"],
    ] {
        let mut command = Program::tool_as_people_start_it().command(place.folder());
        command.args(words);
        let run = run(command, b"");
        assert_eq!((run.status, run.answers), (Some(0), key()), "{words:?}");
        let said = String::from_utf8(run.said).expect("what is said is text");
        let begins = "kpalumere: standard output holds the 576 bytes of entry 0 of level 1";
        assert!(said.starts_with(begins), "{said}");
        assert_eq!(said.lines().count(), 1, "{said}");
    }
    board_is_kept(&place, &[]);
}

/// The entries of the board that have bytes: the names of their files, and where the bytes lie.
const FILES: [(&str, Range<usize>); 5] = [
    (
        "level1-0x21000-000-0x00-0x00-amd-public-key.bin",
        0x2_2000..0x2_2240,
    ),
    (
        "level1-0x21000-001-0x03-0x00-recovery-boot-loader.bin",
        0x2_3000..0x2_3800,
    ),
    (
        "level1-0x21000-003-0x40-0x00-level-two.bin",
        0x2_8000..0x2_8400,
    ),
    (
        "level2-0x28000-000-0x01-0x00-boot-loader.bin",
        0x2_9000..0x2_9C00,
    ),
    (
        "level2-0x28000-001-0x08-0x01-smu-firmware.bin",
        0x2_D000..0x2_E000,
    ),
];

/// The folder holds these files of the board, each with its bytes, and nothing else.
fn expect_files(place: &Workplace, folder: &str) {
    for (name, part) in FILES {
        let bytes = place.get(&format!("{folder}/{name}"));
        assert!(bytes == Board::new().bytes()[part], "{name}");
    }
    let files = fs::read_dir(place.path(folder)).unwrap();
    assert_eq!(files.count(), FILES.len());
}

#[test]
fn every_entry_that_has_bytes_is_written_into_a_folder() {
    let place = Workplace::with_board("extract-all");
    let outcome = place.tool(&["extract", "board.rom", "--all", "parts"]);
    // Entry 4 of level one and entry 2 of level two are refused.
    assert_eq!(
        (outcome.status, outcome.said.as_str()),
        (Some(5), ""),
        "{outcome:?}"
    );
    let lines: Vec<&str> = outcome.wrote.lines().collect();
    assert_eq!(
        lines[0],
        "\"parts/level1-0x21000-000-0x00-0x00-amd-public-key.bin\" holds the 576 bytes of entry 0 \
         of level 1 at 0x21000, 0x00 AMD public key: 0x22000 to 0x2223f of the image"
    );
    let left_out: Vec<&str> = lines
        .iter()
        .filter(|line| line.contains(" is left out: "))
        .copied()
        .collect();
    assert_eq!(
        left_out,
        [
            "entry 2 of level 1 at 0x21000, 0x0b soft fuse chain, is left out: it holds the value 0x100000001",
            "entry 4 of level 1 at 0x21000, 0x22 token unlock data, is left out: refused 16: address mode 3; \
             its location at 0x21058 has mode 3, and the highest that is followed is 2",
            "entry 2 of level 2 at 0x28000, 0x5a unnamed type, is left out: refused 7: address outside the image; \
             its location at 0x28038 is 0x7ff00, and its bytes do not lie in the image, which ends at 0x80000",
            "entry 3 of level 2 at 0x28000, 0x13 debug unlock image, is left out: it has no bytes",
        ]
    );
    assert_eq!(
        lines.last(),
        Some(&"5 files written into \"parts\", 4 entries left out")
    );
    assert_eq!(lines.len(), FILES.len() + left_out.len() + 1);
    expect_files(&place, "parts");
    board_is_kept(&place, &["parts"]);
    // A folder that is there is used, and a value alone is no fault.
    place.put(
        "value.rom",
        Board::with(|board| {
            board.one.entries[4].class = 0x0B;
            board.one.entries[4].subprogram = 1;
            board.two.entries[2].size = 0;
        }),
    );
    fs::create_dir(place.path("value")).unwrap();
    let outcome = place.tool(&["extract", "--all", "value", "value.rom"]);
    assert_eq!(outcome.status, Some(0), "{outcome:?}");
    assert_eq!(fs::read_dir(place.path("value")).unwrap().count(), 5);
}

#[test]
fn of_an_image_that_is_refused_nothing_is_written_into_a_folder() {
    let place = Workplace::new("extract-all-refused");
    for (image, told) in [
        (vec![], "refused 15: image empty or too long"),
        (vec![0; 1 << 20], "refused 2: signature not found"),
        (
            Board::with(|board| board.late = 0),
            "refused 8: no such entry, pointer or post",
        ),
    ] {
        place.put("bad.rom", image);
        place
            .tool(&["extract", "bad.rom", "--all", "parts"])
            .expect(5, &format!("{told}; nothing is written\n"));
    }
    assert_eq!(place.names(), ["bad.rom"]);
}

#[test]
fn files_in_a_folder_are_kept_unless_force_is_given() {
    let place = Workplace::with_board("extract-all-force");
    fs::create_dir(place.path("parts")).unwrap();
    let (first, last) = (FILES[0].0, FILES[4].0);
    place.put(&format!("parts/{first}"), "kept");
    place.put(&format!("parts/{last}"), "kept");
    let words = ["extract", "board.rom", "--all", "parts"];
    place.tool(&words).expect_message(
        3,
        &format!(
            "\"parts/{first}\" and 1 more would be written over, and nothing is written. Name \
             another folder, or say --force to write over what is there."
        ),
    );
    assert_eq!(fs::read_dir(place.path("parts")).unwrap().count(), 2);
    assert_eq!(place.get(&format!("parts/{last}")), b"kept");
    let outcome = place.tool(&[&words[..], &["--force"]].concat());
    assert_eq!(outcome.status, Some(5), "{outcome:?}");
    expect_files(&place, "parts");
}

#[test]
fn nothing_is_written_outside_the_folder() {
    let place = Workplace::with_board("extract-all-links");
    fs::create_dir(place.path("parts")).unwrap();
    place.put("outside", "kept");
    for target in ["../outside", "../nowhere", "../board.rom"] {
        let link = place.path(&format!("parts/{}", FILES[1].0));
        symlink(target, &link).unwrap();
        for more in [&[][..], &["--force"]] {
            let outcome = place.tool(&[&["extract", "board.rom", "--all", "parts"], more].concat());
            assert_eq!((outcome.status, outcome.wrote.as_str()), (Some(3), ""));
            assert!(
                outcome.said.contains(", and nothing is written. "),
                "{outcome:?}"
            );
        }
        fs::remove_file(link).unwrap();
    }
    assert_eq!(place.get("outside"), b"kept");
    board_is_kept(&place, &["outside", "parts"]);
    assert_eq!(fs::read_dir(place.path("parts")).unwrap().count(), 0);
    // A folder that cannot be made.
    for folder in ["board.rom", "board.rom/parts", "missing/parts"] {
        let outcome = place.tool(&["extract", "board.rom", "--all", folder, "--force"]);
        let begins = format!("kpalumere: {folder:?} cannot be made: ");
        assert_eq!((outcome.status, outcome.wrote.as_str()), (Some(3), ""));
        assert!(outcome.said.starts_with(&begins), "{outcome:?}");
    }
    board_is_kept(&place, &["outside", "parts"]);
}

#[test]
fn a_directory_that_two_entries_lead_to_is_written_once() {
    let place = Workplace::new("extract-all-twice");
    let image = Board::with(|board| {
        let again = Entry {
            subprogram: 1,
            ..board.one.entries[3].clone()
        };
        board.one.entries[4] = again;
        board.two.entries[2].size -= 1;
    });
    place.put("twice.rom", image);
    let outcome = place.tool(&["extract", "twice.rom", "--all", "parts"]);
    assert_eq!(outcome.status, Some(0), "{outcome:?}");
    let files = fs::read_dir(place.path("parts")).unwrap();
    let names = files.map(|file| file.unwrap().file_name().into_string().unwrap());
    let of_two = names.filter(|name| name.starts_with("level2-0x28000-"));
    assert_eq!(of_two.count(), 3);
}
