//! `kpalumere build` as people use it: descriptions that are accepted, refused and wrong.

use agree::board::entry;
use agree::subjects::directory::{Directory, Entry};
use agree::workplace::Workplace;

/// A description with what people may write, and the directory that it describes.
const DESCRIPTION: &str = "\
# A board's level one.

level 1   # the only line that is no entry
boot-loader 0 0x100 0x1000 image
\t0x08\t1  4294967295   0x3fffffffffffffff partition\r
level-two 0 0 512 directory
255 255 0 0xFF000000 physical
0x0b 0 0 9 0x2";

fn described() -> Directory {
    let entries = vec![
        entry(0x01, 0, 0x100, 0x1000, 1),
        entry(0x08, 1, u32::MAX, (1 << 62) - 1, 3),
        entry(0x40, 0, 0, 512, 2),
        entry(0xFF, 0xFF, 0, 0xFF00_0000, 0),
        entry(0x0B, 0, 0, 9, 2),
    ];
    Directory::of(1, entries)
}

/// The draft is refused with this message, and nothing is written: no new file, nor over one that is there.
fn refuses_the_draft(place: &Workplace, draft: &str, expected: &str) {
    place.put("bad.txt", draft);
    place
        .tool(&["build", "bad.txt", "new.dir"])
        .expect(5, expected);
    place
        .tool(&["build", "--force", "bad.txt", "kept.dir"])
        .expect(5, expected);
    assert_eq!(place.get("kept.dir"), b"kept");
    assert_eq!(place.names(), ["bad.txt", "kept.dir"]);
}

#[test]
fn a_directory_is_written_with_its_checksum() {
    let place = Workplace::new("build");
    place.put("board.txt", DESCRIPTION);
    place.tool(&["build", "board.txt", "board.dir"]).expect(
        0,
        "\"board.dir\" holds a directory of level 1, 96 bytes, 5 entries\n",
    );
    assert_eq!(place.get("board.dir"), described().bytes());
    place
        .tool_given(&["build", "-", "given.dir"], DESCRIPTION.as_bytes())
        .expect(
            0,
            "\"given.dir\" holds a directory of level 1, 96 bytes, 5 entries\n",
        );
    assert_eq!(place.get("given.dir"), described().bytes());
    place
        .tool_given(&["build", "-", "empty.dir"], b"level 0x2")
        .expect(
            0,
            "\"empty.dir\" holds a directory of level 2, 16 bytes, 0 entries\n",
        );
    assert_eq!(place.get("empty.dir"), Directory::of(2, vec![]).bytes());
    let names = ["board.dir", "board.txt", "empty.dir", "given.dir"];
    assert_eq!(place.names(), names);
}

/// Lines of so many entries whose types and subprograms all differ, and the entries.
fn different_lines(amount: usize) -> (String, Vec<Entry>) {
    let pairs = (0..amount).map(|k| (0x12 + (k / 256) as u8, (k % 256) as u8));
    pairs
        .map(|(class, subprogram)| {
            let line = format!("{class} {subprogram} 16 0x2000 image\n");
            (line, entry(class, subprogram, 16, 0x2000, 1))
        })
        .unzip()
}

#[test]
fn a_directory_has_at_most_512_entries() {
    let place = Workplace::new("build-full");
    let (lines, entries) = different_lines(512);
    place
        .tool_given(
            &["build", "-", "full.dir"],
            format!("level 2\n{lines}").as_bytes(),
        )
        .expect(
            0,
            "\"full.dir\" holds a directory of level 2, 8208 bytes, 512 entries\n",
        );
    assert_eq!(place.get("full.dir"), Directory::of(2, entries).bytes());
    let (more, _) = different_lines(513);
    place
        .tool_given(
            &["build", "-", "fuller.dir"],
            format!("level 2\n{more}").as_bytes(),
        )
        .expect(
            5,
            "standard input, line 514: refused 3: length or count outside its limits; \
             nothing is written\n",
        );
    // That an entry repeats is told before that there are too many.
    place
        .tool_given(
            &["build", "-", "fuller.dir"],
            format!("level 2\n{lines}0x13 7 0 0 image\n").as_bytes(),
        )
        .expect(
            5,
            "standard input, line 514: refused 18: entry repeats an earlier one; line 265 has type 0x13 and subprogram \
             0x07 already, so leave one of the two lines out, or give one another SUB; nothing is written\n",
        );
    assert_eq!(place.names(), ["full.dir"]);
}

#[test]
fn an_entry_that_repeats_is_told_with_both_lines() {
    let place = Workplace::new("build-repeated");
    place.put("kept.dir", "kept");
    for (text, line, earlier, pair) in [
        (
            "level 1\nboot-loader 0 1 2 image\nboot-loader 0 1 2 image\n",
            3,
            2,
            "type 0x01 and subprogram 0x00",
        ),
        // Comments and empty lines count as lines. Another name of the type, another size and another place make no other entry.
        (
            "# a board\nlevel 2\n\n8 1 0 0 0 # first\n0x09 1 0 0 0\n8 2 0 0 0\n\n smu-firmware 0x1 9 9 3\n",
            8,
            4,
            "type 0x08 and subprogram 0x01",
        ),
        // In level one even an entry that leads to level two.
        (
            "level 1\nlevel-two 0 0 0 image\nlevel-two 1 0 0 image\nlevel-two 0 0 16 image\n",
            4,
            2,
            "type 0x40 and subprogram 0x00",
        ),
        // The first of two repeats is told, with the first line that it repeats.
        (
            "level 1\n255 255 0 0 0\n1 2 0 0 0\n255 255 1 1 1\n1 2 0 0 0\n",
            4,
            2,
            "type 0xff and subprogram 0xff",
        ),
        // A repeat is told before a fault of a later line.
        (
            "level 2\n1 0 0 0 0\n1 0 0 0 0\n64 0 0 0 0\n1 1 0 0 4\n",
            3,
            2,
            "type 0x01 and subprogram 0x00",
        ),
    ] {
        let expected = format!(
            "\"bad.txt\", line {line}: refused 18: entry repeats an earlier one; line {earlier} has {pair} already, so leave \
             one of the two lines out, or give one another SUB; nothing is written\n"
        );
        refuses_the_draft(&place, text, &expected);
    }
}

#[test]
fn what_the_library_refuses_is_told_with_its_line() {
    let place = Workplace::new("build-refused");
    place.put("kept.dir", "kept");
    let level = "refused 9: level, caller or command out of range";
    let value = "refused 5: reserved bits set, or a value that is not allowed";
    let misplaced = "refused 14: pointer to level 2 inside level 2";
    for (text, line, told) in [
        ("level 0\n1 0 0 0 4\n", 1, level),
        ("\nlevel 3\n", 2, level),
        ("level 1\n1 0 0 0x4000000000000000 image\n", 2, value),
        ("level 1\n1 0 0 0xffffffffffffffff 3\n", 2, value),
        ("level 1\n1 0 0 0 3\n\n1 0 0 0 4\n1 0 0 0 9\n", 4, value),
        ("level 2\n1 0 0 0 0\nlevel-two 0 0 0 image\n", 3, misplaced),
        ("level 2\n64 0 0 0 4\n", 2, value),
        // An entry that repeats is refused for its mode, or for where it stands, first.
        ("level 1\n1 0 0 0 3\n1 0 0 0 4\n", 3, value),
        ("level 2\n64 0 0 0 0\n64 0 0 0 0\n", 2, misplaced),
    ] {
        let expected = format!("\"bad.txt\", line {line}: {told}; nothing is written\n");
        refuses_the_draft(&place, text, &expected);
    }
}

#[test]
fn every_wrong_line_is_told_with_what_to_write() {
    let place = Workplace::new("build-wrong");
    place.put("kept.dir", "kept");
    let text = "\
level 1
boot-loader 0 0x100 0x1000 image
boot-loader 0 0x100 0x1000
boot-loader 0 0x100 0x1000 image 7
bootloader 0 0x100 0x1000 image
1 256 0x100 0x1000 image
1 0 0x100000000 0x1000 image
1 0 1 0x10000000000000000 image
1 0 1 1 flash
level 2
1 0 1 1 1,5
";
    place.put("wrong.txt", text);
    let outcome = place.tool(&["build", "wrong.txt", "kept.dir", "--force"]);
    assert_eq!((outcome.status, outcome.wrote.as_str()), (Some(1), ""));
    let said: Vec<&str> = outcome.said.lines().collect();
    let expected = [
        (3, "4 words where an entry has 5; write `TYPE SUB SIZE LOCATION MODE`, as in `boot-loader 0 0x100 0x1000 image`."),
        (4, "6 words where an entry has 5; write `TYPE SUB SIZE LOCATION MODE`, as in `boot-loader 0 0x100 0x1000 image`."),
        (5, "there is no type 'bootloader'; did you mean 'boot-loader'?"),
        (6, "SUB is '256', which is too large; write at most 255."),
        (7, "SIZE is '0x100000000', which is too large; write at most 4294967295."),
        (8, "LOCATION is '0x10000000000000000', which is too large; write at most 18446744073709551615."),
        (9, "MODE is 'flash', which is no address mode; write physical, image, directory, partition, or its number 0 to 3."),
        (10, "the level is given twice; describe each directory in a file of its own."),
        (11, "MODE is '1,5', which is no number; write decimal digits, or 0x and hexadecimal digits."),
    ];
    assert_eq!(said.len(), expected.len() + 1, "{}", outcome.said);
    for (line, (number, reason)) in said.iter().zip(expected) {
        let begins = format!("kpalumere: \"wrong.txt\", line {number}: {reason}");
        assert!(line.starts_with(&begins), "{line}");
    }
    assert!(!outcome.said.contains("?."), "{}", outcome.said);
    assert_eq!(said.last(), Some(&"kpalumere: nothing is written."));
    assert_eq!(place.get("kept.dir"), b"kept");
}

#[test]
fn a_description_begins_with_its_level() {
    let place = Workplace::new("build-level");
    let nothing = "nothing is described; write `level 1` or `level 2`, and a line for each entry";
    let first = "the first line begins with '1'; write `level 1` or `level 2` before the entries";
    let number = "the level is 'two', which is no number; \
                  write decimal digits, or 0x and hexadecimal digits";
    let more =
        "the first line begins with 'level'; write `level 1` or `level 2` before the entries";
    for (text, line, reason) in [
        ("", 1, nothing),
        ("# only a comment\n", 1, nothing),
        ("\n1 0 0 0 image\n", 2, first),
        ("level two\n", 1, number),
        ("level\n", 1, more),
        ("level 1 2\n", 1, more),
    ] {
        let outcome = place.tool_given(&["build", "-", "new.dir"], text.as_bytes());
        let said = format!(
            "kpalumere: standard input, line {line}: {reason}.\nkpalumere: nothing is written.\n"
        );
        assert_eq!((outcome.status, outcome.said), (Some(1), said), "{text:?}");
    }
    assert!(place.names().is_empty());
}

#[test]
fn a_file_that_is_there_is_kept_unless_force_is_given() {
    let place = Workplace::new("build-force");
    place.put("board.txt", DESCRIPTION);
    place.put("board.dir", "kept");
    place
        .tool(&["build", "board.txt", "board.dir"])
        .expect_message(
            3,
            "\"board.dir\" is there already, and is left as it is. \
             Name another file, or say --force to write over this one.",
        );
    assert_eq!(place.get("board.dir"), b"kept");
    let outcome = place.tool(&["build", "board.txt", "board.dir", "--force"]);
    assert_eq!(outcome.status, Some(0), "{outcome:?}");
    assert_eq!(place.get("board.dir"), described().bytes());
    // The description itself is never written over.
    for words in [
        &["build", "board.txt", "board.txt"][..],
        &["build", "board.txt", "./board.txt", "--force"],
    ] {
        assert_eq!(place.tool(words).status, Some(3));
        assert_eq!(place.get("board.txt"), DESCRIPTION.as_bytes());
    }
    for (words, status) in [
        (&["build", "board.txt", "missing/board.dir"][..], 3),
        (&["build", "none.txt", "new.dir"], 3),
        (&["build", "board.txt"], 2),
        (&["build", "board.txt", "new.dir", "2"], 2),
        (&["build", "board.txt", "new.dir", "--level=2"], 2),
    ] {
        let outcome = place.tool(words);
        assert_eq!(outcome.status, Some(status), "{outcome:?}");
        assert_eq!(outcome.wrote, "");
    }
    assert_eq!(place.names(), ["board.dir", "board.txt"]);
}
