//! `kpalumere register` over many machines: folders, lists of names, the brief table, and what one bad image among them does.

use agree::board::{entry, Board};
use agree::programs::{run, Program};
use agree::workplace::{Outcome, Workplace};
use std::fs;
use std::io::Read;
use std::os::unix::fs::symlink;
use std::process::{Command, Stdio};

fn good() -> Vec<u8> {
    Board::new().bytes()
}

/// A board without a boot loader.
fn without() -> Vec<u8> {
    Board::with(|board| board.two.entries[0] = entry(0x02, 0, 0xC00, 0x1000, 2))
}

/// A board that is refused.
fn broken() -> Vec<u8> {
    Board::with(|board| board.one.wrong = 1)
}

/// A folder with a fleet in it: files in folders below it, one of them in two.
fn fleet(name: &str) -> Workplace {
    let place = Workplace::new(name);
    for folder in ["fleet/b/c", "fleet/B", "fleet/empty"] {
        fs::create_dir_all(place.path(folder)).unwrap();
    }
    for (file, image) in [
        ("fleet/b/c/1.rom", good()),
        ("fleet/b.rom", without()),
        ("fleet/B/z.rom", good()),
        ("fleet/a.rom", broken()),
        ("fleet/.hidden", good()),
        ("fleet/é.rom", good()),
    ] {
        place.put(file, image);
    }
    place
}

/// The fleet's names in the order of their bytes. A dot comes before a stroke, capitals before small letters, and all before `é`.
const FLEET: [&str; 6] = [
    "fleet/.hidden",
    "fleet/B/z.rom",
    "fleet/a.rom",
    "fleet/b.rom",
    "fleet/b/c/1.rom",
    "fleet/é.rom",
];

/// The names that a brief register has in its first column.
fn names(brief: &Outcome) -> Vec<String> {
    let lines = brief.wrote.lines().filter_map(|line| {
        let (name, _) = line.strip_prefix('"')?.split_once('"')?;
        Some(String::from(name))
    });
    lines.collect()
}

/// The command that starts the tool in a workplace, for a test that changes its streams.
fn command(place: &Workplace, words: &[&str]) -> Command {
    let mut command = Program::tool_as_people_start_it().command(place.folder());
    command.args(words);
    command
}

#[test]
fn of_a_folder_the_files_below_it_are_taken_by_name() {
    let place = fleet("many-folder");
    let all = place.tool(&["register", "--brief", "fleet"]);
    assert_eq!(all.status, Some(5), "{all:?}");
    assert_eq!(names(&all), FLEET);
    // The same with a stroke behind it, and between files that are named.
    place.put("first.rom", good());
    let words = ["register", "--brief", "first.rom", "fleet/", "first.rom"];
    let around = [&["first.rom"][..], &FLEET, &["first.rom"]].concat();
    assert_eq!(names(&place.tool(&words)), around);
    // A folder without a file in it is nothing, where there is something else.
    let words = ["register", "--brief", "fleet/empty", "fleet/b"];
    assert_eq!(names(&place.tool(&words)), ["fleet/b/c/1.rom"]);
}

#[test]
fn links_are_followed_to_files_and_not_to_folders() {
    let place = fleet("many-links");
    symlink("..", place.path("fleet/b/loop")).unwrap();
    symlink(".", place.path("fleet/self")).unwrap();
    symlink("b.rom", place.path("fleet/link.rom")).unwrap();
    symlink("nowhere", place.path("fleet/astray.rom")).unwrap();
    let pipe = Command::new("mkfifo")
        .arg(place.path("fleet/pipe"))
        .status();
    assert!(pipe.expect("mkfifo is there").success());
    let all = place.tool(&["register", "--brief", "fleet"]);
    let mut due = FLEET.to_vec();
    due.insert(3, "fleet/astray.rom");
    due.insert(6, "fleet/link.rom");
    assert_eq!(names(&all), due);
    // A link that leads nowhere is told: nobody is to take the machine behind it for a good one.
    assert_eq!(all.status, Some(3));
    assert!(
        all.said
            .starts_with("kpalumere: \"fleet/astray.rom\" cannot be read: "),
        "{}",
        all.said
    );
    // A folder that is itself named by a link is the user's own wish.
    symlink("fleet/b", place.path("linked")).unwrap();
    let linked = place.tool(&["register", "--brief", "linked"]);
    assert_eq!(names(&linked), ["linked/c/1.rom"]);
}

#[test]
fn a_list_names_an_image_on_each_line() {
    let place = fleet("many-list");
    let reversed: Vec<&str> = FLEET.iter().rev().copied().collect();
    place.put("list", reversed.join("\n"));
    let listed = place.tool(&["register", "--brief", "--from", "list"]);
    assert_eq!(names(&listed), reversed);
    let input = format!("\n{}\r\n\n", reversed.join("\r\n"));
    let piped = place.tool_given(&["register", "--brief", "--from", "-"], input.as_bytes());
    assert_eq!(piped, listed);
    // Images that stand on the command line come first; a folder may stand in a list.
    place.put("list", "fleet/a.rom\nfleet/b\n");
    let words = ["register", "--brief", "--from", "list", "fleet/b.rom"];
    let both = place.tool(&words);
    assert_eq!(
        names(&both),
        ["fleet/b.rom", "fleet/a.rom", "fleet/b/c/1.rom"]
    );
    // Standard input is the list's, so that this is a file.
    place.put("-", good());
    let piped = place.tool_given(&["register", "--brief", "--from", "-"], b"-\n");
    assert_eq!(names(&piped), ["./-"]);
    assert_eq!(piped.status, Some(0));
}

#[test]
fn names_that_end_with_a_zero_byte_may_have_line_ends_in_them() {
    let place = Workplace::new("many-null");
    place.put("two\nlines.rom", good());
    place.put("plain.rom", good());
    for option in ["-0", "--null"] {
        let words = ["register", "--brief", "--from", "-", option];
        let listed = place.tool_given(&words, b"two\nlines.rom\0plain.rom\0");
        assert_eq!(names(&listed), ["two\\nlines.rom", "plain.rom"]);
        assert_eq!(listed.status, Some(0));
    }
    // As lines they are three names, two of which are no file's.
    let words = ["register", "--brief", "--from", "-"];
    let listed = place.tool_given(&words, b"two\nlines.rom\nplain.rom\n");
    assert_eq!(names(&listed), ["two", "lines.rom", "plain.rom"]);
    assert_eq!(listed.status, Some(3));
}

#[test]
fn no_image_at_all_is_a_wrong_command_line() {
    let place = fleet("many-none");
    place.put("empty-list", "\n\n");
    let says = "register has no image: the list, and each folder that is named, has no file in \
                it. Name an image, a folder or a list that has one, or say --sample for the \
                sample board.";
    for words in [
        &["--from", "empty-list"][..],
        &["--from", "/dev/null", "-0"],
        &["--from", "-"],
        &["fleet/empty"],
        &["--json", "fleet/empty", "--from", "empty-list"],
    ] {
        let words = [&["register"], words].concat();
        place.tool(&words).expect_message(2, says);
    }
    for option in ["--json", "--csv", "--brief", "--quiet"] {
        place.tool(&["register", option]).expect_message(
            2,
            "register lacks IMAGE, or --sample for the sample board. `kpalumere register --help` \
             has its words.",
        );
        let sample = place.tool(&["register", option, "--sample"]);
        assert_eq!((sample.status, sample.said.as_str()), (Some(0), ""));
    }
    let alone = place.tool(&["register"]);
    assert_eq!(alone, place.tool(&["register", "--sample"]));
    assert_eq!(alone.status, Some(0));
}

#[test]
fn a_list_that_cannot_be_read_ends_with_3() {
    let place = Workplace::new("many-unread-list");
    let run = place.tool(&["register", "--from", "missing"]);
    assert_eq!((run.status, run.wrote.as_str()), (Some(3), ""));
    assert!(
        run.said
            .starts_with("kpalumere: \"missing\" cannot be read: "),
        "{}",
        run.said
    );
    assert!(run.said.contains("Name a file with a name on each line"));
    let run = place.tool(&["register", "--from", "/dev/zero"]);
    assert_eq!(run.status, Some(3));
    assert!(run.said.contains("no list is as long"), "{}", run.said);
}

#[test]
fn a_bad_image_stops_nothing_and_the_worst_tells() {
    let place = Workplace::new("many-worst");
    place.put("good.rom", good());
    place.put("none.rom", without());
    place.put("broken.rom", broken());
    for (words, status) in [
        (&["good.rom", "good.rom"][..], 0),
        (&["none.rom", "good.rom"], 1),
        (&["none.rom", "broken.rom", "good.rom"], 5),
        (&["broken.rom", "none.rom", "good.rom"], 5),
        (&["missing.rom", "broken.rom", "none.rom", "good.rom"], 3),
        (&["broken.rom", "missing.rom", "good.rom"], 3),
    ] {
        for form in ["--brief", "--json", "--csv", "--quiet"] {
            let run = place.tool(&[&["register", form], words].concat());
            assert_eq!(run.status, Some(status), "{form} {words:?}");
        }
        let brief = place.tool(&[&["register", "--brief"], words].concat());
        assert_eq!(names(&brief), words);
    }
}

#[test]
fn a_closed_pipe_keeps_the_worst_so_far() {
    let place = Workplace::new("many-pipe");
    place.put("good.rom", good());
    place.put("none.rom", without());
    place.put("broken.rom", broken());
    // More than a pipe holds, so that the tool comes to know that it is closed.
    let many = ["good.rom"; 200];
    for (first, status) in [("good.rom", 0), ("none.rom", 1), ("broken.rom", 5)] {
        let words = [&["register", first][..], &many].concat();
        let mut child = command(&place, &words)
            .stdin(Stdio::null())
            .stdout(Stdio::piped())
            .stderr(Stdio::piped())
            .spawn()
            .expect("the tool starts");
        let mut out = child.stdout.take().expect("standard output is a pipe");
        let mut head = [0; 10];
        out.read_exact(&mut head).expect("it writes that much");
        drop(out);
        let output = child.wait_with_output().expect("it ends");
        assert_eq!(output.status.code(), Some(status), "{first}");
        assert!(output.stderr.is_empty(), "{first}");
    }
}

#[test]
fn the_brief_table_fits_the_columns_or_becomes_lines() {
    let place = fleet("many-brief");
    let shown = |columns: usize| {
        let mut command = command(&place, &["register", "--brief", "fleet"]);
        command.env("COLUMNS", columns.to_string());
        Outcome::of(run(command, b"")).wrote
    };
    let wide = shown(200);
    let rows: Vec<&str> = wide.lines().take_while(|line| !line.is_empty()).collect();
    assert_eq!(rows.len(), 1 + FLEET.len(), "{wide}");
    // The second column begins where its head does, in every row.
    let at = |row: &str| row.chars().take_while(|c| *c != ' ').count();
    let column = rows[0].find("verdict").expect("the column has its head");
    for row in &rows[1..] {
        let before: String = row.chars().take(column).collect();
        assert_eq!(before.trim_end().chars().count(), at(row), "{row}");
        assert!(!row.chars().nth(column).unwrap().is_whitespace(), "{row}");
    }
    let longest = rows.iter().map(|row| row.chars().count()).max().unwrap();
    assert!(shown(longest).starts_with(rows[0]));
    for columns in [40, 60, longest - 1] {
        let narrow = shown(columns);
        assert!(
            narrow.starts_with("\"fleet/.hidden\":\n  good; "),
            "{narrow}"
        );
        for line in narrow.lines() {
            assert!(line.chars().count() <= columns, "{columns}: {line}");
        }
    }
}
