//! docs/REGISTER.md: its examples are run, and it names every verdict, every column and every field.

use agree::board::{entry, Board, LEVEL_TWO};
use agree::programs::{built, run, Program};
use agree::workplace::{Outcome, Workplace};
use std::fs::{self, Permissions};
use std::os::unix::fs::PermissionsExt;
use std::path::Path;

fn page() -> String {
    let page = Path::new(env!("CARGO_MANIFEST_DIR")).join("../../docs/REGISTER.md");
    fs::read_to_string(page).expect("the page can be read")
}

/// The examples: the indented blocks behind their heading.
fn examples() -> Vec<String> {
    let page = page();
    let (_, behind) = page.split_once("\n## Examples\n").expect("it has examples");
    let mut examples = vec![String::new()];
    for line in behind.lines() {
        match line.strip_prefix("    ") {
            Some(code) => *examples.last_mut().unwrap() += &format!("{code}\n"),
            None => examples.push(String::new()),
        }
    }
    examples.retain(|example| !example.is_empty());
    examples
}

/// A folder with a fleet of three: a good machine, one without a boot loader, and one in which an entry repeats.
fn fleet() -> Workplace {
    let place = Workplace::new("register-page");
    fs::create_dir(place.path("fleet")).unwrap();
    let without = Board::with(|board| board.two.entries[0].subprogram = 9);
    let repeats = Board::with(|board| board.two.entries[3] = entry(0x01, 0, 0, 0, 1));
    let mut good = Board::new().bytes();
    let header = LEVEL_TWO + 0x1000;
    good[header + 0x10..][..4].copy_from_slice(b"$PS1");
    good[header + 0x60..][..4].copy_from_slice(&[0x74, 0x01, 0x08, 0x00]);
    place.put("fleet/good.rom", good);
    place.put("fleet/none.rom", without);
    place.put("fleet/repeats.rom", repeats);
    let words: Vec<String> = built("kpalumere")
        .iter()
        .map(|word| format!("'{}'", word.to_str().expect("a path is text")))
        .collect();
    place.put(
        "kpalumere",
        format!("#!/bin/sh\nexec {} \"$@\"\n", words.join(" ")),
    );
    fs::set_permissions(place.path("kpalumere"), Permissions::from_mode(0o755)).unwrap();
    place
}

#[test]
fn every_example_of_the_page_works() {
    let place = fleet();
    let written: Vec<String> = examples()
        .iter()
        .map(|example| {
            let example = example.replace("kpalumere register", "./kpalumere register");
            let shell =
                Program::of_words("the shell", vec!["sh".into(), "-c".into(), example.into()]);
            let outcome = Outcome::of(run(shell.command(place.folder()), b""));
            assert_eq!((outcome.status, outcome.said.as_str()), (Some(0), ""));
            in_order(&outcome.wrote)
        })
        .collect();
    assert_eq!(
        written,
        [
            "fleet/none.rom no-boot-loader  type 0x01 stands in level 2 at index 0 with \
             subprogram 0x09\nfleet/repeats.rom refused 18 entry 3 of level 2 at 0x28000\n",
            // The fourth entry has the type of the first, whose index is 0.
            "fleet/repeats.rom 18 0x28040 0x1 0x0\n",
            "fleet/repeats.rom level 2 entries 0 and 3\n",
            "fleet/good.rom 00.08.01.74\nfleet/none.rom None\nfleet/repeats.rom None\n",
        ]
        .map(in_order)
    );
}

/// The lines in order: `find` tells the files of a folder in any.
fn in_order(text: &str) -> String {
    let mut lines: Vec<&str> = text.lines().collect();
    lines.sort_unstable();
    lines.join("\n") + "\n"
}

#[test]
fn the_page_names_every_column_and_every_field() {
    let place = Workplace::new("register-page-names");
    let page = page();
    let csv = place.tool(&["register", "--sample", "--csv"]).wrote;
    let columns: Vec<&str> = csv.lines().next().unwrap_or_default().split(',').collect();
    assert!(columns.len() > 30, "{columns:?}");
    let rows = csv.lines().filter_map(|line| line.split(',').nth(1));
    for name in columns.iter().copied().chain(rows.skip(1)) {
        assert!(page.contains(&format!("`{name}`")), "{name}");
    }
    place.put("bad.rom", Board::with(|board| board.one.wrong = 1));
    let json = place
        .tool(&["register", "--sample", "--json", "bad.rom"])
        .wrote;
    let fields = json.split('"').skip(1).step_by(2);
    let after = json.split('"').skip(2).step_by(2);
    let mut seen = 0;
    for (field, _) in fields
        .zip(after)
        .filter(|(_, after)| after.starts_with(':'))
    {
        let named = [format!("`{field}`"), format!(".{field}`")];
        assert!(named.iter().any(|named| page.contains(named)), "{field}");
        seen += 1;
    }
    assert!(seen > 100, "{seen} fields");
}
