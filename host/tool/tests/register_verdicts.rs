//! The verdicts of `kpalumere register`, in every form that it has; and the directories that it lists, of which an image may have more
//! than two.

use agree::board::{entry, Board, LENGTH, LEVEL_ONE, LEVEL_TWO, WINDOW};
use agree::programs::run;
use agree::subjects::directory::{Directory, Entry};
use agree::workplace::{Outcome, Workplace};
use std::path::Path;
use std::process::Command;

/// Where a second directory of level two begins, in a board that has one.
const LEVEL_TWO_AGAIN: usize = 0x3_8000;

/// The boot loader of a board, at index 0 of level two, with another field or two.
fn with_boot_loader(boot_loader: Entry) -> Vec<u8> {
    Board::with(|board| board.two.entries[0] = boot_loader)
}

/// A board with more entries in level one, and a second directory of level two.
fn with_directories(leads: &[Entry], again: &Directory) -> Vec<u8> {
    let mut image = Board::with(|board| {
        board.one.entries.extend_from_slice(leads);
        board.one.total += leads.len() as u32;
    });
    let bytes = again.bytes();
    image[LEVEL_TWO_AGAIN..][..bytes.len()].copy_from_slice(&bytes);
    image
}

/// Leads to the second directory of level two, and to the first one again.
fn two_leads() -> [Entry; 2] {
    [
        entry(0x40, 1, 0, WINDOW + LEVEL_TWO_AGAIN as u64, 0),
        entry(0x40, 2, 0, LEVEL_TWO as u64, 1),
    ]
}

/// An image, and what is said of it: its verdict in one word, its number, where that was met, the headline's words, and the status.
struct Judged {
    name: &'static str,
    image: Option<Vec<u8>>,
    verdict: &'static str,
    refused: &'static str,
    met: &'static str,
    headline: &'static str,
    status: i32,
}

/// One image for each verdict and for each thing that may be said beside it.
fn judged() -> Vec<Judged> {
    let no_boot_loader = Board::with(|board| {
        board.two.entries.remove(0);
        board.two.total -= 1;
    });
    let broken = Board::with(|board| board.two.wrong = 1);
    vec![
        Judged {
            name: "good.rom",
            image: Some(Board::new().bytes()),
            verdict: "good",
            refused: "-",
            met: "-",
            headline: "good",
            status: 0,
        },
        Judged {
            name: "none.rom",
            image: Some(no_boot_loader),
            verdict: "no-boot-loader",
            refused: "-",
            met: "-",
            headline: "no boot loader",
            status: 1,
        },
        Judged {
            name: "other-subprogram.rom",
            image: Some(with_boot_loader(entry(0x01, 1, 0xC00, 0x1000, 2))),
            verdict: "no-boot-loader",
            refused: "-",
            met: "type 0x01 stands in level 2 at index 0 with subprogram 0x01",
            headline:
                "no boot loader (type 0x01 stands in level 2 at index 0 with subprogram 0x01)",
            status: 1,
        },
        Judged {
            name: "partition.rom",
            image: Some(with_boot_loader(entry(0x01, 0, 0xC00, 0x1000, 3))),
            verdict: "boot-loader-without-bytes",
            refused: "16",
            met: "entry 0 of level 2 at 0x28000",
            headline: "boot loader without bytes, refused 16: address mode 3 \
                       (entry 0 of level 2 at 0x28000)",
            status: 5,
        },
        Judged {
            name: "outside.rom",
            image: Some(with_boot_loader(entry(0x01, 0, 1, LENGTH as u64, 1))),
            verdict: "boot-loader-without-bytes",
            refused: "7",
            met: "entry 0 of level 2 at 0x28000",
            headline: "boot loader without bytes, refused 7: address outside the image \
                       (entry 0 of level 2 at 0x28000)",
            status: 5,
        },
        Judged {
            name: "broken.rom",
            image: Some(broken),
            verdict: "refused",
            refused: "4",
            met: "header of level 2 at 0x28000",
            headline: "refused 4: checksum is wrong (header of level 2 at 0x28000)",
            status: 5,
        },
        Judged {
            name: "missing.rom",
            image: None,
            verdict: "not-read",
            refused: "-",
            met: "-",
            headline: "not read",
            status: 3,
        },
    ]
}

fn put_all(place: &Workplace) {
    for judged in judged() {
        if let Some(image) = judged.image {
            place.put(judged.name, image);
        }
    }
}

fn names() -> Vec<&'static str> {
    judged().iter().map(|judged| judged.name).collect()
}

/// What Python reads out of the register in a form for programs.
fn read_by_python(place: &Workplace, what: &str, form: &str, words: &[&str]) -> String {
    let option = format!("--{form}");
    let register = place.tool(&[&["register", &option], words].concat());
    place.put("written", register.wrote);
    let script = Path::new(env!("CARGO_MANIFEST_DIR")).join("tests/register.py");
    let mut command = Command::new("python3");
    command.arg(script).args([what, form, "written"]);
    command.current_dir(place.folder());
    let read = Outcome::of(run(command, b""));
    assert_eq!((read.status, read.said.as_str()), (Some(0), ""));
    read.wrote
}

#[test]
fn the_headline_is_the_verdict_and_the_status_is_its_own() {
    let place = Workplace::new("verdicts-headline");
    put_all(&place);
    for judged in judged() {
        let Judged { name, headline, .. } = judged;
        let alone = place.tool(&["register", name]);
        assert_eq!(alone.status, Some(judged.status), "{name}");
        assert_eq!(alone.said.is_empty(), judged.image.is_some(), "{alone:?}");
        let first = alone.wrote.lines().next();
        assert_eq!(first, Some(format!("{name:?}: {headline}").as_str()));
        // The last line says what to do next; of a good image there is nothing to do.
        let hint = alone.wrote.lines().last().unwrap_or_default();
        let due = match (judged.refused, judged.verdict) {
            ("-", "no-boot-loader") => {
                String::from("  No directory has an entry of type 0x01 with subprogram 0x00, ")
            }
            ("-", _) => String::new(),
            (number, _) => format!("  `kpalumere explain {number}` says "),
        };
        assert!(hint.starts_with(&due), "{name}: {hint}");
        let asks_for_length = alone
            .wrote
            .contains("Is the file as long as the flash part?");
        assert_eq!(asks_for_length, judged.refused == "7", "{name}");
    }
}

#[test]
fn json_and_csv_have_the_verdict_the_number_and_where() {
    let place = Workplace::new("verdicts-forms");
    put_all(&place);
    for form in ["json", "csv"] {
        let read = read_by_python(&place, "verdicts", form, &names());
        let lines: Vec<&str> = read.lines().collect();
        assert_eq!(lines.len(), judged().len(), "{form}");
        for (line, judged) in lines.iter().zip(judged()) {
            let Judged { name, verdict, .. } = judged;
            let begins = [name, verdict, judged.refused, judged.met].join("\t");
            let message = line.strip_prefix(&format!("{begins}\t"));
            let message = message.unwrap_or_else(|| panic!("{form}: {line} is not {begins}"));
            match judged.image {
                Some(_) => assert_eq!(message, "-"),
                // The message stands there without the program's name.
                None => assert!(
                    message.starts_with("\"missing.rom\" cannot be read: "),
                    "{line}"
                ),
            }
        }
    }
}

#[test]
fn quiet_leaves_out_the_good_alone() {
    let place = Workplace::new("verdicts-quiet");
    put_all(&place);
    let quiet = place.tool(&[&["register", "--quiet"][..], &names()].concat());
    assert_eq!(quiet.status, Some(3));
    let heads: Vec<&str> = quiet
        .wrote
        .lines()
        .filter(|line| line.starts_with('"'))
        .collect();
    let due: Vec<String> = judged()
        .iter()
        .filter(|judged| judged.verdict != "good")
        .map(|judged| format!("{:?}: {}", judged.name, judged.headline))
        .collect();
    assert_eq!(heads, due);
    assert_eq!(
        quiet.wrote.lines().last(),
        Some(
            "7 images: 1 good, 2 no boot loader, 2 boot loader without bytes, 1 refused (1 by 4), \
             1 not read"
        )
    );
    // What is left is the whole register of each.
    let rows = quiet.wrote.lines();
    let rows = rows.filter(|line| line.contains("0x03 recovery boot loader"));
    assert_eq!(rows.count(), 5, "{}", quiet.wrote);
    for form in ["json", "csv"] {
        let words = [&["--quiet"][..], &names()].concat();
        let read = read_by_python(&place, "verdicts", form, &words);
        assert_eq!(read.lines().count(), judged().len() - 1, "{form}");
        assert!(!read.contains("\tgood\t"), "{form}: {read}");
    }
}

#[test]
fn json_counts_each_verdict() {
    let place = Workplace::new("verdicts-counted");
    put_all(&place);
    let json = place.tool(&[&["register", "--json"][..], &names()].concat());
    let due = "\n \"summary\": {\"images\": 7, \"good\": 1, \"no_boot_loader\": 2, \
               \"boot_loader_without_bytes\": 2, \"refused\": 1, \"not_read\": 1}\n}\n";
    assert!(json.wrote.ends_with(due), "{}", json.wrote);
}

#[test]
fn a_brief_register_has_a_line_for_each() {
    let place = Workplace::new("verdicts-brief");
    put_all(&place);
    let all = [&["register", "--brief"][..], &names()].concat();
    let brief = place.tool(&all);
    assert_eq!(brief.status, Some(3));
    let rows = [
        "name                    verdict                                                    boot loader  recovery boot loader  secure OS  SMU firmware",
        "\"good.rom\"              good                                                       yes          yes                   -          -",
        "\"none.rom\"              no boot loader                                             -            yes                   -          -",
        "\"other-subprogram.rom\"  no boot loader                                             -            yes                   -          -",
        "\"partition.rom\"         boot loader without bytes, refused 16, entry 0 of level 2  refused 16   yes                   -          -",
        "\"outside.rom\"           boot loader without bytes, refused 7, entry 0 of level 2   refused 7    yes                   -          -",
        "\"broken.rom\"            refused 4, header of level 2                               -            yes                   -          -",
        "\"missing.rom\"           not read                                                   -            -                     -          -",
        "",
        "7 images: 1 good, 2 no boot loader, 2 boot loader without bytes, 1 refused (1 by 4), 1 not read",
    ];
    assert_eq!(brief.wrote, rows.join("\n") + "\n");
    let mut quiet = all.clone();
    quiet.push("--quiet");
    let quiet = place.tool(&quiet);
    assert_eq!(quiet.status, Some(3));
    let left: Vec<&str> = rows[2..].to_vec();
    assert_eq!(quiet.wrote, [&rows[..1], &left].concat().join("\n") + "\n");
}

#[test]
fn only_a_good_image_is_green() {
    let place = Workplace::new("verdicts-colour");
    put_all(&place);
    let script = Path::new(env!("CARGO_MANIFEST_DIR")).join("tests/register.py");
    for judged in judged() {
        let mut command = Command::new("python3");
        command.arg(&script).args(["terminal", "200"]);
        command.args(agree::programs::built("kpalumere"));
        command.args(["register", judged.name]);
        command.current_dir(place.folder()).env("TERM", "xterm");
        command.env_remove("COLUMNS").env_remove("NO_COLOR");
        let shown = Outcome::of(run(command, b"")).wrote;
        let colour = if judged.status == 0 { 32 } else { 31 };
        let head = format!(
            "\x1b[{colour}m{:?}: {}\x1b[0m\n",
            judged.name, judged.headline
        );
        assert!(shown.contains(&head), "{shown}");
        assert_eq!(shown.contains("\x1b[32m"), judged.status == 0, "{shown}");
    }
}

#[test]
fn an_entry_that_holds_a_value_shows_it_and_is_no_fault() {
    let place = Workplace::with_board("verdicts-value");
    let shown = place.tool(&["register", "board.rom"]).wrote;
    let row = shown.lines().find(|line| line.contains("0x0b soft fuse"));
    let row = row.expect("the board has soft fuses");
    assert!(row.contains("  value 0x100000001  "), "{row}");
    assert!(!shown.contains("refused 17"), "{shown}");
    let json = place.tool(&["register", "--json", "board.rom"]).wrote;
    let field = "\"location\": \"0x100000001\", \"value\": \"0x100000001\", \"place\": null, \
                 \"length\": null, \"refused\": null, \"wrong\": null, ";
    assert!(json.contains(field), "{json}");
    // Any other entry has no value, but its number where it has no bytes.
    assert_eq!(json.matches("\"value\": null, ").count(), 8, "{json}");
    let csv = place.tool(&["register", "--csv", "board.rom"]).wrote;
    let row = csv.lines().find(|line| line.contains("soft-fuse-chain"));
    let row = row.expect("the board has soft fuses");
    assert!(row.starts_with("2,entry,board.rom,,,,"), "{row}");
    assert!(row.contains(",0x100000001,0x100000001,135168,"), "{row}");
}

#[test]
fn every_directory_is_shown_and_one_that_stands_above_is_said_to() {
    let place = Workplace::new("verdicts-directories");
    let again = Directory::of(2, vec![entry(0x12, 0, 0x20, 0x3_9000, 1)]);
    place.put("board.rom", with_directories(&two_leads(), &again));
    let shown = place.tool(&["register", "board.rom"]);
    assert_eq!(shown.status, Some(0), "{}", shown.wrote);
    let lines = shown.wrote.lines().filter(|line| line.contains(" at 0x"));
    let lines: Vec<&str> = lines.filter(|line| line.starts_with("  level ")).collect();
    assert_eq!(
        lines,
        [
            "  level 1 at 0x21000, 7 entries",
            "  level 2 at 0x28000, led by entry 3 of level 1, 4 entries",
            "  level 2 at 0x38000, led by entry 5 of level 1, 1 entry",
            "  level 2 at 0x28000, led by entry 6 of level 1: the same directory as that of \
             entry 3, above",
        ]
    );
    let row =
        "0x12 SMU firmware, section 2  0x00        0x20  0x39000   mode 1: from image start  \
               0x39000 to 0x3901f  -";
    assert!(shown.wrote.contains(row), "{}", shown.wrote);
    // The boot loader's row stands in the directory above alone.
    assert_eq!(shown.wrote.matches("0x01 boot loader").count(), 1);
    for form in ["json", "csv"] {
        let read = read_by_python(&place, "directories", form, &["board.rom"]);
        assert_eq!(
            read,
            format!(
                "1\t-\t{LEVEL_ONE}\t7\t-\n2\t3\t{LEVEL_TWO}\t4\t-\n2\t5\t{LEVEL_TWO_AGAIN}\t1\t-\n\
                 2\t6\t{LEVEL_TWO}\t4\t-\n"
            ),
            "{form}"
        );
    }
}

#[test]
fn a_fault_behind_the_lowest_lead_refuses_the_image_and_tells_where() {
    let place = Workplace::new("verdicts-later");
    let repeats = vec![
        entry(0x12, 0, 0x20, 0x3_9000, 1),
        entry(0x12, 0, 0x20, 0x3_9000, 1),
    ];
    let again = Directory::of(2, repeats);
    let [to_the_second, to_the_first] = two_leads();
    let in_the_second = "entry 1 of level 2 at 0x38000";
    for (leads, number, met) in [
        (vec![to_the_second.clone()], 18, in_the_second),
        (
            vec![to_the_first.clone(), to_the_second.clone()],
            18,
            in_the_second,
        ),
        // The lead itself leads nowhere.
        (
            vec![to_the_first, entry(0x40, 7, 0, 0, 3), to_the_second],
            16,
            "entry 6 of level 1 at 0x21000",
        ),
    ] {
        place.put("board.rom", with_directories(&leads, &again));
        let shown = place.tool(&["register", "board.rom"]);
        assert_eq!(shown.status, Some(5), "{}", shown.wrote);
        let head = format!("\"board.rom\": refused {number}: ");
        assert!(shown.wrote.starts_with(&head), "{}", shown.wrote);
        let first = shown.wrote.lines().next().unwrap_or_default();
        assert!(first.ends_with(&format!(" ({met})")), "{first}");
        let mut lines = shown.wrote.lines();
        let line = format!("  another level 2: refused {number}: ");
        assert!(
            lines.any(|shown| shown.starts_with(&line)),
            "{}",
            shown.wrote
        );
        let below = lines.next().unwrap_or_default();
        assert!(below.starts_with(&format!("    {met}: its ")), "{below}");
        // What the calls by level give is shown all the same, the boot loader with it.
        assert!(shown.wrote.contains("0x01 boot loader"), "{}", shown.wrote);
        for form in ["json", "csv"] {
            let read = read_by_python(&place, "verdicts", form, &["board.rom"]);
            let due = format!("board.rom\trefused\t{number}\t{met}\t-\n");
            assert_eq!(read, due, "{form}");
        }
    }
}

#[test]
fn a_boot_loader_in_a_second_level_two_is_found() {
    let place = Workplace::new("verdicts-second");
    let again = Directory::of(2, vec![entry(0x01, 0, 0x20, 0x3_9000, 1)]);
    let mut image = with_directories(&two_leads()[..1], &again);
    let other = Directory::of(2, vec![entry(0x01, 3, 0xC00, 0x1000, 2)]);
    let bytes = other.bytes();
    image[LEVEL_TWO..][..bytes.len()].copy_from_slice(&bytes);
    place.put("board.rom", &image);
    let shown = place.tool(&["register", "board.rom"]);
    assert_eq!(shown.status, Some(0), "{}", shown.wrote);
    // Where that one has another subprogram too, both are told, the first by its place.
    let again = Directory::of(2, vec![entry(0x01, 4, 0x20, 0x3_9000, 1)]);
    let bytes = again.bytes();
    image[LEVEL_TWO_AGAIN..][..bytes.len()].copy_from_slice(&bytes);
    place.put("board.rom", &image);
    let shown = place.tool(&["register", "board.rom"]);
    assert_eq!(shown.status, Some(1), "{}", shown.wrote);
    let head = "\"board.rom\": no boot loader (type 0x01 stands in level 2 at 0x28000 at index 0 \
                with subprogram 0x03, and in 1 more entry)\n";
    assert!(shown.wrote.starts_with(head), "{}", shown.wrote);
}
