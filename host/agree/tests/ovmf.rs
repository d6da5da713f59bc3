//! Firmware that nobody here wrote: the OVMF images of Debian's package `ovmf`. Their GUID tables are listed and looked up by
//! both programs, and a copy's table, rebuilt from nothing, has the same bytes.

use agree::compare::{answers_of, departure, set_side_by_side};
use agree::programs::{built_folder, Program};
use std::collections::BTreeMap;
use std::fs;
use std::path::{Path, PathBuf};

/// The Debian package that holds the images, and the folders that it puts them in.
const PACKAGE: &str = "ovmf";
const FOLDERS: [&str; 2] = ["/usr/share/OVMF", "/usr/share/ovmf"];

/// The footer's GUID, as it stands in an image.
const FOOTER: [u8; 16] = [
    0xde, 0x82, 0xb5, 0x96, 0xb2, 0x1f, 0xf7, 0x45, 0xba, 0xea, 0xa3, 0x66, 0xc5, 0x5a, 0x08, 0x2d,
];
/// The GUIDs of source 004 in its order: reset block, secret block, hashes table.
const KNOWN: [&str; 3] = [
    "00f771de-1a7e-4fcb-890e-68c77e2fb44e",
    "4c2eb361-7d9b-4cc3-8081-127c90d3d294",
    "7255371f-3a3b-4b04-927b-1da6efa8d454",
];
/// GUIDs that no entry has: the footer's own, and one of the tests.
const ABSENT: [&str; 2] = [
    "96b582de-1fb2-45f7-baea-a366c55a082d",
    "12345678-9abc-def0-1234-56789abcdef0",
];

/// An entry of a table, as this test reads it.
struct Entry {
    guid: String,
    /// Where its data lie in the image.
    place: usize,
    length: usize,
}

/// A table, as this test reads it: the total, and the entries from the footer on.
struct Table {
    total: usize,
    entries: Vec<Entry>,
}

/// Every image of the package, each once: some names lead to the same file.
fn images() -> Vec<PathBuf> {
    let mut images: Vec<PathBuf> = FOLDERS
        .iter()
        .filter_map(|folder| fs::read_dir(folder).ok())
        .flatten()
        .filter_map(|file| fs::canonicalize(file.ok()?.path()).ok())
        .filter(|path| path.extension().map_or(false, |ending| ending == "fd"))
        .collect();
    images.sort();
    images.dedup();
    assert!(
        !images.is_empty(),
        "there is no OVMF image in {FOLDERS:?}: install Debian's package {PACKAGE}, as ./test does \
         (apt-get install -y --no-install-recommends {PACKAGE})"
    );
    images
}

fn number(bytes: &[u8], at: usize) -> usize {
    usize::from(bytes[at]) + 256 * usize::from(bytes[at + 1])
}

fn hex(bytes: &[u8]) -> String {
    if bytes.is_empty() {
        return String::from("-");
    }
    bytes.iter().map(|byte| format!("{byte:02x}")).collect()
}

/// A GUID's text: its first three fields are little-endian.
fn text_of(guid: &[u8]) -> String {
    let field = |places: &[usize]| -> String {
        places
            .iter()
            .map(|&place| format!("{:02x}", guid[place]))
            .collect()
    };
    [
        field(&[3, 2, 1, 0]),
        field(&[5, 4]),
        field(&[7, 6]),
        field(&[8, 9]),
        field(&[10, 11, 12, 13, 14, 15]),
    ]
    .join("-")
}

/// A GUID that differs from another in its last digit alone.
fn one_digit_off(guid: &str) -> String {
    let (first, last) = guid.split_at(guid.len() - 1);
    format!("{first}{}", if last == "0" { '1' } else { '0' })
}

/// The table of an image, by this test's own reading; none where there is no footer. A footer before a table that cannot
/// be read stops the test: no image of the package has one.
fn table_of(image: &[u8]) -> Option<Table> {
    let footer = image.len() - 48;
    if image[footer..footer + 16] != FOOTER {
        return None;
    }
    let total = number(image, footer - 2);
    let first = image.len() - 32 - total;
    let mut end = footer - 2;
    let mut entries = Vec::new();
    while end > first {
        let guid = end - 16;
        let start = end - number(image, guid - 2);
        assert!(
            first <= start && start + 18 <= end,
            "the table is not filled"
        );
        entries.push(Entry {
            guid: text_of(&image[guid..end]),
            place: start,
            length: guid - 2 - start,
        });
        end = start;
    }
    Some(Table { total, entries })
}

/// The answer to `digest`.
fn digest(bytes: &[u8]) -> String {
    let mixed = |sum: u64, &byte: &u8| (sum ^ u64::from(byte)).wrapping_mul(0x100_0000_01b3);
    let sum = bytes.iter().fold(0xcbf2_9ce4_8422_2325, mixed);
    format!("digest length={} fnv=0x{sum:016x}", bytes.len())
}

/// Calls, with the answer that each must have.
#[derive(Default)]
struct Script {
    calls: String,
    answers: String,
}

impl Script {
    fn ask(&mut self, call: &str, answer: &str) {
        self.calls += &format!("{call}\n");
        self.answers += &format!("{answer}\n");
    }

    /// Both programs answer so. Tells what each answered, line by line.
    fn both_answer(&self, image: &Path) -> [Vec<Vec<u8>>; 2] {
        [Program::tool(), Program::second()].map(|program| {
            let run = program.answers_to(self.calls.as_bytes(), &built_folder());
            let expected = answers_of(self.answers.as_bytes());
            let told = departure(self.calls.as_bytes(), &expected, 0, &run);
            assert_eq!(told, None, "{}, on {}", program.name, image.display());
            answers_of(&run.answers)
        })
    }
}

/// All entries of an image are listed and found, with their data. Tells the data as the tool showed them, from the footer on.
fn list(path: &Path, image: &[u8], table: &Table) -> Vec<String> {
    let mut script = Script::default();
    let count = table.entries.len();
    script.ask(
        &format!("file i {}", path.display()),
        &format!("ok length={}", image.len()),
    );
    script.ask("digest i", &digest(image));
    script.ask(
        "guids i",
        &format!("ok total={} entries={count}", table.total),
    );
    let guids = table.entries.iter().map(|entry| entry.guid.clone());
    let near = guids.clone().map(|guid| one_digit_off(&guid));
    let known = KNOWN.iter().chain(&ABSENT).map(|guid| guid.to_string());
    for guid in guids.chain(near).chain(known) {
        // The one nearest the footer is found.
        let answer = match table.entries.iter().position(|entry| entry.guid == guid) {
            None => format!("refused 8 tested={count}"),
            Some(at) => {
                let Entry { place, length, .. } = table.entries[at];
                format!("ok place=0x{place:x} length={length} tested={}", at + 1)
            }
        };
        script.ask(&format!("guid-find i {guid}"), &answer);
    }
    let before = script.answers.lines().count();
    for Entry { place, length, .. } in &table.entries {
        let data = &image[*place..place + length];
        script.ask(
            &format!("show i {place} {length}"),
            &format!("bytes {}", hex(data)),
        );
    }
    script.ask("digest i", &digest(image));
    let [tool, _] = script.both_answer(path);
    let shown = tool[before..before + count].iter().map(|answer| {
        let answer = String::from_utf8_lossy(answer);
        answer.trim_start_matches("bytes ").to_string()
    });
    shown.collect()
}

/// A copy's table is zeroed, started and extended by each entry in order from the footer: the copy has the same bytes.
fn rebuild(path: &Path, image: &[u8], table: &Table, data: &[String]) {
    let mut script = Script::default();
    let length = format!("ok length={}", image.len());
    let first = image.len() - 32 - table.total;
    let mut zeroed = image.to_vec();
    zeroed[first..first + table.total].fill(0);
    script.ask(&format!("file i {}", path.display()), &length);
    script.ask("copy c i", &length);
    script.ask(
        &format!("patch c {first} {}", "00".repeat(table.total)),
        "ok",
    );
    script.ask("digest c", &digest(&zeroed));
    script.ask("guids c", "refused 2");
    script.ask("guid-start c", "ok");
    script.ask("guids c", "ok total=18 entries=0");
    let mut total = 18;
    for (entry, data) in table.entries.iter().zip(data) {
        total += 18 + entry.length;
        script.ask(
            &format!("guid-extend c {} {data}", entry.guid),
            &format!("ok total={total}"),
        );
    }
    assert_eq!(total, table.total);
    script.ask("digest c", &digest(image));
    script.ask("digest i", &digest(image));
    let bytes = hex(&image[first..first + table.total]);
    script.ask(
        &format!("show c {first} {}", table.total),
        &format!("bytes {bytes}"),
    );
    // One entry more, over the bytes that stand before the table in real firmware.
    let answer = if image[first - 18..first].iter().all(|&byte| byte == 0) {
        format!("ok total={}", total + 18)
    } else {
        String::from("refused 13")
    };
    script.ask(&format!("guid-extend c {} -", ABSENT[1]), &answer);
    if answer == "refused 13" {
        script.ask("digest c", &digest(image));
    }
    script.both_answer(path);
}

#[test]
fn every_table_is_listed_and_rebuilt_from_nothing() {
    let mut seen: BTreeMap<(usize, usize), Vec<PathBuf>> = BTreeMap::new();
    for path in images() {
        let image = fs::read(&path).expect("an image can be read");
        if let Some(table) = table_of(&image) {
            let data = list(&path, &image, &table);
            rebuild(&path, &image, &table, &data);
            let kind = (table.total, table.entries.len());
            seen.entry(kind).or_default().push(path);
        }
    }
    for kind in [(0x5c, 3), (0x88, 5)] {
        let (total, entries) = kind;
        assert!(
            seen.contains_key(&kind),
            "no image has a table of {total} bytes with {entries} entries; there are {seen:?}"
        );
    }
}

#[test]
fn images_without_a_table_are_refused_alike() {
    let mut seen = 0;
    for path in images() {
        let image = fs::read(&path).expect("an image can be read");
        if table_of(&image).is_some() {
            continue;
        }
        seen += 1;
        let mut script = format!("file i {}\nguids i\n", path.display());
        for guid in KNOWN.iter().chain(&ABSENT) {
            script += &format!("guid-find i {guid}\n");
        }
        script += &format!("guid-extend i {} 00\ndigest i\n", KNOWN[0]);
        let (tool, second) = (Program::tool(), Program::second());
        let side = set_side_by_side(&tool, &second, script.as_bytes(), &built_folder());
        let ([answers, _], parted) = (side.answers, side.parted);
        assert_eq!(parted, None, "on {}", path.display());
        let answers: Vec<_> = answers
            .iter()
            .map(|answer| String::from_utf8_lossy(answer))
            .collect();
        // No footer: 2 from every call on the table, and nothing is written.
        let last = answers.len() - 1;
        assert_eq!(last, 8, "{answers:?}");
        assert!(
            answers[1..last].iter().all(|answer| answer == "refused 2"),
            "{answers:?}"
        );
        assert_eq!(answers[last], digest(&image));
    }
    assert!(seen > 0, "every image of {PACKAGE} has a table");
}

#[test]
fn no_image_is_a_flash_image_of_this_paper() {
    for path in images() {
        let script = format!(
            "file i {}\ndirectory i 1\ndirectory i 2\nentry i 1 0\nbytes i 1 0\nfind i 1 1 0\nfind-image i 1 0\n",
            path.display()
        );
        let (tool, second) = (Program::tool(), Program::second());
        let side = set_side_by_side(&tool, &second, script.as_bytes(), &built_folder());
        let ([answers, _], parted) = (side.answers, side.parted);
        assert_eq!(parted, None, "on {}", path.display());
        assert!(
            answers[1..].iter().all(|answer| answer == b"refused 2"),
            "{} has an EFS",
            path.display()
        );
    }
}
