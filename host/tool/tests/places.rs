//! Where a refusal was met, what stands there and what should, as every command tells it: for each number in a header and in an entry, of
//! both levels, to people and to programs.

use agree::board::{entry, Board, LENGTH, LEVEL_ONE, LEVEL_TWO};
use agree::workplace::Workplace;

/// A fault of an image, and all that is told of it.
struct Fault {
    image: Vec<u8>,
    /// The level at which a question meets it. What level one is refused by refuses level two as well.
    asked: &'static str,
    told: &'static str,
    /// The level that is told, the entry or none for the header, and where the directory begins.
    met: (u64, Option<u64>, usize),
    /// The field that is wrong and its bytes, what stands there and what should.
    wrong: [u64; 4],
    sentence: String,
}

impl Fault {
    fn number(&self) -> &str {
        let number = self.told.strip_prefix("refused ").expect("a refusal");
        number.split(':').next().expect("it has a number")
    }

    /// `entry 300 of level 1`.
    fn part(&self) -> String {
        let (level, index, _) = self.met;
        match index {
            Some(index) => format!("entry {index} of level {level}"),
            None => format!("header of level {level}"),
        }
    }

    /// `entry 300 of level 1 at 0x21000`.
    fn place(&self) -> String {
        format!("{} at {:#x}", self.part(), self.met.2)
    }

    /// What to do next, a line each.
    fn hints(&self) -> Vec<String> {
        let first = match (self.number(), self.met.1) {
            ("2" | "7", _) => Some(
                "Is the file as long as the flash part? Its last byte is taken for the one at \
                 0xffffffff, and all physical addresses go by that.",
            ),
            ("5", None) => Some(
                "This is how amdfwtool, coreboot's tool, writes a directory: its size and more \
                 stand in that word. Document 01 asks for zero there.",
            ),
            _ => None,
        };
        let explain = format!(
            "`kpalumere explain {}` says what usually causes this, and what to look at.",
            self.number()
        );
        first
            .map(String::from)
            .into_iter()
            .chain([explain])
            .collect()
    }

    /// What a command says that was asked one thing, a line each; with an end of the first.
    fn lines(&self, end: &str) -> Vec<String> {
        let found = format!("{}: {}", self.place(), self.sentence);
        [format!("{}{end}", self.told), found]
            .into_iter()
            .chain(self.hints())
            .collect()
    }

    /// The same as it is written.
    fn text(&self, end: &str) -> String {
        self.lines(end).join("\n  ") + "\n"
    }

    /// The fields for programs, from the number on.
    fn fields(&self, parted: &str) -> String {
        let (level, index, directory) = self.met;
        let index = index.map_or(String::from("null"), |index| index.to_string());
        let [field, bytes, stands, should] = self.wrong;
        [
            format!(
                "\"met\": {{\"level\": {level}, \"index\": {index}, \"directory\": {directory}}}"
            ),
            format!(
                "\"wrong\": {{\"field\": {field}, \"bytes\": {bytes}, \"stands\": \"{stands:#x}\", \
                 \"should\": \"{should:#x}\"}}"
            ),
        ]
        .join(parted)
    }

    /// The cells for programs.
    fn cells(&self) -> String {
        let (level, index, directory) = self.met;
        let index = index.map_or(String::new(), |index| index.to_string());
        let [field, bytes, stands, should] = self.wrong;
        format!(",{level},{index},{directory},{field},{bytes},{stands:#x},{should:#x}\n")
    }
}

/// Level one begins so many bytes before the image's end.
fn one_at_the_end(length: usize) -> Vec<u8> {
    let place = LENGTH - length;
    let mut image = Board::with(|board| board.late = place as u32);
    let one = Board::new().one.bytes();
    image[place..].copy_from_slice(&one[..length]);
    image
}

/// The checksum that stands in the header of a directory.
fn checksum(bytes: &[u8]) -> u64 {
    u64::from(u32::from_le_bytes([bytes[4], bytes[5], bytes[6], bytes[7]]))
}

fn in_headers() -> Vec<Fault> {
    let good = Board::new();
    let [sum_of_one, sum_of_two] = [&good.one, &good.two].map(|level| checksum(&level.bytes()));
    let [psp, pl2] = [0x5053_5024, 0x324C_5024];
    let one = LEVEL_ONE as u64;
    let two = LEVEL_TWO as u64;
    let end = LENGTH as u64;
    let short = "refused 1: too few bytes";
    let cookie = "refused 2: signature not found";
    let total = "refused 3: length or count outside its limits";
    let sum = "refused 4: checksum is wrong";
    let reserved = "refused 5: reserved bits set, or a value that is not allowed";
    let level_one = |told, image, wrong, sentence: &str| Fault {
        image,
        asked: "1",
        told,
        met: (1, None, LEVEL_ONE),
        wrong,
        sentence: sentence.to_string(),
    };
    let level_two = |told, image, wrong, sentence: &str| Fault {
        asked: "2",
        met: (2, None, LEVEL_TWO),
        ..level_one(told, image, wrong, sentence)
    };
    vec![
        Fault {
            met: (1, None, LENGTH - 1),
            ..level_one(
                short,
                one_at_the_end(1),
                [end - 1, 16, 1, 16],
                "it takes 16 bytes from 0x7ffff on, and the image has 1 there",
            )
        },
        Fault {
            met: (1, None, LENGTH - 95),
            ..level_one(
                short,
                one_at_the_end(95),
                [end - 79, 80, 79, 80],
                "its entries take 80 bytes from 0x7ffb1 on, and the image has 79 there",
            )
        },
        level_one(
            cookie,
            Board::with(|board| board.one.cookie = *b"$BHD"),
            [one, 4, 0x4448_4224, psp],
            "its cookie at 0x21000 is $BHD (24 42 48 44), and $PSP (24 50 53 50) is due",
        ),
        level_one(
            total,
            Board::with(|board| board.one.total = 513),
            [one + 8, 4, 513, 512],
            "its total at 0x21008 is 513, and at most 512 entries may stand in a directory",
        ),
        level_one(
            sum,
            Board::with(|board| board.one.wrong = 1),
            [one + 4, 4, sum_of_one ^ 1, sum_of_one],
            &format!(
                "its checksum at 0x21004 is {:#010x}, and the bytes behind that sum to \
                 {sum_of_one:#010x}",
                sum_of_one ^ 1
            ),
        ),
        level_one(
            reserved,
            Board::with(|board| board.one.reserved = 0x410),
            [one + 12, 4, 0x410, 0],
            "its last word, at 0x2100c, is 0x00000410, and must be 0",
        ),
        Fault {
            met: (2, None, LENGTH),
            ..level_two(
                short,
                Board::with(|board| board.one.entries[3] = entry(0x40, 0, 0, end, 1)),
                [end, 16, 0, 16],
                "it takes 16 bytes from 0x80000 on, and the image has 0 there",
            )
        },
        level_two(
            cookie,
            Board::with(|board| board.two.cookie = *b"\0PL2"),
            [two, 4, 0x324C_5000, pl2],
            "its cookie at 0x28000 is 00 50 4c 32, and $PL2 (24 50 4c 32) is due",
        ),
        level_two(
            total,
            Board::with(|board| board.two.total = u32::MAX),
            [two + 8, 4, 0xFFFF_FFFF, 512],
            "its total at 0x28008 is 4294967295, and at most 512 entries may stand in a directory",
        ),
        level_two(
            sum,
            Board::with(|board| board.two.wrong = 0x8000_0000),
            [two + 4, 4, sum_of_two ^ 0x8000_0000, sum_of_two],
            &format!(
                "its checksum at 0x28004 is {:#010x}, and the bytes behind that sum to \
                 {sum_of_two:#010x}",
                sum_of_two ^ 0x8000_0000
            ),
        ),
        level_two(
            reserved,
            Board::with(|board| board.two.reserved = u32::MAX),
            [two + 12, 4, 0xFFFF_FFFF, 0],
            "its last word, at 0x2800c, is 0xffffffff, and must be 0",
        ),
    ]
}

fn in_entries() -> Vec<Fault> {
    let one = LEVEL_ONE as u64 + 16;
    let two = LEVEL_TWO as u64 + 16;
    let reserved = "refused 5: reserved bits set, or a value that is not allowed";
    let misplaced = "refused 14: pointer to level 2 inside level 2";
    let repeats = "refused 18: entry repeats an earlier one";
    let level_one = |told, image, index, wrong, sentence: &str| Fault {
        image,
        asked: "1",
        told,
        met: (1, Some(index), LEVEL_ONE),
        wrong,
        sentence: sentence.to_string(),
    };
    let level_two = |told, image, index, wrong, sentence: &str| Fault {
        asked: "2",
        met: (2, Some(index), LEVEL_TWO),
        ..level_one(told, image, index, wrong, sentence)
    };
    vec![
        level_one(
            reserved,
            Board::with(|board| board.one.entries[4].reserved = 0x8001),
            4,
            [one + 66, 2, 0x8001, 0],
            "its bytes 2 and 3, at 0x21052, hold 0x8001, and must be 0",
        ),
        // The public key again, last, with another size and place.
        level_one(
            repeats,
            Board::with(|board| board.one.entries[4] = entry(0x00, 0, 0x100, 0x1000, 1)),
            4,
            [one + 64, 1, 0, 0],
            "its type at 0x21050 is 0x00 and its subprogram 0x00, which entry 0 has already",
        ),
        // In both levels: level one is met first.
        level_one(
            repeats,
            Board::with(|board| {
                board.one.entries[2] = entry(0x03, 0, 0, 0, 1);
                board.two.entries[3] = entry(0x01, 0, 0, 0, 1);
            }),
            2,
            [one + 32, 1, 3, 1],
            "its type at 0x21030 is 0x03 and its subprogram 0x00, which entry 1 has already",
        ),
        level_two(
            reserved,
            Board::with(|board| board.two.entries[3].reserved = 1),
            3,
            [two + 50, 2, 1, 0],
            "its bytes 2 and 3, at 0x28042, hold 0x0001, and must be 0",
        ),
        level_two(
            misplaced,
            Board::with(|board| board.two.entries[1] = entry(0x40, 9, 0, 0, 0)),
            1,
            [two + 16, 1, 0x40, 1],
            "its type at 0x28020 is 0x40, which may stand in level 1 alone",
        ),
        level_two(
            repeats,
            Board::with(|board| board.two.entries[2] = entry(0x08, 1, 0, 0, 0)),
            2,
            [two + 32, 1, 8, 1],
            "its type at 0x28030 is 0x08 and its subprogram 0x01, which entry 1 has already",
        ),
    ]
}

/// Faults of the entry of level one that leads to level two.
fn in_leads() -> Vec<Fault> {
    let lead = LEVEL_ONE as u64 + 16 + 3 * 16;
    let led = |told, word: u64, wrong, sentence: &str| Fault {
        image: Board::with(|board| board.one.entries[3].word = word),
        asked: "2",
        told,
        met: (1, Some(3), LEVEL_ONE),
        wrong,
        sentence: sentence.to_string(),
    };
    vec![
        led(
            "refused 16: address mode 3",
            3 << 62 | 0x28000,
            [lead + 8, 8, 3, 2],
            "its location at 0x21048 has mode 3, and the highest that is followed is 2",
        ),
        led(
            "refused 7: address outside the image",
            1 << 62 | (LENGTH as u64 + 1),
            [lead + 8, 8, LENGTH as u64 + 1, LENGTH as u64],
            "its location at 0x21048 is 0x80001, and its bytes do not lie in the image, which \
             ends at 0x80000",
        ),
        // By a physical address where the window ends.
        led(
            "refused 7: address outside the image",
            1 << 32,
            [lead + 8, 8, 1 << 32, LENGTH as u64],
            "its location at 0x21048 is 0x100000000, and its bytes do not lie in the image, which \
             ends at 0x80000",
        ),
    ]
}

fn faults() -> Vec<Fault> {
    let all = in_headers().into_iter().chain(in_entries());
    all.chain(in_leads()).collect()
}

/// The questions that meet a fault, but that for the whole image.
fn questions(fault: &Fault) -> Vec<Vec<&'static str>> {
    let level = fault.asked;
    let mut all = vec![
        vec!["find", "bad.rom", "0x77", "0", "--level", level],
        vec!["entry", "bad.rom", level, "0"],
    ];
    // Level two is reached through level one.
    if level == "1" {
        all.push(vec!["find", "bad.rom", "0x77", "0", "--level", "2"]);
        all.push(vec!["entry", "bad.rom", "2", "0"]);
    }
    all
}

#[test]
fn find_and_entry_tell_where_what_stands_there_and_what_should() {
    let place = Workplace::new("places-find");
    for fault in faults() {
        place.put("bad.rom", &fault.image);
        let mut all = questions(&fault);
        all.push(vec!["find", "bad.rom", "0x77", "0"]);
        for words in all {
            place.tool(&words).expect(5, &fault.text(""));
            let json = place.tool(&[&words[..], &["--json"]].concat());
            assert_eq!(json.status, Some(5));
            let fields = format!("\"refused\": {}, {}, ", fault.number(), fault.fields(", "));
            assert!(json.wrote.contains(&fields), "{fields}{json:?}");
        }
        // What is wrong in level two keeps nobody from level one.
        let one = place.tool(&["entry", "bad.rom", "1", "0"]);
        assert_eq!(one.status == Some(0), fault.asked == "2", "{one:?}");
    }
}

#[test]
fn extract_tells_the_same_and_writes_nothing() {
    let place = Workplace::new("places-extract");
    for fault in faults() {
        place.put("bad.rom", &fault.image);
        let text = fault.text("; nothing is written");
        let words = ["extract", "bad.rom", fault.asked, "0", "new.bin"];
        place.tool(&words).expect(5, &text);
        let words = ["extract", "bad.rom", "--all", "new"];
        place.tool(&words).expect(5, &text);
        // To standard output go the bytes or nothing.
        let outcome = place.tool(&["extract", "bad.rom", fault.asked, "0", "-"]);
        assert_eq!((outcome.status, outcome.wrote.as_str()), (Some(5), ""));
        let said = fault.lines("; nothing is written").into_iter();
        let said: String = said.map(|line| format!("kpalumere: {line}\n")).collect();
        assert_eq!(outcome.said, said);
    }
    assert_eq!(place.names(), ["bad.rom"]);
}

#[test]
fn the_register_tells_it_in_every_form() {
    let place = Workplace::new("places-register");
    for fault in faults() {
        place.put("bad.rom", &fault.image);
        let (told, found) = (fault.told, format!("{}: {}", fault.place(), fault.sentence));
        let shown = place.tool(&["register", "bad.rom"]);
        assert_eq!((shown.status, shown.said.as_str()), (Some(5), ""));
        let head = format!("\"bad.rom\": {told} ({})\n", fault.place());
        assert!(shown.wrote.starts_with(&head), "{head}{}", shown.wrote);
        let lines = format!("\n  level {}: {told}\n    {found}\n", fault.asked);
        assert!(shown.wrote.contains(&lines), "{lines}{}", shown.wrote);
        let hints = format!("\n\n  {}\n", fault.hints().join("\n  "));
        assert!(shown.wrote.ends_with(&hints), "{hints}{}", shown.wrote);
        // It is said once.
        assert_eq!(shown.wrote.matches(&fault.sentence).count(), 1);
        let brief = place.tool(&["register", "--brief", "bad.rom"]);
        let cell = format!(
            "\"bad.rom\"  refused {}, {}  ",
            fault.number(),
            fault.part()
        );
        assert!(brief.wrote.contains(&cell), "{cell}{}", brief.wrote);
        let json = place.tool(&["register", "--json", "bad.rom"]);
        let fields = format!(
            "\"verdict\": \"refused\",\n   \"refused\": {},\n   \"where\": \"{}\",\n   {},\n",
            fault.number(),
            fault.place(),
            fault.fields(",\n   ")
        );
        assert!(json.wrote.contains(&fields), "{fields}{}", json.wrote);
        let fields = format!(
            "\"total\": null, \"refused\": {}, {}, \"repeat\": ",
            fault.number(),
            fault.fields(", ")
        );
        assert!(json.wrote.contains(&fields), "{fields}{}", json.wrote);
        let csv = place.tool(&["register", "--csv", "bad.rom"]);
        for row in ["image", "directory", "asked"] {
            let begins = format!("2,{row},bad.rom,");
            let told = csv
                .wrote
                .split_inclusive('\n')
                .any(|line| line.starts_with(&begins) && line.ends_with(&fault.cells()));
            assert!(told, "{row}: {}{}", fault.cells(), csv.wrote);
        }
    }
}

#[test]
fn a_directory_that_is_named_by_its_place_has_the_level_of_its_cookie() {
    let place = Workplace::new("places-at");
    for fault in faults() {
        let (level, _, directory) = fault.met;
        // A cookie that is wrong, or cut off, tells no level; and a lead is none of the directory that it leads to.
        let by_cookie =
            fault.number() != "2" && fault.wrong[1] != 16 && fault.asked == level.to_string();
        if by_cookie {
            place.put("bad.rom", &fault.image);
            let at = directory.to_string();
            let words = ["entry", "bad.rom", "--at", &at, "0"];
            place.tool(&words).expect(5, &fault.text(""));
            let words = ["extract", "bad.rom", "--at", &at, "0", "new.bin"];
            let text = fault.text("; nothing is written");
            place.tool(&words).expect(5, &text);
        }
    }
    assert_eq!(place.names(), ["bad.rom"]);
}

#[test]
fn where_no_cookie_tells_the_level_both_cookies_are_due() {
    let place = Workplace::with_board("places-no-level");
    let length = "  Is the file as long as the flash part? Its last byte is taken for the one at \
                  0xffffffff, and all physical addresses go by that.\n";
    for (at, number, title, sentence, length, fields) in [
        (
            "0x21004",
            2,
            "signature not found",
            "its cookie at 0x21004 is SUM, and $PSP (24 50 53 50) or $PL2 (24 50 4c 32) is due",
            length,
            "\"met\": {\"level\": 0, \"index\": null, \"directory\": 135172}, \
             \"wrong\": {\"field\": 135172, \"bytes\": 4, \"stands\": \"0x",
        ),
        (
            "0x7fff8",
            1,
            "too few bytes",
            "it takes 16 bytes from 0x7fff8 on, and the image has 8 there",
            "",
            "\"met\": {\"level\": 0, \"index\": null, \"directory\": 524280}, \
             \"wrong\": {\"field\": 524280, \"bytes\": 16, \"stands\": \"0x8\", \"should\": \"0x10\"}",
        ),
    ] {
        // The checksum of level one, whose bytes are no letters.
        let sum = &Board::new().one.bytes()[4..8];
        let sum: Vec<String> = sum.iter().map(|byte| format!("{byte:02x}")).collect();
        let sentence = sentence.replace("SUM", &sum.join(" "));
        let text = |end: &str| {
            format!(
                "refused {number}: {title}{end}\n  \
                   header of the directory at {at}: {sentence}\n\
                 {length}  \
                   `kpalumere explain {number}` says what usually causes this, and what to look at.\n"
            )
        };
        place
            .tool(&["entry", "board.rom", "--at", at, "0"])
            .expect(5, &text(""));
        place
            .tool(&["extract", "board.rom", "--at", at, "0", "new.bin"])
            .expect(5, &text("; nothing is written"));
        let json = place.tool(&["entry", "board.rom", "--at", at, "0", "--json"]);
        assert!(json.wrote.contains(fields), "{fields}{json:?}");
    }
    assert_eq!(place.names(), ["board.rom"]);
}

#[test]
fn an_entry_whose_bytes_are_refused_tells_its_own_field() {
    let place = Workplace::with_board("places-parts");
    let value = "its type at 0x21030 is 0x0b, so that its location is a value";
    let mode = "its location at 0x21058 has mode 3, and the highest that is followed is 2";
    let outside = "its location at 0x28038 is 0x7ff00, and its bytes do not lie in the image, \
                   which ends at 0x80000";
    let length =
        "\n  Is the file as long as the flash part? Its last byte is taken for the one at \
                  0xffffffff, and all physical addresses go by that.";
    for (level, index, directory, number, title, why, length, fields) in [
        ("1", "2", "0x21000", 17, "the entry holds a value", value, "", None),
        (
            "1",
            "4",
            "0x21000",
            16,
            "address mode 3",
            mode,
            "",
            Some("{\"field\": 135256, \"bytes\": 8, \"stands\": \"0x3\", \"should\": \"0x2\"}"),
        ),
        (
            "2",
            "2",
            "0x28000",
            7,
            "address outside the image",
            outside,
            length,
            Some("{\"field\": 163896, \"bytes\": 8, \"stands\": \"0x7ff00\", \"should\": \"0x80000\"}"),
        ),
    ] {
        place.tool(&["extract", "board.rom", level, index, "new.bin"]).expect(
            5,
            &format!(
                "refused {number}: {title}; nothing is written\n  \
                   entry {index} of level {level} at {directory}: {why}{length}\n  \
                   `kpalumere explain {number}` says what usually causes this, and what to look at.\n"
            ),
        );
        // To look at an entry that holds a value is in order.
        let shown = place.tool(&["entry", "board.rom", level, index]);
        let lines = format!(
            "\n  bytes       refused {number}: {title}\n  why         {why}\n  explain     kpalumere \
             explain {number}\n"
        );
        assert_eq!(shown.wrote.ends_with(&lines), fields.is_some(), "{shown:?}");
        let json = place.tool(&["entry", "board.rom", level, index, "--json"]);
        let wrong = match fields {
            Some(fields) => format!("\"refused\": {number}, \"wrong\": {fields}, "),
            None => String::from("\"refused\": null, \"wrong\": null, "),
        };
        assert!(json.wrote.contains(&wrong), "{wrong}{json:?}");
        // The entry is given, so nothing else is refused.
        let given = "\"refused\": null, \"met\": null, \"wrong\": null, \"entry\": ";
        assert!(json.wrote.contains(given), "{json:?}");
        // The register has the same in its entries, whose rows are all asked for at once.
        let register = place.tool(&["register", "board.rom", "--json"]);
        assert!(register.wrote.contains(&wrong), "{wrong}{register:?}");
    }
}

#[test]
fn a_boot_loader_without_bytes_tells_its_field() {
    let place = Workplace::new("places-boot-loader");
    place.put(
        "bad.rom",
        Board::with(|board| board.two.entries[0] = entry(0x01, 0, 0xC00, 0x1000, 3)),
    );
    let brief = place.tool(&["register", "--brief", "bad.rom"]);
    let cell = "  boot loader without bytes, refused 16, entry 0 of level 2  refused 16   ";
    assert!(brief.wrote.contains(cell), "{}", brief.wrote);
    let json = place.tool(&["register", "--json", "bad.rom"]);
    let fields = "\"refused\": 16,\n   \"where\": \"entry 0 of level 2 at 0x28000\",\n   \
                  \"met\": {\"level\": 2, \"index\": 0, \"directory\": 163840},\n   \
                  \"wrong\": {\"field\": 163864, \"bytes\": 8, \"stands\": \"0x3\", \"should\": \"0x2\"},\n";
    assert!(json.wrote.contains(fields), "{}", json.wrote);
}

#[test]
fn an_entry_that_repeats_is_told_where_the_library_does_not_name_both() {
    /// Where a second directory of level two begins.
    const LATER: usize = 0x3_0000;
    let place = Workplace::new("places-later");
    let mut board = Board::new();
    board.one.entries[4] = entry(0x40, 1, 0x400, LATER as u64, 1);
    board.two.entries[2].size = 0;
    let mut image = board.bytes();
    board.two.entries[2] = entry(0x08, 1, 0, 0, 0);
    let later = board.two.bytes();
    image[LATER..LATER + later.len()].copy_from_slice(&later);
    place.put("bad.rom", &image);
    let found = "entry 2 of level 2 at 0x30000: its type at 0x30030 is 0x08, which entry 1 has \
                 already with the same subprogram";
    let text = format!(
        "refused 18: entry repeats an earlier one\n  {found}\n  \
           `kpalumere explain 18` says what usually causes this, and what to look at.\n"
    );
    for words in [
        &["find", "bad.rom", "0x77", "0"][..],
        &["entry", "bad.rom", "--at", "0x30000", "0"],
    ] {
        place.tool(words).expect(5, &text);
    }
    let shown = place.tool(&["register", "bad.rom"]).wrote;
    let lines =
        format!("\n  another level 2: refused 18: entry repeats an earlier one\n    {found}\n");
    assert!(shown.contains(&lines), "{shown}");
}

#[test]
fn what_is_met_in_no_directory_tells_no_place() {
    let place = Workplace::with_board("places-none");
    place.put("empty.rom", []);
    place.put("no-efs.rom", vec![0; 1 << 20]);
    place.put("no-pointer.rom", Board::with(|board| board.late = 0));
    place.put(
        "astray.rom",
        Board::with(|board| board.late = LENGTH as u32),
    );
    for (image, number) in [
        ("empty.rom", 15),
        ("no-efs.rom", 2),
        ("no-pointer.rom", 8),
        ("astray.rom", 7),
    ] {
        let text = place.tool(&["entry", image, "1", "0"]).wrote;
        assert_eq!(text.lines().count(), 1, "{text}");
        assert!(text.starts_with(&format!("refused {number}: ")), "{text}");
        let json = place.tool(&["entry", image, "1", "0", "--json"]).wrote;
        let fields = format!("\"refused\": {number}, \"met\": null, \"wrong\": null, ");
        assert!(json.contains(&fields), "{json}");
        let register = place.tool(&["register", "--json", image]).wrote;
        assert_eq!(register.matches("\"met\": null").count(), 7, "{register}");
        assert_eq!(register.matches("\"wrong\": null").count(), 7, "{register}");
        let csv = place.tool(&["register", "--csv", image]).wrote;
        let rows = csv.lines().skip(1);
        assert!(rows.clone().all(|row| row.ends_with(",,,,,,,")), "{csv}");
        assert_eq!(rows.count(), 7, "{csv}");
    }
    // Nor does what was asked for and is not there.
    for words in [
        &["entry", "board.rom", "1", "5"][..],
        &["entry", "board.rom", "3", "0"],
        &["entry", "board.rom", "--at", "0x80001", "0"],
        &["find", "board.rom", "0x77", "0"],
    ] {
        let json = place.tool(&[words, &["--json"]].concat()).wrote;
        assert!(
            json.contains(", \"met\": null, \"wrong\": null, "),
            "{json}"
        );
        assert_eq!(place.tool(words).wrote.lines().count(), 1, "{words:?}");
    }
}

// ---- the samples

#[test]
fn entry_300_of_301_is_named_by_every_command() {
    let place = Workplace::new("places-300");
    place.tool(&["samples", "six"]);
    let image = "six/refused/entry-300-of-301.rom";
    let found = "entry 300 of level 1 at 0x1000: its bytes 2 and 3, at 0x22d2, hold 0x0001, and \
                 must be 0\n";
    for words in [
        &["register", image][..],
        &["find", image, "1", "0"],
        &["find", image, "1", "0", "--level", "1"],
        &["entry", image, "1", "300"],
        &["entry", image, "1", "0"],
        &["entry", image, "--at", "0x1000", "0"],
        &["extract", image, "1", "0", "new.bin"],
        &["extract", image, "--all", "new"],
    ] {
        let outcome = place.tool(words);
        assert_eq!(outcome.status, Some(5), "{outcome:?}");
        assert!(outcome.wrote.contains(found), "{outcome:?}");
    }
    let brief = place.tool(&["register", "--brief", image]).wrote;
    assert!(
        brief.contains("  refused 5, entry 300 of level 1  "),
        "{brief}"
    );
    let fields = "\"met\": {\"level\": 1, \"index\": 300, \"directory\": 4096}";
    for words in [
        &["register", "--json", image][..],
        &["find", "--json", image, "1", "0"],
        &["entry", "--json", image, "1", "0"],
    ] {
        let json = place.tool(words).wrote;
        assert!(json.contains(fields), "{json}");
    }
    // The byte that is told is the one at fault: without its bit the checksum alone is left, and that is told too.
    let mut bytes = place.get(image);
    bytes[0x22D2] = 0;
    place.put("mended.rom", &bytes);
    let json = place
        .tool(&["entry", "--json", "mended.rom", "1", "0"])
        .wrote;
    let (_, should) = json
        .split_once("\"should\": \"0x")
        .expect("a checksum is due");
    let (should, _) = should.split_once('"').expect("a text ends");
    let sum = u32::from_str_radix(should, 16).expect("a number");
    bytes[0x1004..0x1008].copy_from_slice(&sum.to_le_bytes());
    place.put("mended.rom", &bytes);
    let mended = place.tool(&["register", "mended.rom"]);
    assert_eq!(mended.status, Some(0), "{mended:?}");
}

#[test]
fn a_header_as_amdfwtool_writes_it_is_told_to_be_that() {
    let place = Workplace::new("places-amdfwtool");
    place.tool(&["samples", "six"]);
    let image = "six/refused/as-amdfwtool-writes-it.rom";
    let sentence = "\n  This is how amdfwtool, coreboot's tool, writes a directory: its size and \
                    more stand in that word. Document 01 asks for zero there.\n";
    for words in [
        &["register", image][..],
        &["find", image, "1", "0"],
        &["entry", image, "1", "0"],
        &["extract", image, "1", "0", "new.bin"],
    ] {
        let outcome = place.tool(words);
        assert_eq!(outcome.status, Some(5), "{outcome:?}");
        assert!(outcome.wrote.contains(sentence), "{outcome:?}");
        let found = "header of level 1 at 0x1000: its last word, at 0x100c, is 0x00000410, and \
                     must be 0\n";
        assert!(outcome.wrote.contains(found), "{outcome:?}");
    }
    let explained = place.tool(&["explain", "5"]).wrote;
    let explained = explained.split_whitespace().collect::<Vec<_>>().join(" ");
    let words = "Directories that amdfwtool, coreboot's tool, wrote have their size and more in \
                 the last word of the header, where document 01 asks for zero";
    assert!(explained.contains(words), "{explained}");
}

#[test]
fn explain_says_of_each_number_whether_it_tells_a_place() {
    let place = Workplace::new("places-explain");
    for number in 1..=18u64 {
        let page = place.tool(&["explain", &number.to_string()]).wrote;
        let (_, place) = page
            .split_once("\nWhere in a directory:\n")
            .unwrap_or_else(|| panic!("{page}"));
        let place = place.split_whitespace().collect::<Vec<_>>().join(" ");
        let tells = [1, 2, 3, 4, 5, 7, 14, 16, 17, 18].contains(&number);
        assert_eq!(place.starts_with("In "), tells, "{page}");
        for word in ["What stands", "what should"] {
            assert_eq!(place.contains(word), tells, "{page}");
        }
        let none = "It is met in no header and no entry, and tells no place.";
        assert_eq!(place.starts_with(none), !tells, "{page}");
    }
}
