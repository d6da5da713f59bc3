use super::*;
use std::cell::RefCell;
use std::io::{BufReader, Read};
use std::rc::Rc;

/// The answers to these lines; a bad line's reason is cut off.
fn talk(lines: &str) -> Vec<String> {
    talk_bytes(lines.as_bytes()).0
}

/// The answers to these bytes, and whether any line was bad.
fn talk_bytes(lines: &[u8]) -> (Vec<String>, bool) {
    let mut output = Vec::new();
    let any_bad = converse(lines, &mut output).unwrap();
    let text = String::from_utf8(output).unwrap();
    assert!(text.is_empty() || text.ends_with('\n'));
    let cut = |answer: &str| match answer.strip_prefix("bad line: ") {
        Some(reason) => {
            assert!(reason.is_ascii() && reason.len() > 5 && reason.len() < 400);
            "bad".to_string()
        }
        None => answer.to_string(),
    };
    (text.lines().map(cut).collect(), any_bad)
}

/// The answer to the last line alone.
fn last(lines: &str) -> String {
    talk(lines).pop().unwrap()
}

/// Every one of these is a bad line, before and after which the state is the same.
fn all_bad(before: &str, lines: &[&str]) {
    let state = "firmware\npost 1 0x81 0\ntake 1\nshow a 0 4\ndigest a";
    let expected = talk(&format!("{}\n{}", before, state));
    for line in lines {
        let mut answers = talk(&format!("{}\n{}\n{}", before, line, state));
        let at = answers.len() - 6;
        assert_eq!(answers.remove(at), "bad", "{}", line);
        assert_eq!(answers, expected, "{}", line);
    }
}

// Lines

#[test]
fn empty_lines_and_comments_have_no_answer() {
    assert_eq!(talk("\n\n# a\n  \t \n\r\n \t# b\r\nload # c"), ["no"]);
    assert_eq!(talk(""), [""; 0]);
    assert_eq!(talk("load#\nlo#ad"), ["no", "bad"]);
}

#[test]
fn the_last_line_may_lack_its_end_and_carriage_returns_are_dropped() {
    assert_eq!(talk("load\r\nturn\r\nunload"), ["no", "no", "no"]);
    assert_eq!(talk("\tload\t\r\n  turn  \n"), ["no", "no"]);
    assert_eq!(talk("load\r\r\nload"), ["bad", "no"]);
    assert_eq!(talk("load\r"), ["bad"]);
}

#[test]
fn bad_lines_are_answered_and_the_program_goes_on() {
    assert_eq!(talk_bytes(b"load"), (vec!["no".to_string()], false));
    let (answers, any_bad) = talk_bytes(b"load\nnoise\nload");
    assert_eq!(answers, ["no", "bad", "no"]);
    assert!(any_bad);
    // a refusal is no bad line
    let (answers, any_bad) = talk_bytes(b"buffer a 0\nfind-image a 0 0");
    assert_eq!(answers, ["ok length=0", "refused 15"]);
    assert!(!any_bad);
}

#[test]
fn noise_is_a_bad_line() {
    let noise: [&[u8]; 7] = [
        b"\xFF\xFE\x00\x80",
        b"\0",
        b"load \xFF",
        b"\xEF\xBB\xBFload",
        b"buffer \xC3\xA9 1",
        b"load\x0B",
        b"file x \xFF",
    ];
    for line in noise {
        assert_eq!(talk_bytes(line), (vec!["bad".to_string()], true));
    }
    let every_byte: Vec<u8> = (0..=255).collect();
    let (answers, _) = talk_bytes(&every_byte);
    assert_eq!(answers, ["bad", "bad"]);
}

#[test]
fn a_line_may_be_long() {
    let hex = "ab".repeat(1 << 20);
    let line = format!("buffer a 1048576\npatch a 0 {}\ndigest a", hex);
    let answers = talk(&line);
    assert_eq!(answers[1], "ok");
    assert!(answers[2].starts_with("digest length=1048576 fnv=0x"));
    assert_eq!(talk(&format!("load {}", " ".repeat(1 << 20))), ["no"]);
    assert_eq!(talk(&"x".repeat(1 << 20)), ["bad"]);
}

#[test]
fn calls_have_their_exact_names() {
    for line in [
        "Load",
        "LOAD",
        "load:",
        "find_image a 1 1",
        "aspt a",
        "-",
        "0",
    ] {
        assert_eq!(talk(line), ["bad"], "{}", line);
    }
}

/// Every call, with one word too few and with one too many.
#[test]
fn calls_have_their_number_of_words() {
    let guid = "96b582de-1fb2-45f7-baea-a366c55a082d";
    let calls = [
        "buffer a 4 0".to_string(),
        "copy a a".to_string(),
        "patch a 0 00".to_string(),
        "show a 0 1".to_string(),
        "digest a".to_string(),
        "directory a 1".to_string(),
        "entry a 1 0".to_string(),
        "bytes a 1 0".to_string(),
        "find a 1 0 0".to_string(),
        "find-image a 0 0".to_string(),
        "view a 1".to_string(),
        "view-entry a 0 0".to_string(),
        "view-bytes a 0 0".to_string(),
        "start a 1".to_string(),
        "extend a 0 0 0 0 0".to_string(),
        "aspt-read a".to_string(),
        "aspt-write a 010203040506 0102030405060708 0 0 0 0 1 0:-:0:0:0 1:1:0:0:0 2:-:0:-:-"
            .to_string(),
        "guids a".to_string(),
        format!("guid-find a {}", guid),
        "guid-start a".to_string(),
        format!("guid-extend a {} -", guid),
        "mailbox".to_string(),
        "mailbox-of - idle -".to_string(),
        "post 0 0 0".to_string(),
        "load".to_string(),
        "turn".to_string(),
        "unload".to_string(),
        "take 0".to_string(),
        "firmware".to_string(),
    ];
    for call in calls {
        assert_ne!(last(&format!("buffer a 4\n{}", call)), "bad", "{}", call);
        all_bad("buffer a 4 7", &[&format!("{} 0", call)]);
        if let Some((fewer, _)) = call.rsplit_once(' ') {
            // a buffer's byte is the one word that may be left out
            if !call.starts_with("buffer") {
                all_bad("buffer a 4 7", &[fewer]);
            }
        }
    }
    all_bad(
        "buffer a 4 7",
        &["buffer", "buffer a", "file", "file a", "file a b c"],
    );
}

#[test]
fn numbers_wider_than_the_page_has_it_are_bad_lines() {
    let byte = [
        "buffer a 4 256",
        "find a 1 256 0",
        "find a 1 0 256",
        "find-image a 256 0",
    ];
    all_bad("buffer a 4 7", &byte);
    let entry = [
        "extend a 256 0 0 0 0",
        "extend a 0 256 0 0 0",
        "find-image a 0 256",
    ];
    all_bad("buffer a 4 7", &entry);
    let wide = [
        "directory a 0x100000001",
        "entry a 4294967296 0",
        "bytes a 4294967296 0",
        "find a 4294967296 0 0",
        "view a 4294967296",
        "start a 4294967296",
        "extend a 0 0 4294967296 0 0",
        "extend a 0 0 0 0 4294967296",
        "extend a 0 0 0 18446744073709551616 0",
        "entry a 1 18446744073709551616",
        "view-entry a 18446744073709551616 0",
        "view-bytes a 0 18446744073709551616",
        "show a 18446744073709551616 0",
        "show a 0 18446744073709551616",
        "patch a 18446744073709551616 -",
        "post 4294967296 0 0",
        "post 0 4294967296 0",
        "post 0 0 65536",
        "take 4294967296",
    ];
    all_bad("buffer a 4 7", &wide);
}

#[test]
fn the_widest_numbers_are_calls() {
    let widest = [
        ("directory a 0xffffffff", "refused 9"),
        ("start a 4294967295", "refused 9"),
        (
            "extend a 255 255 4294967295 0xffffffffffffffff 4294967295",
            "refused 1 level=0",
        ),
        ("find-image a 255 255", "refused 2"),
        (
            "view-entry a 0xffffffffffffffff 0xffffffffffffffff",
            "refused 7",
        ),
        ("find a 1 255 255", "refused 2"),
        ("show a 4 0", "bytes -"),
        ("post 0xffffffff 0xffffffff 0xffff", "refused 9"),
        ("post 0 0xffffffff 0xffff", "refused 9"),
        ("take 0xffffffff", "refused 9"),
    ];
    for (line, answer) in widest {
        assert_eq!(last(&format!("buffer a 4\n{}", line)), answer, "{}", line);
    }
}

#[test]
fn unknown_buffers_are_bad_lines() {
    let calls = [
        "copy b b",
        "copy a b",
        "patch b 0 -",
        "show b 0 0",
        "digest b",
        "directory b 1",
        "entry b 1 0",
        "bytes b 1 0",
        "find b 1 0 0",
        "find-image b 0 0",
        "view b 1",
        "view-entry b 0 0",
        "view-bytes b 0 0",
        "start b 1",
        "extend b 0 0 0 0 0",
        "aspt-read b",
        "guids b",
        "guid-start b",
        "guid-find b 00000000-0000-0000-0000-000000000000",
        "guid-extend b 00000000-0000-0000-0000-000000000000 -",
        "aspt-write b 010203040506 0102030405060708 0 0 0 0 1 0:-:0:0:0 1:1:0:0:0 2:-:0:-:-",
    ];
    all_bad("buffer a 4 7", &calls);
}

/// A reader that hands out one line at a time, and first looks what has been flushed.
struct Turns {
    lines: Vec<&'static [u8]>,
    next: usize,
    written: Rc<RefCell<Written>>,
}

#[derive(Default)]
struct Written {
    bytes: Vec<u8>,
    flushed: usize,
}

impl Read for Turns {
    fn read(&mut self, buffer: &mut [u8]) -> io::Result<usize> {
        let written = self.written.borrow();
        let flushed = &written.bytes[..written.flushed];
        assert_eq!(flushed.iter().filter(|b| **b == b'\n').count(), self.next);
        let line = match self.lines.get(self.next) {
            Some(line) => line,
            None => return Ok(0),
        };
        self.next += 1;
        buffer[..line.len()].copy_from_slice(line);
        Ok(line.len())
    }
}

struct Listener(Rc<RefCell<Written>>);

impl Write for Listener {
    fn write(&mut self, bytes: &[u8]) -> io::Result<usize> {
        self.0.borrow_mut().bytes.extend_from_slice(bytes);
        Ok(bytes.len())
    }

    fn flush(&mut self) -> io::Result<()> {
        let mut written = self.0.borrow_mut();
        written.flushed = written.bytes.len();
        Ok(())
    }
}

#[test]
fn each_answer_is_flushed_before_the_next_line_is_read() {
    let written = Rc::new(RefCell::new(Written::default()));
    let turns = Turns {
        lines: vec![b"load\n", b"noise\n", b"firmware\n", b"turn\n"],
        next: 0,
        written: written.clone(),
    };
    let result = converse(BufReader::new(turns), Listener(written.clone()));
    assert!(matches!(result, Ok(true)));
    let answers = written.borrow().bytes.clone();
    assert_eq!(answers.iter().filter(|b| **b == b'\n').count(), 4);
}

/// Fails as told, at reading or at writing.
struct Failing(ErrorKind);

impl Read for Failing {
    fn read(&mut self, _: &mut [u8]) -> io::Result<usize> {
        Err(self.0.into())
    }
}

impl Write for Failing {
    fn write(&mut self, _: &[u8]) -> io::Result<usize> {
        Err(self.0.into())
    }

    fn flush(&mut self) -> io::Result<()> {
        Ok(())
    }
}

#[test]
fn a_closed_pipe_ends_the_conversation_and_other_failures_are_told() {
    let closed = || Failing(ErrorKind::BrokenPipe);
    assert!(matches!(
        converse(&b"load\nload\n"[..], closed()),
        Ok(false)
    ));
    assert!(matches!(
        converse(&b"noise\nload\n"[..], closed()),
        Ok(true)
    ));
    let full = Failing(ErrorKind::Other);
    let result = converse(&b"load\n"[..], full);
    assert!(matches!(result, Err(Failure::Writing(_))));
    let input = BufReader::new(Failing(ErrorKind::Other));
    assert!(matches!(
        converse(input, Vec::new()),
        Err(Failure::Reading(_))
    ));
}

// Buffers

#[test]
fn buffers_are_made_changed_and_shown() {
    let answers = talk(
        "buffer a 0x4 0xAb
         show a 0 4
         patch a 1 00Ff
         show a 0 4
         show a 4 0
         patch a 4 -
         copy b a
         buffer a 2
         show a 0 2
         show b 0 4
         copy b b
         digest b
         buffer c 0
         show c 0 0
         digest c",
    );
    let expected = [
        "ok length=4",
        "bytes abababab",
        "ok",
        "bytes ab00ffab",
        "bytes -",
        "ok",
        "ok length=4",
        "ok length=2",
        "bytes 0000",
        "bytes ab00ffab",
        "ok length=4",
        "digest length=4 fnv=0xe94d9ceaf8702c08",
        "ok length=0",
        "bytes -",
        "digest length=0 fnv=0xcbf29ce484222325",
    ];
    assert_eq!(answers, expected);
}

#[test]
fn a_digest_has_sixteen_digits() {
    let answer = last("buffer a 3\npatch a 0 29\ndigest a");
    assert_eq!(answer, "digest length=3 fnv=0x00c00f17f1675104");
}

#[test]
fn what_does_not_fit_a_buffer_is_a_bad_line() {
    let lines = [
        "buffer a 67108865",
        "buffer a 18446744073709551616",
        "buffer a -",
        "buffer a 1 -",
        "buffer a-b 1",
        "patch a 4 00",
        "patch a 3 0000",
        "patch a 5 -",
        "patch a 0 000",
        "patch a 0 0x00",
        "patch a 0xffffffffffffffff 00",
        "show a 5 0",
        "show a 0 5",
        "show a 0xffffffffffffffff 1",
        "show a 1 0xffffffffffffffff",
        "file a no/such/file",
        "file a /",
        "file a.b /dev/null",
    ];
    all_bad("buffer a 4 7", &lines);
    assert_eq!(last("file a /dev/null"), "ok length=0");
    assert_eq!(last("file a /dev/zero"), "bad");
}

// Flash image

/// The shortest image with an EFS, made by the calls themselves: level one at 0x1000 with an entry
/// that leads to level two at 0x2000, which holds two.
const TWO_LEVELS: &str = "
    buffer one 48
    start one 1
    extend one 1 0 0x100 0x1000 1
    extend one 0x40 0 0 0xfffa2000 0
    buffer two 48
    start two 2
    extend two 0x0b 7 0xffffffff 0x3fffffffffffffff 3
    extend two 0x55 0 0x24 0 2
    buffer a 0x60000
    patch a 0 aa55aa55
    patch a 0x14 00100000
";

fn two_levels() -> String {
    let shown = talk(&format!("{}\nshow one 0 48\nshow two 0 48", TWO_LEVELS));
    let [one, two] = [&shown[shown.len() - 2], &shown[shown.len() - 1]];
    let hex = |answer: &str| answer.trim_start_matches("bytes ").to_string();
    format!(
        "{}\npatch a 0x1000 {}\npatch a 0x2000 {}\n",
        TWO_LEVELS,
        hex(one),
        hex(two)
    )
}

#[test]
fn flash_calls_answer_as_the_page_has_it() {
    let image = two_levels();
    for (call, answer) in [
        ("directory a 1", "ok place=0x1000 level=1 total=2"),
        ("directory a 2", "ok place=0x2000 level=2 total=2"),
        ("directory a 3", "refused 9"),
        (
            "entry a 1 0",
            "ok type=0x1 sub=0x0 size=0x100 location=0x1000 mode=1",
        ),
        (
            "entry a 2 0",
            "ok type=0xb sub=0x7 size=0xffffffff location=0x3fffffffffffffff mode=3",
        ),
        ("entry a 2 2", "refused 8"),
        ("bytes a 1 0", "ok place=0x1000 length=256"),
        ("bytes a 1 1", "ok place=0x2000 length=0"),
        ("bytes a 2 0", "refused 17 level=2 index=0"),
        ("bytes a 2 1", "ok place=0x2000 length=36"),
        ("find a 1 0x40 0", "ok index=1 tested=2"),
        ("find a 2 0x55 1", "refused 8 tested=2"),
        (
            "find-image a 0x55 0",
            "ok place=0x2000 level=2 index=1 tested=4",
        ),
        (
            "find-image a 0x40 0",
            "ok place=0x1000 level=1 index=1 tested=2",
        ),
        ("find-image a 9 9", "refused 8 tested=4"),
        ("view a 2", "ok place=0x2000"),
        ("view a 0", "refused 9"),
        (
            "view-entry a 0x2000 1",
            "ok type=0x55 sub=0x0 size=0x24 location=0x0 mode=2",
        ),
        ("view-bytes a 0x2000 1", "ok place=0x2000 length=36"),
        ("view-bytes a 0x2000 0", "refused 17 level=2 index=0"),
        ("view-entry a 0x2001 1", "refused 2 level=0"),
        ("view-entry a 0x60000 1", "refused 1 level=0"),
        ("view-entry a 0x60001 1", "refused 7"),
        ("view-bytes a 0x2000 2", "refused 8"),
    ] {
        assert_eq!(last(&format!("{}{}", image, call)), answer, "{}", call);
    }
}

#[test]
fn an_absent_directory_is_8_with_a_count_from_lookups_alone() {
    let image = format!("{}patch a 0x14 00000000\n", two_levels());
    for (call, answer) in [
        ("find a 1 0 0", "refused 8 tested=0"),
        ("find a 2 0 0", "refused 8 tested=0"),
        ("find-image a 0 0", "refused 8 tested=0"),
        ("directory a 1", "refused 8"),
        ("entry a 1 0", "refused 8"),
        ("bytes a 2 0", "refused 8"),
        ("view a 1", "refused 8"),
    ] {
        assert_eq!(last(&format!("{}{}", image, call)), answer, "{}", call);
    }
}

#[test]
fn start_and_extend_answer_as_the_page_has_it() {
    let answers = talk(
        "buffer a 32 255
         start a 1
         show a 0 32
         extend a 1 0 0x100 0x1000 1
         show a 0 32
         extend a 1 1 0 0 0
         extend a 1 0 0 0 0
         extend a 1 0 0 0 4
         extend a 1 0 0 0x4000000000000000 0
         start a 0
         buffer a 15
         start a 2
         extend a 1 0 0 0 0",
    );
    let expected = [
        "ok length=32",
        "ok",
        "bytes 24505350ffffffff0000000000000000ffffffffffffffffffffffffffffffff",
        "ok total=1",
        "bytes 2450535002511486010000000000000001000000000100000010000000000040",
        "refused 12",
        "refused 18",
        "refused 5",
        "refused 5",
        "refused 9",
        "ok length=15",
        "refused 12",
        "refused 1 level=0",
    ];
    assert_eq!(answers, expected);
}

#[test]
fn a_refusal_is_told_with_the_level_and_the_index_where_it_was_met() {
    // the checksums of two directories, whose reserved bits are set in the second entry and in the header
    let lines = "
        buffer a 48
        start a 1
        extend a 1 0 0 0 0
        extend a 2 0 0 0 0
        patch a 34 01
        extend a 3 0 0 0 0
        patch a 4 06004f00
        extend a 3 0 0 0 0
        patch a 34 00
        patch a 12 01
        extend a 3 0 0 0 0
        patch a 4 06005a00
        extend a 3 0 0 0 0
        patch a 3 00
        extend a 3 0 0 0 0";
    let answers = talk(lines);
    let refused: Vec<&String> = answers.iter().filter(|a| a.starts_with("ref")).collect();
    let expected = [
        "refused 4 level=1",
        "refused 5 level=1 index=1",
        "refused 4 level=1",
        "refused 5 level=1",
        "refused 2 level=0",
    ];
    assert_eq!(refused, expected);
}

// ASPT

const ASPT: &str = "aspt-write a 414d44494e43 0102030405060708 0x11 0x22 0x33 0x1000 2";

#[test]
fn aspt_calls_answer_as_the_page_has_it() {
    let write = format!("{} 2:-:0x1ffc:-:- 0:-:0:4:8 1:1:12:16:20", ASPT);
    let answers = talk(&format!(
        "buffer a 113 9\n{}\naspt-read a\nshow a 112 1",
        write
    ));
    let expected = [
        "ok length=113",
        "ok",
        "ok oem=414d44494e43 table=0102030405060708 oem-revision=0x11 creator=0x22 \
         creator-revision=0x33 base=0x1000 pages=0x2 2:-:0x1ffc:-:- 0:-:0x0:0x4:0x8 \
         1:0x1:0xc:0x10:0x14",
        "bytes 09",
    ];
    assert_eq!(answers, expected);
    assert_eq!(last(&format!("buffer a 111\n{}", write)), "refused 12");
    assert_eq!(last("buffer a 111\naspt-read a"), "refused 1");
    let ninth = format!("buffer a 112\n{} 9:1:0:0:0 0:-:0:4:8 1:1:12:16:20", ASPT);
    assert_eq!(last(&ninth), "refused 6");
}

#[test]
fn what_is_no_aspt_is_a_bad_line() {
    let good = "0:-:0:0:0 1:1:0:0:0 2:-:0:-:-";
    let write = |oem: &str, table: &str, numbers: &str, structures: &str| {
        format!("aspt-write a {} {} {} {}", oem, table, numbers, structures)
    };
    let (oem, table, numbers) = ("010203040506", "0102030405060708", "0 0 0 0 1");
    let line = write(oem, table, numbers, good);
    assert_eq!(last(&format!("buffer a 112\n{}", line)), "ok");
    for bad in [
        write("0102030405", table, numbers, good),
        write("01020304050607", table, numbers, good),
        write("-", table, numbers, good),
        write(oem, "01020304050607", numbers, good),
        write(oem, "010203040506070809", numbers, good),
        write(oem, table, "4294967296 0 0 0 1", good),
        write(oem, table, "0 4294967296 0 0 1", good),
        write(oem, table, "0 0 4294967296 0 1", good),
        write(oem, table, "0 0 0 18446744073709551616 1", good),
        write(oem, table, "0 0 0 0 4294967296", good),
        write(oem, table, numbers, "0:-:0:0:0 1:1:0:0:0 2:-:0:0:0"),
        write(oem, table, numbers, "0:-:0:0:0 1:1:0:0:0"),
        write(
            oem,
            table,
            numbers,
            "0:-:0:0:0 1:1:0:0:0 2:-:0:-:- 0:-:0:0:0",
        ),
    ] {
        all_bad("buffer a 112 7", &[&bad]);
    }
}

// GUID table

#[test]
fn guid_calls_answer_as_the_page_has_it() {
    let answers = talk(
        "buffer a 0x80
         guids a
         guid-start a
         guids a
         guid-find a 00f771de-1a7e-4fcb-890e-68c77e2fb44e
         guid-extend a 00f771de-1a7e-4fcb-890e-68c77e2fb44e 01020304
         guid-extend a 4C2EB361-7D9B-4CC3-8081-127C90D3D294 -
         guids a
         guid-find a 4c2eb361-7d9b-4cc3-8081-127c90d3d294
         guid-find a 00f771de-1a7e-4fcb-890e-68c77e2fb44e
         guid-find a 7255371f-3a3b-4b04-927b-1da6efa8d454
         show a 0x38 22
         guid-extend a 7255371f-3a3b-4b04-927b-1da6efa8d454 020202020202020202020202020202020202020202
         patch a 0 ff
         guid-extend a 7255371f-3a3b-4b04-927b-1da6efa8d454 0202020202020202020202020202020202020202
         buffer b 49
         guid-start b
         guids b",
    );
    let expected = [
        "ok length=128",
        "refused 2",
        "ok",
        "ok total=18 entries=0",
        "refused 8 tested=0",
        "ok total=40",
        "ok total=58",
        "ok total=58 entries=2",
        "ok place=0x26 length=0 tested=2",
        "ok place=0x38 length=4 tested=1",
        "refused 8 tested=2",
        "bytes 010203041600de71f7007e1acb4f890e68c77e2fb44e",
        "refused 12",
        "ok",
        "refused 13",
        "ok length=49",
        "refused 12",
        "refused 1",
    ];
    assert_eq!(answers, expected);
}

// Mailbox

#[test]
fn mailbox_calls_answer_as_the_page_has_it() {
    let answers = talk(
        "take 0
         load
         post 0 0x81 0
         post 0 0x81 0
         take 0
         load
         turn
         unload
         take 0
         mailbox-of - response:3:5 -
         unload
         take 3
         mailbox-of 0:0:0 idle -
         load
         mailbox
         load",
    );
    let expected = [
        "refused 8",
        "no",
        "ok",
        "refused 10",
        "refused 11",
        "yes",
        "yes",
        "yes",
        "ok word=0x80810001",
        "ok",
        "yes",
        "ok word=0x00000005",
        "ok",
        "yes",
        "ok",
        "no",
    ];
    assert_eq!(answers, expected);
}

#[test]
fn a_broken_mailbox_answers_5_and_a_fresh_one_mends_it() {
    let calls = "post 9 0xffff 0\nload\nturn\nunload\ntake 9";
    for broken in [
        "8:0:0 idle -",
        "0:0x400:0 idle -",
        "0:0:0,0:0:0 idle -",
        "0:0:0 command:0:0 -",
        "0:0:0 idle 0:0",
        "- command:0:0x04000000 -",
        "- command:8:0 -",
        "- response:255:0 -",
        "- response:1:0 1:0",
        "0:0:0,1:0:0,2:0:0,3:0:0,4:0:0,5:0:0,6:0:0,7:0:0 response:0:0 -",
    ] {
        let answers = talk(&format!("mailbox-of {}\n{}\nmailbox\nload", broken, calls));
        let mut expected = vec!["ok"];
        expected.extend(["refused 5"; 5]);
        expected.extend(["ok", "no"]);
        assert_eq!(answers, expected, "{}", broken);
    }
}

#[test]
fn what_is_no_mailbox_is_a_bad_line() {
    let lines = [
        "mailbox-of - - -",
        "mailbox-of idle - -",
        "mailbox-of 256:0:0 idle -",
        "mailbox-of 0:65536:0 idle -",
        "mailbox-of 0:0:65536 idle -",
        "mailbox-of - command:256:0 -",
        "mailbox-of - idle 8:0",
        "mailbox-of - idle 1:0,1:0",
        "mailbox-of 0:0:0,1:0:0,2:0:0,3:0:0,4:0:0,5:0:0,6:0:0,7:0:0,8:0:0 idle -",
    ];
    all_bad("buffer a 4 7\npost 0 0x82 1\nload\nturn", &lines);
}

#[test]
fn the_firmware_is_shown_behind_any_mailbox() {
    let mut lines = vec!["firmware".to_string()];
    let mut run = |command: &str| {
        lines.push(format!("post 0 {}\nload\nturn\nunload\ntake 0", command));
        lines.push("firmware".to_string());
    };
    run("0x83 0xFFFF");
    run("0x82 0");
    run("0x84 0xfc01");
    run("0x84 0x0402");
    run("0x82 3");
    run("0x83 4");
    run("0x80 0");
    run("0x85 0xfc01");
    run("0x85 0x0401");
    lines.push("mailbox-of 9:0:0 idle -\nfirmware".to_string());
    let answers = talk(&lines.join("\n"));
    let shown: Vec<&str> = answers
        .iter()
        .filter_map(|answer| answer.strip_prefix("ok interface="))
        .collect();
    let expected = [
        "on held=-,-,- saved=- delivery=-",
        "on held=-,0xffff,- saved=- delivery=-",
        "on held=0x0,0xffff,- saved=- delivery=-",
        "on held=-,-,- saved=63:0x0:0xffff:0xfc01 delivery=-",
        "on held=-,-,0x402 saved=63:0x0:0xffff:0xfc01 delivery=-",
        "on held=0x3,-,0x402 saved=63:0x0:0xffff:0xfc01 delivery=-",
        "on held=-,-,- saved=1:0x3:0x4:0x402,63:0x0:0xffff:0xfc01 delivery=-",
        "off held=-,-,- saved=1:0x3:0x4:0x402,63:0x0:0xffff:0xfc01 delivery=-",
        "off held=-,-,- saved=1:0x3:0x4:0x402,63:0x0:0xffff:0xfc01 delivery=63",
        "off held=-,-,- saved=1:0x3:0x4:0x402,63:0x0:0xffff:0xfc01 delivery=1,63",
        "on held=-,-,- saved=- delivery=-",
    ];
    assert_eq!(shown, expected);
}
