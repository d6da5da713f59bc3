//! `kpalumere aspt` and `kpalumere guids` as people use them, and the answers of all commands that have --json, read by Python.

use agree::board::Board;
use agree::programs::run;
use agree::workplace::{Outcome, Workplace};
use std::fs;
use std::process::Command;

/// An ASPT with its structures in the order 1, 0, 2, before its checksum is right.
fn unsummed() -> Vec<u8> {
    let mut table = b"ASPT\x70\0\0\0\x02\0AMDINCAMDICRB\0".to_vec();
    for number in [0x11u32, 0x2222, 0x33_3333] {
        table.extend(number.to_le_bytes());
    }
    table.extend(0xFED0_0000u64.to_le_bytes());
    table.extend(16u32.to_le_bytes());
    table.extend(3u32.to_le_bytes());
    for (class, id, registers) in [
        (1u16, 1u32, [0x570u32, 0x574, 0x578]),
        (0, 0, [0x10, 0x14, 0xFFFC]),
        (2, 0, [0x20, 0, 0]),
    ] {
        table.extend(class.to_le_bytes());
        table.extend(20u16.to_le_bytes());
        table.extend(id.to_le_bytes());
        for register in registers {
            table.extend(register.to_le_bytes());
        }
    }
    assert_eq!(table.len(), 112);
    table
}

/// A table with bytes written over, and then its checksum made right.
fn aspt_with(changes: &[(usize, u8)]) -> Vec<u8> {
    let mut table = unsummed();
    for (at, byte) in changes {
        table[*at] = *byte;
    }
    let sum = table.iter().fold(0u8, |sum, byte| sum.wrapping_add(*byte));
    table[9] = table[9].wrapping_sub(sum);
    table
}

const ASPT_SHOWN: &str = "\
AMD Secure Processor Table, 112 bytes, revision 2
  OEM ID                     'AMDINC' (414d44494e43)
  OEM Table ID               'AMDICRB' (414d444943524200)
  OEM Revision               0x11
  Creator ID                 0x2222
  Creator Revision           0x333333
  ASP Register Base Address  0xfed00000
  ASP Register Space Pages   0x10

SEV Mailbox Registers (type 1)
  Mailbox Interrupt ID       0x1
  CmdResp Register           0x570, at 0xfed00570
  CmdBufAddr_Lo Register     0x574, at 0xfed00574
  CmdBufAddr_Hi Register     0x578, at 0xfed00578

ASP Global Registers (type 0)
  Feature Register           0x10, at 0xfed00010
  Interrupt Enable Register  0x14, at 0xfed00014
  Interrupt Status Register  0xfffc, at 0xfed0fffc

ACPI Mailbox Registers (type 2)
  CmdResp Register           0x20, at 0xfed00020
";

#[test]
fn an_aspt_is_laid_out_with_its_names() {
    let place = Workplace::new("aspt");
    place.put("aspt.bin", aspt_with(&[]));
    place.tool(&["aspt", "aspt.bin"]).expect(0, ASPT_SHOWN);
    place
        .tool_given(&["aspt", "-"], &aspt_with(&[]))
        .expect(0, ASPT_SHOWN);
    // What lies behind the 112 bytes is no part of the table.
    let longer = [aspt_with(&[]), vec![0xEE; 5]].concat();
    place
        .tool_given(&["aspt", "-"], &longer)
        .expect(0, ASPT_SHOWN);
}

#[test]
fn an_aspt_that_is_refused_is_told_with_number_and_words() {
    let place = Workplace::new("aspt-refused");
    let value = "refused 5: reserved bits set, or a value that is not allowed";
    let limits = "refused 3: length or count outside its limits";
    let structure = "refused 6: structure or entry of wrong type or length";
    for (table, told) in [
        (aspt_with(&[])[..111].to_vec(), "refused 1: too few bytes"),
        (aspt_with(&[(0, b'a')]), "refused 2: signature not found"),
        (aspt_with(&[(4, 113)]), limits),
        (aspt_with(&[(8, 1)]), value),
        (unsummed(), "refused 4: checksum is wrong"),
        (aspt_with(&[(36, 1)]), value),
        (aspt_with(&[(48, 4)]), limits),
        (aspt_with(&[(54, 21)]), structure),
        (aspt_with(&[(52, 3)]), structure),
        (aspt_with(&[(72, 1)]), structure),
        (aspt_with(&[(56, 2)]), value),
        (aspt_with(&[(111, 1)]), value),
        (
            aspt_with(&[(88, 0xFD)]),
            "refused 7: address outside the image",
        ),
    ] {
        place
            .tool_given(&["aspt", "-"], &table)
            .expect(5, &format!("{told}\n"));
    }
}

/// GUIDs as they lie in memory: the three of source 004, OVMF's two, and one that nobody knows.
const RESET: [u8; 16] = *b"\xde\x71\xf7\x00\x7e\x1a\xcb\x4f\x89\x0e\x68\xc7\x7e\x2f\xb4\x4e";
const SECRET: [u8; 16] = *b"\x61\xb3\x2e\x4c\x9b\x7d\xc3\x4c\x80\x81\x12\x7c\x90\xd3\xd2\x94";
const HASHES: [u8; 16] = *b"\x1f\x37\x55\x72\x3b\x3a\x04\x4b\x92\x7b\x1d\xa6\xef\xa8\xd4\x54";
const SEV: [u8; 16] = *b"\x66\x65\x88\xdc\x4a\x98\x98\x47\xa7\x5e\x55\x85\xa7\xbf\x67\xcc";
const TDX: [u8; 16] = *b"\x35\x65\x7a\xe4\x4a\x98\x98\x47\x86\x5e\x46\x85\xa7\xbf\x8e\xc2";
const UNKNOWN: [u8; 16] = [0xAB; 16];
const FOOTER: [u8; 16] = *b"\xde\x82\xb5\x96\xb2\x1f\xf7\x45\xba\xea\xa3\x66\xc5\x5a\x08\x2d";

/// A guest image of 256 bytes whose table has these entries, the first nearest the footer.
fn guest(entries: &[([u8; 16], usize)]) -> Vec<u8> {
    let mut table = Vec::new();
    for (guid, length) in entries.iter().rev() {
        table.extend(vec![0x11; *length]);
        table.extend((*length as u16 + 18).to_le_bytes());
        table.extend(guid);
    }
    let total = table.len() as u16 + 18;
    table.extend(total.to_le_bytes());
    table.extend(FOOTER);
    let before = vec![0; 256 - 32 - table.len()];
    [before, table, vec![0x90; 32]].concat()
}

/// The same with its total written over.
fn guest_of_total(total: u16) -> Vec<u8> {
    let mut image = guest(&[(RESET, 4)]);
    image[206..208].copy_from_slice(&total.to_le_bytes());
    image
}

#[test]
fn a_guid_table_is_shown_from_the_footer_on() {
    let place = Workplace::new("guids");
    let entries = [
        (RESET, 4),
        (SECRET, 8),
        (HASHES, 8),
        (SEV, 4),
        (TDX, 4),
        (UNKNOWN, 0),
    ];
    place.put("guest.fd", guest(&entries));
    let expected = "\
GUID table, total 0x9a (154 bytes), 6 entries
  index  GUID                                    data at  length  name
      0  00f771de-1a7e-4fcb-890e-68c77e2fb44e       0xb8       4  SEV-ES reset block
      1  4c2eb361-7d9b-4cc3-8081-127c90d3d294       0x9e       8  SEV secret block
      2  7255371f-3a3b-4b04-927b-1da6efa8d454       0x84       8  SEV hashes table
      3  dc886566-984a-4798-a75e-5585a7bf67cc       0x6e       4  OVMF SEV metadata offset
      4  e47a6535-984a-4798-865e-4685a7bf8ec2       0x58       4  OVMF TDX metadata offset
      5  abababab-abab-abab-abab-abababababab       0x46       0  unnamed GUID
";
    place.tool(&["guids", "guest.fd"]).expect(0, expected);
    place
        .tool_given(&["guids", "-"], &guest(&[]))
        .expect(0, "GUID table, total 0x12 (18 bytes), 0 entries\n");
}

#[test]
fn a_guid_table_that_is_refused_is_told_with_number_and_words() {
    let place = Workplace::new("guids-refused");
    let limits = "refused 3: length or count outside its limits";
    let structure = "refused 6: structure or entry of wrong type or length";
    let short = guest(&[])[256 - 49..].to_vec();
    for (image, told) in [
        (short, "refused 1: too few bytes"),
        (vec![0; 256], "refused 2: signature not found"),
        (guest_of_total(17), limits),
        (guest_of_total(225), limits),
        (guest_of_total(19), structure),
        (guest_of_total(224), structure),
    ] {
        place
            .tool_given(&["guids", "-"], &image)
            .expect(5, &format!("{told}\n"));
    }
    assert_eq!(
        place
            .tool_given(&["guids", "-"], &guest_of_total(40))
            .status,
        Some(0)
    );
}

#[test]
fn real_firmware_has_the_blocks_of_source_004() {
    let place = Workplace::new("guids-real");
    let folder = fs::read_dir("/usr/share/OVMF").expect("Debian's package ovmf is installed");
    let mut seen = 0;
    for file in folder {
        let file = file.unwrap().path();
        let outcome = place.tool(&["guids", file.to_str().unwrap()]);
        // Images of variables have no table.
        if outcome.status == Some(5) {
            outcome.expect(5, "refused 2: signature not found\n");
            continue;
        }
        let names = ["SEV-ES reset block", "SEV secret block", "SEV hashes table"];
        let rows = outcome.wrote.lines().skip(2);
        for (row, (index, name)) in rows.zip(names.iter().enumerate()) {
            assert!(row.starts_with(&format!("{index:>7}  ")), "{outcome:?}");
            assert!(row.ends_with(name), "{outcome:?}");
            seen += 1;
        }
    }
    assert!(seen >= 3, "no image has a table");
}

/// Reads a document with Python, and gives a line for each value: where it stands, and what it is.
fn read_by_python(outcome: &Outcome) -> String {
    const LINES: &str = "\
import json, sys
def lines(at, value):
    if isinstance(value, dict):
        [lines(at + [name], inner) for name, inner in value.items()]
    elif isinstance(value, list):
        print('.'.join(at), len(value))
        [lines(at + [str(place)], inner) for place, inner in enumerate(value)]
    else:
        print('.'.join(at), json.dumps(value))
lines([], json.load(sys.stdin))
";
    assert_eq!(outcome.said, "");
    let mut python = Command::new("python3");
    python.args(["-c", LINES]);
    let read = Outcome::of(run(python, outcome.wrote.as_bytes()));
    assert_eq!(
        (read.status, read.said.as_str()),
        (Some(0), ""),
        "{outcome:?}"
    );
    read.wrote
}

/// The tool's answer to these words has this status and, read by Python, these values.
fn expect_json(place: &Workplace, words: &[&str], status: i32, expected: &str) {
    let outcome = place.tool(words);
    assert_eq!(outcome.status, Some(status), "{outcome:?}");
    assert_eq!(read_by_python(&outcome), expected, "{words:?}");
}

#[test]
fn programs_read_what_is_found() {
    let place = Workplace::with_board("json-find");
    expect_json(
        &place,
        &["find", "board.rom", "smu-firmware", "1", "--json"],
        0,
        "\
format 2
file \"board.rom\"
file_bytes null
type 8
subprogram 1
in_level null
tested 6
refused null
met null
wrong null
level 2
directory 163840
entry.index 1
entry.type 8
entry.name \"smu-firmware\"
entry.subprogram 1
entry.size 4096
entry.mode 1
entry.location \"0x2d000\"
entry.value null
entry.place 184320
entry.length 4096
entry.refused null
entry.wrong null
entry.version null
",
    );
    expect_json(
        &place,
        &["find", "board.rom", "9", "1", "--json", "--level=1"],
        1,
        "\
format 2
file \"board.rom\"
file_bytes null
type 9
subprogram 1
in_level 1
tested 5
refused 8
met null
wrong null
level null
directory null
entry null
",
    );
    place.put("bad.rom", Board::with(|board| board.one.wrong = 1));
    let outcome = place.tool(&["find", "bad.rom", "9", "1", "--json"]);
    assert_eq!(outcome.status, Some(5));
    let read = read_by_python(&outcome);
    let met = "\ntested null\nrefused 4\nmet.level 1\nmet.index null\nmet.directory 135168\nwrong.field 135172\n";
    assert!(read.contains(met), "{read}");
    let repeats = Board::with(|board| board.two.entries[3].class = 0x5A);
    place.put("repeats.rom", repeats);
    let outcome = place.tool(&["find", "repeats.rom", "9", "1", "--json"]);
    assert_eq!(outcome.status, Some(5));
    let read = read_by_python(&outcome);
    let met = "met.level 2\nmet.index 3\nmet.directory 163840\n\
               wrong.field 163904\nwrong.bytes 1\nwrong.stands \"0x5a\"\nwrong.should \"0x2\"\n";
    let refused = format!("\ntested null\nrefused 18\n{met}level null\n");
    assert!(read.contains(&refused), "{read}");
    let outcome = place.tool(&["entry", "repeats.rom", "2", "0", "--json"]);
    assert_eq!(outcome.status, Some(5));
    let read = read_by_python(&outcome);
    let refused = format!("directory null\ntotal null\nrefused 18\n{met}entry null\n");
    assert!(
        read.ends_with(&format!("level 2\nat null\n{refused}")),
        "{read}"
    );
}

#[test]
fn programs_read_an_entry() {
    let place = Workplace::new("json-entry");
    // A name with signs that a text of JSON escapes.
    let name = "a \"board\"\\\n\u{e9}";
    place.put(name, Board::new().bytes());
    expect_json(
        &place,
        &["entry", name, "2", "2", "--json"],
        5,
        "\
format 2
file \"a \\\"board\\\"\\\\\\n\\u00e9\"
file_bytes null
level 2
at null
directory 163840
total 4
refused null
met null
wrong null
entry.index 2
entry.type 90
entry.name null
entry.subprogram 0
entry.size 257
entry.mode 1
entry.location \"0x7ff00\"
entry.value null
entry.place null
entry.length null
entry.refused 7
entry.wrong.field 163896
entry.wrong.bytes 8
entry.wrong.stands \"0x7ff00\"
entry.wrong.should \"0x80000\"
entry.version null
",
    );
    let outcome = place.tool(&["entry", "--json", name, "1", "5"]);
    assert_eq!(outcome.status, Some(5));
    let read = read_by_python(&outcome);
    assert!(
        read.ends_with(
            "level 1\nat null\ndirectory null\ntotal null\nrefused 8\nmet null\nwrong null\nentry null\n"
        ),
        "{read}"
    );
}

#[test]
fn programs_read_the_tables() {
    let place = Workplace::new("json-tables");
    place.put("aspt.bin", aspt_with(&[]));
    expect_json(
        &place,
        &["aspt", "aspt.bin", "--json"],
        0,
        "\
format 2
file \"aspt.bin\"
file_bytes null
refused null
oem_id \"414d44494e43\"
oem_table_id \"414d444943524200\"
oem_revision 17
creator_id 8738
creator_revision 3355443
base \"0xfed00000\"
pages 16
structures 3
structures.0.type 1
structures.0.name \"SEV Mailbox Registers\"
structures.0.interrupt_id 1
structures.0.registers 3
structures.0.registers.0.name \"CmdResp Register\"
structures.0.registers.0.offset 1392
structures.0.registers.1.name \"CmdBufAddr_Lo Register\"
structures.0.registers.1.offset 1396
structures.0.registers.2.name \"CmdBufAddr_Hi Register\"
structures.0.registers.2.offset 1400
structures.1.type 0
structures.1.name \"ASP Global Registers\"
structures.1.interrupt_id null
structures.1.registers 3
structures.1.registers.0.name \"Feature Register\"
structures.1.registers.0.offset 16
structures.1.registers.1.name \"Interrupt Enable Register\"
structures.1.registers.1.offset 20
structures.1.registers.2.name \"Interrupt Status Register\"
structures.1.registers.2.offset 65532
structures.2.type 2
structures.2.name \"ACPI Mailbox Registers\"
structures.2.interrupt_id null
structures.2.registers 1
structures.2.registers.0.name \"CmdResp Register\"
structures.2.registers.0.offset 32
",
    );
    place.put("guest.fd", guest(&[(HASHES, 8), (UNKNOWN, 0)]));
    expect_json(
        &place,
        &["guids", "guest.fd", "--json"],
        0,
        "\
format 2
file \"guest.fd\"
file_bytes null
refused null
total 62
entries 2
entries.0.index 0
entries.0.name \"SEV hashes table\"
entries.0.guid \"7255371f-3a3b-4b04-927b-1da6efa8d454\"
entries.0.place 180
entries.0.length 8
entries.1.index 1
entries.1.name null
entries.1.guid \"abababab-abab-abab-abab-abababababab\"
entries.1.place 162
entries.1.length 0
",
    );
    place.put("bad.bin", vec![0; 200]);
    for (command, rest) in [
        (
            "aspt",
            "oem_id null\noem_table_id null\noem_revision null\ncreator_id null\n\
             creator_revision null\nbase null\npages null\nstructures 0\n",
        ),
        ("guids", "total null\nentries 0\n"),
    ] {
        let expected = format!("format 2\nfile \"bad.bin\"\nfile_bytes null\nrefused 2\n{rest}");
        expect_json(&place, &[command, "bad.bin", "--json"], 5, &expected);
    }
}

#[test]
fn wrong_words_end_with_2_and_a_file_that_is_not_there_with_3() {
    let place = Workplace::new("tables-words");
    for command in ["aspt", "guids"] {
        for words in [
            &[command][..],
            &[command, "a", "b"],
            &[command, "a", "--csv"],
            &[command, "a", "--json=1"],
        ] {
            let outcome = place.tool(words);
            assert_eq!((outcome.status, outcome.wrote.as_str()), (Some(2), ""));
            let ends = format!("`kpalumere {command} --help` has its words.\n");
            assert!(outcome.said.ends_with(&ends), "{outcome:?}");
        }
        let outcome = place.tool(&[command, "none.bin", "--json"]);
        assert_eq!((outcome.status, outcome.wrote.as_str()), (Some(3), ""));
        assert!(outcome.said.contains("\"none.bin\" cannot be read: "));
    }
}
