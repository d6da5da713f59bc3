//! The AMD Secure Processor Table: read and written.

use super::call::Call;
use super::told::{as_hex, told};
use super::State;
use crate::arguments::call::CallForm;
use crate::arguments::lines::{hex, BadLine};
use crate::arguments::numbers::{number, number16, number32, number8};
use crate::arguments::quoted::quoted;
use bindings::{AsptStructure, AsptTable};

pub static CALLS: [Call; 2] = [
    Call {
        form: CallForm::new(
            "aspt-read",
            "NAME",
            "the table in the buffer's first 112 bytes",
        ),
        answer: read,
    },
    Call {
        form: CallForm::new(
            "aspt-write",
            "NAME OEM TABLE OEMREVISION CREATOR CREATORREVISION BASE PAGES S S S",
            "write a table; S is a structure TYPE:ID:A:B:C, with - for a field that the type lacks",
        ),
        answer: write,
    },
];

fn read(state: &mut State, words: &[&[u8]]) -> Result<String, BadLine> {
    let buffer = state.buffers.lent("NAME", words[0])?;
    Ok(told(bindings::aspt_read(buffer), |table| {
        let structures = table.structures.map(|structure| structure_told(&structure));
        format!(
            "ok oem={} table={} oem-revision={:#x} creator={:#x} creator-revision={:#x} base={:#x} \
             pages={:#x} {}",
            as_hex(&table.oem),
            as_hex(&table.oem_table),
            table.oem_revision,
            table.creator,
            table.creator_revision,
            table.base,
            table.pages,
            structures.join(" ")
        )
    }))
}

fn write(state: &mut State, words: &[&[u8]]) -> Result<String, BadLine> {
    let buffer = state.buffers.lent_to_change("NAME", words[0])?;
    let table = AsptTable {
        oem: exact_bytes("OEM", words[1])?,
        oem_table: exact_bytes("TABLE", words[2])?,
        oem_revision: number32("OEMREVISION", words[3])?,
        creator: number32("CREATOR", words[4])?,
        creator_revision: number32("CREATORREVISION", words[5])?,
        base: number("BASE", words[6], u64::MAX)?,
        pages: number32("PAGES", words[7])?,
        structures: [
            structure(words[8])?,
            structure(words[9])?,
            structure(words[10])?,
        ],
    };
    let answer = bindings::aspt_write(buffer, &table);
    Ok(told(answer, |()| String::from("ok")))
}

/// The bytes of a HEX word that has exactly so many.
fn exact_bytes<const LENGTH: usize>(role: &str, word: &[u8]) -> Result<[u8; LENGTH], BadLine> {
    let bytes = hex(role, word)?;
    <[u8; LENGTH]>::try_from(bytes.as_slice()).map_err(|_| {
        BadLine::new(format!(
            "{role} has {} bytes; write {LENGTH} bytes, two hexadecimal digits each",
            bytes.len()
        ))
    })
}

/// Which fields after its type a structure has: the ID and the three registers. A type that there is not has all, so that
/// it can be given to the library.
fn fields_of(kind: u16) -> [bool; 4] {
    match kind {
        0 => [false, true, true, true],
        2 => [false, true, false, false],
        _ => [true; 4],
    }
}

/// The structure that a word stands for.
fn structure(word: &[u8]) -> Result<AsptStructure, BadLine> {
    let fields: Vec<&[u8]> = word.split(|&byte| byte == b':').collect();
    let (kind, rest) = match fields.as_slice() {
        [kind, rest @ ..] if rest.len() == 4 => (number16("the TYPE of S", kind)?, rest),
        _ => {
            return Err(BadLine::new(format!(
                "S is {}, which is no structure; write TYPE:ID:A:B:C",
                quoted(word)
            )))
        }
    };
    let has = fields_of(kind);
    for (field, has) in rest.iter().zip(has) {
        if !has && *field != b"-" {
            return Err(BadLine::new(format!(
                "S is {}; a structure of type {kind} lacks a field that is given; write - for it",
                quoted(word)
            )));
        }
    }
    let register = |at: usize| match has[at] {
        true => number32("a register of S", rest[at]),
        false => Ok(0),
    };
    Ok(AsptStructure {
        kind,
        id: match has[0] {
            true => number8("the ID of S", rest[0])?,
            false => 0,
        },
        registers: [register(1)?, register(2)?, register(3)?],
    })
}

/// A structure as an answer tells it.
fn structure_told(structure: &AsptStructure) -> String {
    let [a, b, c] = structure.registers;
    let mut text = structure.kind.to_string();
    let values = [u32::from(structure.id), a, b, c];
    for (value, has) in values.iter().zip(fields_of(structure.kind)) {
        match has {
            true => text.push_str(&format!(":{value:#x}")),
            false => text.push_str(":-"),
        }
    }
    text
}

#[cfg(test)]
mod tests {
    use super::super::tests::{all_are_bad, answers_after};
    use super::*;

    /// A call that writes a table, but for its structures.
    const WRITE: &str = "aspt-write a 414d44494e43 414d444943524200 1 0x2 3 0xfffffffffffff000 1";

    #[test]
    fn a_table_is_written_and_told() {
        let call = format!("{WRITE} 1:1:0x20:36:0x28 2:-:0:-:- 0:-:4092:8:12\naspt-read a\n");
        let expected = [
            "ok",
            "ok oem=414d44494e43 table=414d444943524200 oem-revision=0x1 creator=0x2 \
             creator-revision=0x3 base=0xfffffffffffff000 pages=0x1 1:0x1:0x20:0x24:0x28 2:-:0x0:-:- \
             0:-:0xffc:0x8:0xc",
        ];
        assert_eq!(answers_after("buffer a 112\n", &call), expected);
    }

    #[test]
    fn what_is_refused_keeps_the_buffer() {
        let calls = [
            "1:2:0:0:0 2:-:0:-:- 0:-:0:0:0",
            "1:1:0:0:0 2:-:0:-:- 2:-:0:-:-",
            "1:1:0:0:0 9:1:0:0:0 0:-:0:0:0",
            "1:1:0:0:0 65535:255:0:0:4294967295 0:-:0:0:0",
            "1:1:0:0:0 2:-:4093:-:- 0:-:0:0:0",
        ]
        .map(|structures| format!("{WRITE} {structures}\n"));
        let script = format!("digest a\naspt-read a\n{}digest a\n", calls.concat());
        let answers = answers_after("buffer a 112\n", &script);
        let refused = ["2", "5", "6", "6", "6", "7"].map(|number| format!("refused {number}"));
        assert_eq!(answers[1..7], refused);
        assert_eq!(answers[0], answers[7]);
    }

    #[test]
    fn what_is_no_table_is_a_bad_line() {
        let structures = [
            "0:1:0:0:0",
            "0:-:-:0:0",
            "0:-:0:0",
            "0:-:0:0:0:0",
            "0:-:0:0:",
            "1:-:0:0:0",
            "1:256:0:0:0",
            "1:1:0:0:0x100000000",
            "2:-:0:0:-",
            "2:-:0:-:0",
            "2:0:0:-:-",
            "3:-:0:0:0",
            "3:0:0:-:-",
            "65536:0:0:0:0",
            "-:-:-:-:-",
            "-",
            "0,-,0,0,0",
        ];
        let lines = structures.map(|bad| format!("{WRITE} 1:1:0:0:0 2:-:0:-:- {bad}"));
        let lines: Vec<&str> = lines.iter().map(String::as_str).collect();
        all_are_bad("buffer a 112\n", &lines);
        let good = "1:1:0:0:0 2:-:0:-:- 0:-:0:0:0";
        let heads = [
            "b 414d44494e43 414d444943524200 1 2 3 0 1",
            "a 414d44494e 414d444943524200 1 2 3 0 1",
            "a 414d44494e43 414d44494352420000 1 2 3 0 1",
            "a - 414d444943524200 1 2 3 0 1",
            "a 414d44494e43 414d444943524200 0x100000000 2 3 0 1",
            "a 414d44494e43 414d444943524200 1 0x100000000 3 0 1",
            "a 414d44494e43 414d444943524200 1 2 0x100000000 0 1",
            "a 414d44494e43 414d444943524200 1 2 3 0x10000000000000000 1",
            "a 414d44494e43 414d444943524200 1 2 3 0 0x100000000",
            "a 414d44494e43 414d444943524200 1 2 3 0",
        ];
        let lines = heads.map(|head| format!("aspt-write {head} {good}"));
        let lines: Vec<&str> = lines.iter().map(String::as_str).collect();
        all_are_bad("buffer a 112\n", &lines);
        all_are_bad(
            "buffer a 112\n",
            &["aspt-read", "aspt-read b", "aspt-read a a"],
        );
    }

    #[test]
    fn a_type_may_be_written_as_any_number() {
        let expected = AsptStructure {
            kind: 2,
            id: 0,
            registers: [7, 0, 0],
        };
        assert_eq!(structure(b"0x02:-:007:-:-"), Ok(expected));
        assert_eq!(structure_told(&expected), "2:-:0x7:-:-");
    }
}
