//! `kpalumere aspt`: the AMD Secure Processor Table, laid out with the names of source 000.

use crate::arguments::command::{Command, Job, OF_A_TABLE};
use crate::shown::answer::{table_shown, table_words};
use crate::shown::digits::hexadecimal;
use crate::shown::json::{Fields, Json};
use crate::shown::refusals;
use bindings::{aspt_read, Answer, AsptStructure, AsptTable};
use clap::ArgMatches;

pub static COMMAND: Command = Command {
    name: "aspt",
    does: "the ACPI table ASPT, laid out with its names",
    words: |command| {
        table_words(
            command,
            "the table, in its first 112 bytes, or - for standard input",
        )
    },
    help: || HELP.to_string(),
    statuses: OF_A_TABLE,
    read,
};

/// What `aspt --help` says.
const HELP: &str = "\
The fields of the AMD Secure Processor Table (ASPT) have the names that source
000 gives them. Registers are shown with their offset and with the address that
base and offset make.

Try it, on a machine that has the table:
  kpalumere aspt /sys/firmware/acpi/tables/ASPT
";

/// The names of a structure: its own, and of each register that its type has.
struct Names {
    structure: &'static str,
    registers: &'static [&'static str],
}

/// The names of the structures of types 0, 1 and 2.
static STRUCTURES: [Names; 3] = [
    Names {
        structure: "ASP Global Registers",
        registers: &[
            "Feature Register",
            "Interrupt Enable Register",
            "Interrupt Status Register",
        ],
    },
    Names {
        structure: "SEV Mailbox Registers",
        registers: &[
            "CmdResp Register",
            "CmdBufAddr_Lo Register",
            "CmdBufAddr_Hi Register",
        ],
    },
    Names {
        structure: "ACPI Mailbox Registers",
        registers: &["CmdResp Register"],
    },
];

/// The type that has a Mailbox Interrupt ID.
const SEV_MAILBOX: u16 = 1;

fn read(matches: &ArgMatches) -> Result<Job, String> {
    table_shown(matches, aspt_read, text, fields)
}

fn text(answer: &Answer<AsptTable>) -> String {
    let table = match answer {
        Ok(table) => table,
        Err(refusal) => return format!("{}\n", refusals::told(*refusal)),
    };
    let mut text = String::from("AMD Secure Processor Table, 112 bytes, revision 2\n");
    for (name, value) in [
        ("OEM ID", id_text(&table.oem)),
        ("OEM Table ID", id_text(&table.oem_table)),
        ("OEM Revision", format!("{:#x}", table.oem_revision)),
        ("Creator ID", format!("{:#x}", table.creator)),
        ("Creator Revision", format!("{:#x}", table.creator_revision)),
        ("ASP Register Base Address", format!("{:#x}", table.base)),
        ("ASP Register Space Pages", format!("{:#x}", table.pages)),
    ] {
        text.push_str(&format!("  {name:<25}  {value}\n"));
    }
    for structure in &table.structures {
        text.push_str(&structure_text(table.base, structure));
    }
    text
}

fn structure_text(base: u64, structure: &AsptStructure) -> String {
    let kind = structure.kind;
    let names = names_of(kind);
    let mut text = format!("\n{} (type {kind})\n", names.structure);
    if kind == SEV_MAILBOX {
        text.push_str(&format!(
            "  {:<25}  {:#x}\n",
            "Mailbox Interrupt ID", structure.id
        ));
    }
    for (name, offset) in names.registers.iter().zip(structure.registers) {
        let address = base + u64::from(offset);
        text.push_str(&format!("  {name:<25}  {offset:#x}, at {address:#x}\n"));
    }
    text
}

/// The names of an accepted structure. The library accepts no other types than those named.
fn names_of(kind: u16) -> &'static Names {
    &STRUCTURES[usize::from(kind)]
}

/// An ID of letters as people read it. What is no letter, digit or sign is shown as a dot, and zero bytes at the end not at all.
fn id_text(id: &[u8]) -> String {
    let last = id.iter().rposition(|&byte| byte != 0);
    let letters: String = id[..last.map_or(0, |last| last + 1)]
        .iter()
        .map(|&byte| match byte {
            b' '..=b'~' => char::from(byte),
            _ => '.',
        })
        .collect();
    format!("'{letters}' ({})", hexadecimal(id))
}

fn fields(answer: &Answer<AsptTable>) -> Fields {
    let table = answer.as_ref().ok();
    let text = |of: fn(&AsptTable) -> String| Json::or_null(table, |table| Json::Text(of(table)));
    let number = |of: fn(&AsptTable) -> u32| {
        Json::or_null(table, |table| Json::Number(u64::from(of(table))))
    };
    let structures = table.map_or(&[][..], |table| &table.structures);
    vec![
        ("refused", refusals::json(answer)),
        ("oem_id", text(|table| hexadecimal(&table.oem))),
        ("oem_table_id", text(|table| hexadecimal(&table.oem_table))),
        ("oem_revision", number(|table| table.oem_revision)),
        ("creator_id", number(|table| table.creator)),
        ("creator_revision", number(|table| table.creator_revision)),
        ("base", text(|table| format!("{:#x}", table.base))),
        ("pages", number(|table| table.pages)),
        (
            "structures",
            Json::List(structures.iter().map(structure_json).collect()),
        ),
    ]
}

fn structure_json(structure: &AsptStructure) -> Json {
    let names = names_of(structure.kind);
    let id = (structure.kind == SEV_MAILBOX).then_some(u64::from(structure.id));
    let registers = names.registers.iter().zip(structure.registers);
    let registers = registers.map(|(name, offset)| {
        Json::Object(vec![
            ("name", Json::text(*name)),
            ("offset", Json::Number(u64::from(offset))),
        ])
    });
    Json::Object(vec![
        ("type", Json::Number(u64::from(structure.kind))),
        ("name", Json::text(names.structure)),
        ("interrupt_id", Json::or_null(id, Json::Number)),
        ("registers", Json::List(registers.collect())),
    ])
}

#[cfg(test)]
mod tests {
    use super::*;

    #[test]
    fn an_id_is_shown_in_letters_and_in_full() {
        assert_eq!(id_text(b"AMDINC"), "'AMDINC' (414d44494e43)");
        assert_eq!(id_text(b"AMDICRB\0"), "'AMDICRB' (414d444943524200)");
        assert_eq!(id_text(b"A\0\x1bB \0"), "'A..B ' (41001b422000)");
        assert_eq!(id_text(&[0; 6]), "'' (000000000000)");
    }

    #[test]
    fn the_last_register_of_the_last_page_has_an_address() {
        let structure = AsptStructure {
            kind: 2,
            id: 0,
            registers: [0xFFC, 0, 0],
        };
        let text = structure_text(u64::MAX - 0xFFF, &structure);
        assert!(text.ends_with("0xffc, at 0xfffffffffffffffc\n"), "{text}");
    }
}
