//! `kpalumere guids`: the GUID table at the end of a guest firmware image, with the names of the GUIDs that are known.

use crate::arguments::command::{Command, Job, OF_A_TABLE};
use crate::shown::answer::{table_shown, table_words};
use crate::shown::forms;
use crate::shown::json::{Fields, Json};
use crate::shown::page::{Look, Page};
use crate::shown::refusals;
use crate::system::terminal;
use bindings::{guid_entry, Answer, Guid, GuidEntry, GuidTable};
use clap::ArgMatches;

pub static COMMAND: Command = Command {
    name: "guids",
    does: "the GUID table of a guest firmware image, entry by entry",
    words: |command| table_words(command, "a guest firmware image, or - for standard input"),
    help: || HELP.to_string(),
    statuses: OF_A_TABLE,
    read,
};

/// What `guids --help` says.
const HELP: &str = "\
The table stands at the end of a guest firmware image, such as OVMF. Every entry
is shown, nearest the footer first: its GUID, where its data lies in FILE, how
long the data is, and the name of the GUID where source 004 or OVMF gives it
one.

Try it, with the Debian package ovmf:
  kpalumere guids /usr/share/ovmf/OVMF.fd
";

/// A GUID that has a name.
struct Known {
    guid: &'static str,
    name: &'static str,
}

/// The GUIDs of source 004, then those that OVMF puts into the same table for other readers.
static KNOWN: [Known; 5] = [
    Known {
        guid: "00f771de-1a7e-4fcb-890e-68c77e2fb44e",
        name: "SEV-ES reset block",
    },
    Known {
        guid: "4c2eb361-7d9b-4cc3-8081-127c90d3d294",
        name: "SEV secret block",
    },
    Known {
        guid: "7255371f-3a3b-4b04-927b-1da6efa8d454",
        name: "SEV hashes table",
    },
    Known {
        guid: "dc886566-984a-4798-a75e-5585a7bf67cc",
        name: "OVMF SEV metadata offset",
    },
    Known {
        guid: "e47a6535-984a-4798-865e-4685a7bf8ec2",
        name: "OVMF TDX metadata offset",
    },
];

/// A table with its entries, nearest the footer first.
struct Table {
    checked: GuidTable,
    entries: Vec<GuidEntry>,
}

fn read(matches: &ArgMatches) -> Result<Job, String> {
    table_shown(matches, table_of, text, fields)
}

/// The table, by what the library answers.
fn table_of(image: &[u8]) -> Answer<Table> {
    let checked = bindings::guids(image)?;
    let entries = (0..checked.entries as usize).map(|index| guid_entry(image, index));
    Ok(Table {
        checked,
        entries: entries.collect::<Answer<_>>()?,
    })
}

fn text(answer: &Answer<Table>) -> String {
    text_in(terminal::columns(), answer)
}

/// The table in so many columns, or as wide as it is where nothing limits it.
fn text_in(columns: Option<usize>, answer: &Answer<Table>) -> String {
    let Table { checked, entries } = match answer {
        Ok(table) => table,
        Err(refusal) => return format!("{}\n", refusals::told(*refusal)),
    };
    let mut page = Page::new(columns, false);
    let head = format!(
        "GUID table, total {}, {}",
        forms::size(checked.total),
        forms::entries(checked.entries)
    );
    page.add(Look::Plain, 0, 2, &head);
    let rows: Vec<[String; 5]> = (0..).zip(entries).map(cells).collect();
    if !rows.is_empty() {
        page.add_laid_out(2, HEADS, &rows, line);
    }
    page.into_text()
}

/// What stands above the cells of an entry.
const HEADS: [&str; 5] = ["index", "GUID", "data at", "length", "name"];

fn cells((index, entry): (u64, &GuidEntry)) -> [String; 5] {
    let guid = guid_text(&entry.guid);
    let name = name_of(&guid).unwrap_or("unnamed GUID").to_string();
    [
        index.to_string(),
        guid,
        format!("{:#x}", entry.place),
        entry.length.to_string(),
        name,
    ]
}

/// A line of the table.
fn line([index, guid, place, length, name]: &[String; 5]) -> String {
    format!("{index:>5}  {guid:<36}  {place:>9}  {length:>6}  {name}")
}

fn fields(answer: &Answer<Table>) -> Fields {
    let table = answer.as_ref().ok();
    let entries = table.map_or(&[][..], |table| &table.entries);
    vec![
        ("refused", refusals::json(answer)),
        (
            "total",
            Json::or_null(table, |table| Json::Number(table.checked.total)),
        ),
        (
            "entries",
            Json::List((0..).zip(entries).map(entry_json).collect()),
        ),
    ]
}

fn entry_json((index, entry): (u64, &GuidEntry)) -> Json {
    let guid = guid_text(&entry.guid);
    Json::Object(vec![
        ("index", Json::Number(index)),
        ("name", Json::or_null(name_of(&guid), Json::text)),
        ("guid", Json::Text(guid)),
        ("place", Json::Number(entry.place)),
        ("length", Json::Number(entry.length)),
    ])
}

fn name_of(guid: &str) -> Option<&'static str> {
    KNOWN
        .iter()
        .find(|known| known.guid == guid)
        .map(|known| known.name)
}

/// A GUID as people write it. Its first three groups are numbers, which lie in memory with their lowest byte first.
fn guid_text(guid: &Guid) -> String {
    const GROUPS: [&[usize]; 5] = [
        &[3, 2, 1, 0],
        &[5, 4],
        &[7, 6],
        &[8, 9],
        &[10, 11, 12, 13, 14, 15],
    ];
    let digits = |group: &&[usize]| -> String {
        group
            .iter()
            .map(|&place| format!("{:02x}", guid.0[place]))
            .collect()
    };
    GROUPS.iter().map(digits).collect::<Vec<_>>().join("-")
}

#[cfg(test)]
mod tests {
    use super::*;
    use bindings::{guid_extend, guid_start};

    #[test]
    fn a_guid_is_shown_as_people_write_it() {
        let bytes = [
            0xDE, 0x71, 0xF7, 0x00, 0x7E, 0x1A, 0xCB, 0x4F, 0x89, 0x0E, 0x68, 0xC7, 0x7E, 0x2F,
            0xB4, 0x4E,
        ];
        let text = guid_text(&Guid(bytes));
        assert_eq!(text, "00f771de-1a7e-4fcb-890e-68c77e2fb44e");
        assert_eq!(name_of(&text), Some("SEV-ES reset block"));
    }

    #[test]
    fn known_guids_are_written_as_shown() {
        for known in &KNOWN {
            assert_eq!(name_of(known.guid), Some(known.name));
            let groups: Vec<usize> = known.guid.split('-').map(str::len).collect();
            assert_eq!(groups, [8, 4, 4, 4, 12]);
            assert_eq!(known.guid, known.guid.to_lowercase());
        }
    }

    #[test]
    fn a_table_without_entries_has_no_rows() {
        let mut image = vec![0; 50];
        assert_eq!(guid_start(&mut image), Ok(()));
        let table = table_of(&image);
        assert_eq!(
            text_in(None, &table),
            "GUID table, total 0x12 (18 bytes), 0 entries\n"
        );
    }

    #[test]
    fn the_entry_nearest_the_footer_is_first_and_may_be_unknown() {
        let mut image = vec![0; 100];
        assert_eq!(guid_start(&mut image), Ok(()));
        assert_eq!(guid_extend(&mut image, &Guid([0xAB; 16]), b"abc"), Ok(39));
        assert_eq!(guid_extend(&mut image, &Guid([0; 16]), b""), Ok(57));
        let table = table_of(&image);
        let text = text_in(None, &table);
        let rows: Vec<&str> = text.lines().skip(2).map(str::trim).collect();
        assert_eq!(
            rows,
            [
                "0  abababab-abab-abab-abab-abababababab       0x1d       3  unnamed GUID",
                "1  00000000-0000-0000-0000-000000000000        0xb       0  unnamed GUID",
            ]
        );
        assert_eq!(text_in(Some(90), &table), text);
        let narrow = text_in(Some(50), &table);
        assert!(narrow.lines().all(|line| line.len() <= 50), "{narrow}");
        let told = "index 1, GUID 00000000-0000-0000-0000-000000000000, data at 0xb, length 0";
        let together = narrow.split_whitespace().collect::<Vec<_>>().join(" ");
        assert!(together.contains(told), "{narrow}");
    }
}
