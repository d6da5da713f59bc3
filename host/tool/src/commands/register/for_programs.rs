//! The register for programs: JSON and CSV, in the forms of docs/REGISTER.md.

use super::facts::{Asked, Facts, Listed};
use super::outcome::Outcome;
use super::sources::Source;
use super::summary::Summary;
use super::verdict::Verdict;
use crate::shown::csv;
use crate::shown::entry::EntryShown;
use crate::shown::first_fields::name_for_programs;
pub use crate::shown::first_fields::FORMAT;
use crate::shown::json::{Fields, Json};
use crate::shown::names;
use crate::shown::places::Refused;
use crate::shown::refusals;
use bindings::{Answer, Repeat};

// ---- JSON

/// An image.
pub fn image(source: &Source, outcome: &Outcome) -> Json {
    let judgement = &outcome.judgement;
    let facts = outcome.facts.as_ref().ok();
    let message = outcome.facts.as_ref().err();
    let directories = facts.map_or(Vec::new(), |facts| {
        facts.directories.iter().map(directory).collect()
    });
    let questions = facts.map_or(Vec::new(), |facts| facts.asked.iter().map(asked).collect());
    let mut fields = name_fields(source);
    fields.extend([
        ("verdict", Json::Text(judgement.verdict.for_programs())),
        (
            "refused",
            Json::or_null(judgement.refused, |refused| {
                Json::Number(refused.refusal.number)
            }),
        ),
        ("where", Json::or_null(judgement.met.as_ref(), Json::text)),
    ]);
    fields.extend(Refused::fields(judgement.refused.as_ref()));
    fields.extend([
        ("message", Json::or_null(message, Json::text)),
        (
            "length",
            Json::or_null(facts, |facts| Json::Number(facts.length as u64)),
        ),
        ("efs", Json::or_null(facts, efs)),
        ("pointer", Json::or_null(facts, pointer)),
        ("directories", Json::List(directories)),
        ("asked", Json::List(questions)),
    ]);
    Json::Object(fields)
}

/// A file's name: its text, and, where that is not the name itself, the name's bytes in hexadecimal digits. The sample has none.
fn name_fields(source: &Source) -> Fields {
    let (text, bytes) = match source.name().map(name_for_programs) {
        Some((text, bytes)) => (Some(text), bytes),
        None => (None, None),
    };
    vec![
        ("file", Json::or_null(text, Json::Text)),
        ("file_bytes", Json::or_null(bytes, Json::Text)),
    ]
}

/// A field of what was given, or null where it was refused.
fn field<T: Copy>(answer: Answer<T>, of: impl FnOnce(T) -> u64) -> Json {
    Json::or_null(answer.ok(), |given| Json::Number(of(given)))
}

fn efs(facts: &Facts) -> Json {
    Json::Object(vec![
        ("place", field(facts.efs, |efs| efs.place)),
        ("early", field(facts.efs, |efs| efs.early)),
        ("late", field(facts.efs, |efs| efs.late)),
        ("refused", refusals::json(&facts.efs)),
    ])
}

fn pointer(facts: &Facts) -> Json {
    Json::Object(vec![
        ("field", field(facts.pointer, |pointer| pointer.field)),
        ("value", field(facts.pointer, |pointer| pointer.value)),
        ("place", field(facts.pointer, |pointer| pointer.place)),
        ("refused", refusals::json(&facts.pointer)),
    ])
}

fn directory(listed: &Listed) -> Json {
    let rows = (0..).zip(&listed.entries);
    let mut fields = vec![level_field(listed), lead_field(listed)];
    fields.extend([
        ("place", field(listed.directory, |found| found.place)),
        ("total", field(listed.directory, |found| found.total)),
        ("refused", refusals::json(&listed.directory)),
    ]);
    fields.extend(Refused::fields(listed.refused.as_ref()));
    let both = listed.refused.and_then(|refused| refused.repeat);
    fields.extend([
        ("repeat", repeat(both)),
        (
            "entries",
            Json::List(
                rows.map(|(index, row)| Json::Object(row.fields(index)))
                    .collect(),
            ),
        ),
    ]);
    Json::Object(fields)
}

fn level_field(listed: &Listed) -> (&'static str, Json) {
    ("level", Json::Number(u64::from(listed.level)))
}

fn lead_field(listed: &Listed) -> (&'static str, Json) {
    ("lead", Json::or_null(listed.lead, Json::Number))
}

/// The entries that repeat, or nulls where none does.
fn repeat(repeat: Option<Repeat>) -> Json {
    let number = |of: fn(Repeat) -> u64| Json::or_null(repeat, |repeat| Json::Number(of(repeat)));
    Json::Object(vec![
        ("index", number(|repeat| repeat.index)),
        ("earlier", number(|repeat| repeat.earlier)),
        ("type", number(|repeat| repeat.class)),
        ("subprogram", number(|repeat| repeat.subprogram)),
    ])
}

fn asked(asked: &Asked) -> Json {
    let tested = match asked.answer {
        Ok(found) => Some(found.at.tested),
        Err(refusal) => refusal.tested,
    };
    let version = asked
        .answer
        .ok()
        .and_then(|found| found.row.version_words());
    let mut fields = vec![
        ("type", Json::Number(u64::from(asked.class))),
        ("name", name_of_type(u64::from(asked.class))),
        ("subprogram", Json::Number(0)),
        ("level", field(asked.answer, |found| found.at.level)),
        ("directory", field(asked.answer, |found| found.at.place)),
        ("index", field(asked.answer, |found| found.at.index)),
        ("tested", Json::or_null(tested, Json::Number)),
        ("refused", refusals::json(&asked.answer)),
    ];
    fields.extend(Refused::fields(asked.refused.as_ref()));
    fields.push(("version", Json::or_null(version, Json::Text)));
    Json::Object(fields)
}

fn name_of_type(class: u64) -> Json {
    Json::or_null(names::entry_type(class), |known| Json::text(known.name))
}

/// What stands after the images.
pub fn summary(summary: &Summary) -> Json {
    let count = |verdict: Verdict| Json::Number(summary.of(verdict));
    Json::Object(vec![
        ("images", Json::Number(summary.images())),
        ("good", count(Verdict::Good)),
        ("no_boot_loader", count(Verdict::NoBootLoader)),
        (
            "boot_loader_without_bytes",
            count(Verdict::BootLoaderWithoutBytes),
        ),
        ("refused", count(Verdict::Refused)),
        ("not_read", count(Verdict::NotRead)),
    ])
}

// ---- CSV: the same values, a row for each image, directory, entry and question

/// The columns. A row fills those that its sort has, and leaves the others empty.
const COLUMNS: [&str; 43] = [
    "format",
    "row",
    "file",
    "file_bytes",
    "verdict",
    "refused",
    "where",
    "message",
    "length",
    "efs_place",
    "efs_early",
    "efs_late",
    "efs_refused",
    "pointer_field",
    "pointer_value",
    "pointer_place",
    "pointer_refused",
    "level",
    "lead",
    "place",
    "total",
    "index",
    "type",
    "name",
    "subprogram",
    "size",
    "mode",
    "location",
    "value",
    "directory",
    "tested",
    "version",
    "repeat_index",
    "repeat_earlier",
    "repeat_type",
    "repeat_subprogram",
    "met_level",
    "met_index",
    "met_directory",
    "wrong_field",
    "wrong_bytes",
    "wrong_stands",
    "wrong_should",
];

/// The line with the columns' names.
pub fn csv_head() -> String {
    csv::line(COLUMNS)
}

/// The rows of an image.
pub fn csv_rows(source: &Source, outcome: &Outcome) -> String {
    let row = |name: &str, values: Json| csv_row(name, source, values);
    let mut rows = row("image", image(source, outcome));
    if let Ok(facts) = &outcome.facts {
        for listed in &facts.directories {
            rows.push_str(&row("directory", directory(listed)));
            for (index, of) in (0..).zip(&listed.entries) {
                rows.push_str(&row("entry", entry_in(listed, index, of)));
            }
        }
        for question in &facts.asked {
            rows.push_str(&row("asked", asked(question)));
        }
    }
    rows
}

/// An entry with the directory that it stands in, which JSON tells around it.
fn entry_in(listed: &Listed, index: u64, row: &EntryShown) -> Json {
    let place = field(listed.directory, |found| found.place);
    let around = vec![
        level_field(listed),
        lead_field(listed),
        ("directory", place),
    ];
    let fields = around.into_iter().chain(row.fields(index));
    Json::Object(fields.collect())
}

/// A row: what every row begins with, and the values of its object.
fn csv_row(name: &str, source: &Source, values: Json) -> String {
    let mut cells = Vec::new();
    let first = [("format", Json::Number(FORMAT)), ("row", Json::text(name))];
    put_cells(&mut cells, "", &first);
    put_cells(&mut cells, "", &name_fields(source));
    if let Json::Object(fields) = values {
        put_cells(&mut cells, "", &fields);
    }
    let cell = |column: &str| {
        let found = cells.iter().find(|(name, _)| name == column);
        found.map_or("", |(_, text)| text.as_str())
    };
    csv::line(COLUMNS.map(cell))
}

/// Adds the cells of fields that are not empty. A field in an object is named after both; a list has rows of its own.
fn put_cells(cells: &mut Vec<(String, String)>, before: &str, fields: &[(&'static str, Json)]) {
    for (name, value) in fields {
        let text = match value {
            Json::Null | Json::List(_) => continue,
            Json::Object(fields) => {
                put_cells(cells, &format!("{before}{name}_"), fields);
                continue;
            }
            Json::Text(text) => text.clone(),
            plain => plain.to_string(),
        };
        cells.push((format!("{before}{name}"), text));
    }
}

#[cfg(test)]
mod tests {
    use super::super::facts::Facts;
    use super::super::sample;
    use super::super::verdict::Judgement;
    use super::*;
    use bindings::Words;
    use std::ffi::OsString;

    /// Every name of a field, as a column has it.
    fn names_in(json: &Json, before: &str, names: &mut Vec<String>) {
        match json {
            Json::List(items) => items.iter().for_each(|item| names_in(item, "", names)),
            Json::Object(fields) => fields.iter().for_each(|(name, value)| match value {
                Json::List(_) => names_in(value, "", names),
                Json::Object(_) => names_in(value, &format!("{name}_"), names),
                _ => names.push(format!("{before}{name}")),
            }),
            _ => (),
        }
    }

    /// What comes of the sample board with a damaged level two.
    fn refused() -> Outcome {
        let mut board = sample::board().expect("the sample can be made");
        board[0x2_8010] ^= 0xFF;
        let facts = Facts::of(&board, &mut Words::new());
        Outcome {
            judgement: Judgement::of(&facts),
            facts: Ok(facts),
        }
    }

    #[test]
    fn a_refused_image_tells_where_and_what_is_wrong() {
        let outcome = refused();
        let json = image(&Source::Sample, &outcome).to_string();
        let met = "\"met\": {\"level\": 2, \"index\": null, \"directory\": 163840}";
        let wrong = "\"wrong\": {\"field\": 163844, \"bytes\": 4, \"stands\": \"0x";
        // Of the image, of level two, and of each question whose answer stands behind the fault.
        assert_eq!(json.matches(met).count(), 2 + 4, "{json}");
        assert_eq!(json.matches(wrong).count(), 2 + 4, "{json}");
        let rows = csv_rows(&Source::Sample, &outcome);
        assert_eq!(
            rows.matches(",2,,163840,163844,4,0x").count(),
            2 + 4,
            "{rows}"
        );
    }

    #[test]
    fn every_field_has_its_column_and_every_column_its_field() {
        let outcome = Outcome::of(&Source::Sample, &mut Words::new());
        let mut names = vec![String::from("format"), String::from("row")];
        names_in(&image(&Source::Sample, &outcome), "", &mut names);
        // What is wrong in a directory is told of one that is refused.
        names_in(&image(&Source::Sample, &refused()), "", &mut names);
        names.retain(|name| !["met", "wrong"].contains(&name.as_str()));
        for name in &names {
            assert!(COLUMNS.contains(&name.as_str()), "{name}");
        }
        for column in COLUMNS {
            assert!(names.iter().any(|name| name == column), "{column}");
        }
    }

    #[test]
    fn a_file_that_was_not_read_has_its_row_and_its_message() {
        let source = Source::File(OsString::from("there/is/no/such.rom"));
        let outcome = Outcome::of(&source, &mut Words::new());
        let rows = csv_rows(&source, &outcome);
        assert!(
            rows.starts_with(
                "2,image,there/is/no/such.rom,,not-read,,,\"\"\"there/is/no/such.rom\"\" cannot "
            ),
            "{rows}"
        );
        assert_eq!(rows.lines().count(), 1, "{rows}");
        let json = image(&source, &outcome).to_string();
        assert!(json.contains("\"verdict\": \"not-read\""), "{json}");
        assert!(json.contains("\"length\": null"), "{json}");
        assert!(!json.contains("kpalumere"), "{json}");
    }
}
