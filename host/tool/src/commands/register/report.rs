//! The register of an image for people: a table where the terminal is wide enough, else lines that fit it.

use super::facts::{Asked, Facts, Found, Listed};
use super::met::led;
use super::outcome::Outcome;
use super::sources::Source;
use super::summary::Summary;
use super::verdict::{Judgement, Verdict};
use crate::shown::entry::EntryShown;
use crate::shown::forms;
use crate::shown::names;
use crate::shown::page::{Look, Page};
use crate::shown::places::Refused;
use crate::shown::refusals::told_kept;
use crate::system::folding::kept;

/// What is shown of an image.
pub fn image(page: &mut Page, source: &Source, outcome: &Outcome) {
    headline(page, source, &outcome.judgement);
    let facts = match &outcome.facts {
        Ok(facts) => facts,
        Err(_) => return,
    };
    let length = forms::bytes(facts.length as u64);
    page.add(Look::Plain, 2, 2, &format!("length {length}"));
    way(page, facts);
    directories(page, facts);
    if facts.level_one().directory.is_ok() {
        questions(page, &facts.asked);
    }
    let hints = hints(source, &outcome.judgement);
    if !hints.is_empty() {
        page.gap();
    }
    for hint in hints {
        page.add(Look::Plain, 2, 2, &hint);
    }
}

/// The name and the verdict. A name may have any characters, so it is not broken, and has a line of its own where both do not fit.
fn headline(page: &mut Page, source: &Source, judgement: &Judgement) {
    let look = judgement.verdict.look();
    let (name, words) = (source.shown(), judgement.words());
    let line = format!("{name}: {words}");
    if page.has_room_for(0, &line) {
        page.add_whole(look, 0, &line);
    } else {
        page.add_whole(look, 0, &format!("{name}:"));
        page.add(look, 2, 2, &words);
    }
}

/// What to do next.
fn hints(source: &Source, judgement: &Judgement) -> Vec<String> {
    match (judgement.refused, judgement.verdict, source) {
        (Some(refused), ..) => refused.hints(),
        (None, Verdict::NoBootLoader, _) => vec![String::from(
            "No directory has an entry of type 0x01 with subprogram 0x00, and no machine starts \
             without its boot loader.",
        )],
        (None, _, Source::Sample) => {
            let command = kept("`kpalumere register IMAGE`");
            vec![format!("{command} shows the same of an image of your own.")]
        }
        _ => Vec::new(),
    }
}

/// The way to level one: the EFS and its pointers.
fn way(page: &mut Page, facts: &Facts) {
    let efs = match facts.efs {
        Ok(efs) => efs,
        Err(refusal) => {
            let line = format!("EFS: {}", told_kept(refusal));
            page.add(Look::Bad, 2, 2, &line);
            return;
        }
    };
    page.add(Look::Plain, 2, 2, &format!("EFS at {:#x}", efs.place));
    for (field, value) in [(0x14, efs.late), (0x10, efs.early)] {
        // Of pointers that are refused the library does not say which of them it went by.
        let used = match facts.pointer {
            Ok(pointer) if pointer.field == field => {
                let leads = kept(&format!("leads to {:#x}", pointer.place));
                format!(", used, {leads}")
            }
            Ok(_) => String::from(", not used"),
            Err(_) => String::new(),
        };
        let label = kept(&format!("pointer at {field:#x}:"));
        let line = format!("{label} {value:#010x}{used}");
        page.add(Look::Plain, 2, 2, &line);
    }
    if let Err(refusal) = facts.pointer {
        let line = format!("pointers: {}", told_kept(refusal));
        page.add(Look::Bad, 2, 2, &line);
    }
}

/// Every directory, and what is said of one that is not listed.
fn directories(page: &mut Page, facts: &Facts) {
    let is_parted = facts.level_one().directory.is_ok();
    for listed in &facts.directories {
        if is_parted {
            page.gap();
        }
        directory(page, facts, listed);
    }
    if let Some((name, refused)) = not_listed(facts) {
        if is_parted {
            page.gap();
        }
        directory_not_shown(page, &name, refused);
    }
}

/// A level two that is not listed, where one is not, and why it is refused, where it is.
fn not_listed(facts: &Facts) -> Option<(String, Option<Refused>)> {
    let two = forms::level(2);
    match facts.directories.get(1) {
        _ if facts.level_one().directory.is_err() => Some((format!("{two}: not reached"), None)),
        None => {
            let line = format!("{two}: none, for no entry of level 1 leads to it");
            Some((line, None))
        }
        // The lowest lead's is good, so that a fault is a later one's.
        Some(listed) if listed.directory.is_ok() => facts
            .fault
            .map(|fault| (format!("another {two}"), Some(fault))),
        Some(_) => None,
    }
}

/// A directory and its entries, or why there is none to be shown.
fn directory(page: &mut Page, facts: &Facts, listed: &Listed) {
    let found = match listed.directory {
        Ok(found) => found,
        Err(_) => {
            let name = forms::level(listed.level);
            // One that the way does not reach was refused before, with the same number, and is shown so there.
            return match facts.pointer {
                Ok(_) => directory_not_shown(page, &name, listed.refused),
                Err(_) => directory_not_shown(page, &format!("{name}: not reached"), None),
            };
        }
    };
    let name = forms::directory(found.level, found.place);
    let name = listed.lead.map_or(name.clone(), |lead| led(&name, lead));
    if let Some(before) = facts.listed_before(listed) {
        let before = before.lead.map_or(forms::level(1), |lead| {
            format!("that of {}", kept(&format!("entry {lead}")))
        });
        let line = format!("{name}: the same directory as {before}, above");
        page.add(Look::Heading, 2, 2, &line);
        return;
    }
    let line = format!("{name}, {}", kept(&forms::entries(found.total)));
    page.add(Look::Heading, 2, 2, &line);
    if !listed.entries.is_empty() {
        entries(page, &listed.entries);
    }
}

/// A directory that is not shown: why it is refused, and on a line of its own where, what stands there and what should.
fn directory_not_shown(page: &mut Page, name: &str, refused: Option<Refused>) {
    match refused {
        None => page.add(Look::Plain, 2, 2, name),
        Some(refused) => {
            page.add(Look::Bad, 2, 2, &format!("{name}: {}", refused.told()));
            if let Some(found) = refused.found() {
                page.add(Look::Bad, 4, 2, &found);
            }
        }
    }
}

/// The entries of a directory: a table, or lines for each.
fn entries(page: &mut Page, rows: &[EntryShown]) {
    let heads = [
        "index",
        "type",
        "subprogram",
        "size",
        "location",
        "counted as",
        "bytes of the image",
        "version",
    ];
    let mut table = vec![(Look::Heading, heads.map(String::from).to_vec())];
    let cells = rows.iter().enumerate();
    table.extend(cells.map(|(index, row)| (look_of(row), entry_cells(index, row))));
    if page.add_table(4, &table) {
        return;
    }
    for (index, row) in rows.iter().enumerate() {
        let [first, second] = entry_lines(index, row);
        page.add(look_of(row), 4, 4, &first);
        page.add(look_of(row), 8, 0, &second);
    }
}

/// An entry in a table.
fn entry_cells(index: usize, row: &EntryShown) -> Vec<String> {
    let entry = &row.entry;
    vec![
        index.to_string(),
        names::numbered_type(entry.class),
        format!("{:#04x}", entry.subprogram),
        format!("{:#x}", entry.size),
        format!("{:#x}", entry.location),
        names::address_mode_words(entry.mode),
        bytes_words(row),
        row.version_words().unwrap_or_else(|| String::from("-")),
    ]
}

/// The same on two lines, each of which may need more than one.
fn entry_lines(index: usize, row: &EntryShown) -> [String; 2] {
    let entry = &row.entry;
    let first = format!(
        "{} {} {}",
        kept(&format!("{index}  {},", names::numbered_type(entry.class))),
        kept(&format!("subprogram {:#04x},", entry.subprogram)),
        kept(&format!("size {:#x}", entry.size))
    );
    let bytes = match row.value() {
        Some(_) => bytes_words(row),
        None => format!("{}{}", kept("bytes "), bytes_words(row)),
    };
    let version = row.version_words().map_or(String::new(), |version| {
        format!("; {}", kept(&format!("version {version}")))
    });
    let second = format!(
        "{} {}; {bytes}{version}",
        kept(&format!("location {:#x},", entry.location)),
        kept(&names::address_mode_words(entry.mode)),
    );
    [first, second]
}

/// A value is no fault; any other entry without bytes is shown as one.
fn look_of(row: &EntryShown) -> Look {
    match row.refused {
        None => Look::Plain,
        Some(_) => Look::Bad,
    }
}

/// Where the bytes of an entry lie, the value that it holds in their place, or why it has none.
fn bytes_words(row: &EntryShown) -> String {
    match (row.part, row.value()) {
        (Ok(part), _) => kept(&forms::range(part)),
        (Err(_), Some(value)) => kept(&format!("value {value:#x}")),
        (Err(refusal), None) => told_kept(refusal),
    }
}

/// The questions that every register is asked, and where their answers are.
fn questions(page: &mut Page, asked: &[Asked]) {
    page.gap();
    let head = "firmware by type, with subprogram 0, in the whole image";
    page.add(Look::Heading, 2, 2, head);
    let rows: Vec<(Look, Vec<String>)> = asked
        .iter()
        .map(|asked| {
            let words = names::entry_type_words(u64::from(asked.class));
            let (look, answer) = answer_words(asked);
            (look, vec![format!("{words}:"), answer])
        })
        .collect();
    if page.add_table(4, &rows) {
        return;
    }
    for (look, cells) in rows {
        page.add(look, 4, 4, &cells.join(" "));
    }
}

fn answer_words(asked: &Asked) -> (Look, String) {
    match asked.answer {
        Ok(Found { at, row }) => {
            let directory = forms::directory(at.level, at.place);
            let version = row.version_words().map_or(String::new(), |version| {
                format!(", {}", kept(&format!("version {version}")))
            });
            let line = format!(
                "{}{version} {}",
                kept(&forms::entry(at.index, &directory)),
                tested_words(at.tested)
            );
            (Look::Plain, line)
        }
        Err(refusal) => match refusal.tested {
            Some(count) => (Look::Plain, format!("none {}", tested_words(count))),
            None => (Look::Bad, told_kept(refusal)),
        },
    }
}

fn tested_words(count: u64) -> String {
    kept(&format!("({})", forms::tested(count)))
}

/// The line over all images.
pub fn summary(page: &mut Page, summary: &Summary) {
    let counts: Vec<String> = Verdict::ALL
        .into_iter()
        .map(|verdict| {
            let by = match verdict {
                Verdict::Refused => refused_by(summary),
                _ => String::new(),
            };
            let count = format!("{} {}", summary.of(verdict), verdict.words());
            kept(&count) + &by
        })
        .collect();
    let images = forms::counted(summary.images(), "image", "images");
    let look = match summary.all_good() {
        true => Look::Good,
        false => Look::Bad,
    };
    page.add(look, 0, 2, &format!("{images}: {}", counts.join(", ")));
}

/// How many images were refused by each number.
fn refused_by(summary: &Summary) -> String {
    let by = summary.refused_by.iter();
    let by: Vec<String> = by
        .map(|(number, count)| kept(&format!("{count} by {number}")))
        .collect();
    match by.is_empty() {
        true => String::new(),
        false => format!(" ({})", by.join(", ")),
    }
}
