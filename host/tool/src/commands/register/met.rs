//! Where that was met which a verdict is based on, in words.

use super::facts::{Facts, Listed, BOOT_LOADER};
use crate::shown::forms;
use crate::shown::places::Refused;
use bindings::Refusal;
use std::fmt::Display;

/// Where the walk through an image met its fault: in a directory, or before them all.
pub fn fault(facts: &Facts, refused: &Refused) -> String {
    let before = match (facts.efs, facts.pointer) {
        (Err(refusal), _) if refusal.is(Refusal::IMAGE) => "length",
        (Err(_), _) => "EFS",
        (Ok(_), _) => "pointers",
    };
    refused
        .place_words()
        .unwrap_or_else(|| String::from(before))
}

/// A directory of level two with the entry that leads to it: `level 2 at 0x28000, led by entry 3 of level 1`.
pub fn led(directory: &str, lead: impl Display) -> String {
    format!(
        "{directory}, led by {}",
        forms::entry(lead, &forms::level(1))
    )
}

/// Where the boot loader's type stands, all with another subprogram than the boot loader's.
pub fn boot_loader_type(facts: &Facts) -> Option<String> {
    let distinct = facts.directories.iter();
    let distinct = distinct.filter(|listed| facts.listed_before(listed).is_none());
    let mut found = distinct.flat_map(|listed| {
        let entries = listed.entries.iter().enumerate();
        let wanted = entries.filter(|(_, row)| row.entry.class == u64::from(BOOT_LOADER));
        wanted.map(move |(index, row)| (listed, index, row.entry.subprogram))
    });
    let (listed, index, subprogram) = found.next()?;
    let more = match found.count() {
        0 => String::new(),
        count => format!(
            ", and in {}",
            forms::counted(count as u64, "more entry", "more entries")
        ),
    };
    let directory = directory_words(facts, listed);
    Some(format!(
        "type {BOOT_LOADER:#04x} stands in {directory} at index {index} with subprogram \
         {subprogram:#04x}{more}"
    ))
}

/// A directory by its level alone, and with its place where there are others of that level.
fn directory_words(facts: &Facts, listed: &Listed) -> String {
    let of_level = facts.directories.iter();
    let of_level = of_level.filter(|other| other.level == listed.level);
    match (of_level.count(), listed.directory) {
        (2.., Ok(found)) => forms::directory(found.level, found.place),
        _ => forms::level(listed.level),
    }
}
