//! What is wrong at the place of a refusal: the field, what stands in it, and what should.

use super::{
    check_image_length, checked_by_cookie, checked_directory, checksum, first_repeat, Directory,
    Entry, Level, ENTRY, HEADER, IS_A_VALUE, MOST_ENTRIES,
};
use crate::little_endian::{u16_at, u32_at};
use crate::refusal::{require, Refusal};

/// What is wrong at a place.
#[derive(Clone, Copy, Debug, PartialEq, Eq)]
pub struct Wrong {
    /// The number that is due there.
    pub number: u8,
    /// Where the field begins in the image, and its length.
    pub field: u64,
    pub bytes: u64,
    /// What stands in it, and what should: a value, a length, a limit, or another entry's index.
    pub stands: u64,
    pub should: u64,
}

/// What is wrong with the directory of that level at `place`, or, where it is good, with the location of its entry `index`. Level
/// 0 is the level by the cookie. Nothing wrong, and no such entry: 8.
pub fn wrong(image: &[u8], place: u64, level: u32, index: u64) -> Result<Wrong, Refusal> {
    // a level that a refusal can carry (9)
    let level = match level {
        0 => None,
        number => Some(Level::numbered(number)?),
    };
    check_image_length(image)?;
    // the place is not beyond the image
    require(place <= image.len() as u64, 7)?;
    let checked = match level {
        None => checked_by_cookie(image, place),
        Some(level) => checked_directory(image, place, level),
    };
    let refusal = match checked {
        Err(refusal) => refusal,
        Ok(directory) => wrong_location(&directory, index)?,
    };
    let from_place = &image[place as usize..];
    let (at, bytes, stands, should) = match refusal.place.and_then(|met| met.index) {
        None => of_header(from_place, refusal.number, level.unwrap_or(Level::One)),
        Some(index) => of_entry(from_place, refusal.number, index, image.len()),
    };
    Ok(Wrong {
        number: refusal.number,
        field: place + at,
        bytes,
        stands,
        should,
    })
}

/// Why the bytes of entry `index` are refused. That there is no such entry is nothing wrong with one, and nor are bytes that are there.
fn wrong_location(directory: &Directory, index: u64) -> Result<Refusal, Refusal> {
    match directory.bytes(index) {
        Err(refusal) if refusal.place.is_some() => Ok(refusal),
        _ => Err(Refusal::of(8)),
    }
}

/// A field: its offset from the directory's begin, its length, what stands in it, and what should.
type Field = (u64, u64, u64, u64);

/// The field of the header that is refused so. `from_place` begins with the directory.
fn of_header(from_place: &[u8], number: u8, level: Level) -> Field {
    let there = from_place.len() as u64;
    let header = HEADER as u64;
    // all checks but the first come to the header's fields
    if there < header {
        return (0, header, there, header);
    }
    let field = |at: usize| u64::from(u32_at(from_place, at));
    let entries = ENTRY as u64 * field(8);
    match number {
        1 => (header, entries, there - header, entries),
        2 => (0, 4, field(0), u64::from(u32_at(level.cookie(), 0))),
        3 => (8, 4, field(8), u64::from(MOST_ENTRIES)),
        4 => {
            let end = (header + entries) as usize;
            (4, 4, field(4), u64::from(checksum(&from_place[8..end])))
        }
        _ => (0x0C, 4, field(0x0C), 0),
    }
}

/// The field of entry `index` that is refused so.
fn of_entry(from_place: &[u8], number: u8, index: u64, image_length: usize) -> Field {
    let entries = &from_place[HEADER..];
    let at = ENTRY * index as usize;
    let bytes = &entries[at..at + ENTRY];
    let entry = Entry::read(bytes);
    let kind = u64::from(entry.kind);
    let (field, length, stands, should) = match number {
        5 => (2, 2, u64::from(u16_at(bytes, 2)), 0),
        // the level where it may stand
        14 => (0, 1, kind, u64::from(Level::One.number())),
        // the entry that it repeats
        18 => (0, 1, kind, first_repeat(entries).map_or(0, |r| r.earlier)),
        17 => (0, 1, kind, u64::from(IS_A_VALUE)),
        // the highest mode
        16 => (8, 8, u64::from(entry.mode), 2),
        // where its bytes must have ended
        _ => (8, 8, entry.location, image_length as u64),
    };
    ((HEADER + at) as u64 + field, length, stands, should)
}
