//! GUID table: the tail of a guest firmware image, read and extended.

use crate::little_endian::{put, u16_at};
use crate::refusal::{require, Refusal};

/// A GUID's sixteen bytes as they stand in an image, the first three fields little-endian.
pub type Guid = [u8; 16];

const FOOTER: Guid = [
    0xDE, 0x82, 0xB5, 0x96, 0xB2, 0x1F, 0xF7, 0x45, 0xBA, 0xEA, 0xA3, 0x66, 0xC5, 0x5A, 0x08, 0x2D,
];
/// How far before the image's end the table ends, the footer stands, and the total stands.
const TABLE_END: usize = 32;
const FOOTER_AT: usize = 48;
const TOTAL_AT: usize = 50;
/// A length and a GUID: what ends every entry, and all there is of an empty table.
const TAIL: usize = 18;
/// The largest total that two bytes hold.
const LARGEST_TOTAL: usize = 65_535;

/// A table's total and how many entries it has.
#[derive(Clone, Copy, Debug, PartialEq, Eq)]
pub struct Summary {
    pub total: usize,
    pub entries: u64,
}

/// What a lookup found: the data's place in the image and its length.
#[derive(Clone, Copy, Debug, PartialEq, Eq)]
pub struct Found {
    pub place: usize,
    pub length: usize,
    pub tested: u64,
}

/// One entry of a good table: its GUID, and its data's place in the image and length.
#[derive(Clone, Copy, Debug, PartialEq, Eq)]
pub struct Entry {
    pub guid: Guid,
    pub place: usize,
    pub length: usize,
}

/// The total, once the image's end is known to hold a table's footer and total.
fn checked_total(image: &[u8]) -> Result<usize, Refusal> {
    let length = image.len();
    // long enough
    require(length >= TOTAL_AT, 1)?;
    // footer
    require(image[length - FOOTER_AT..length - TABLE_END] == FOOTER, 2)?;
    // total within its limits
    let total = usize::from(u16_at(image, length - TOTAL_AT));
    require((TAIL..=length - TABLE_END).contains(&total), 3)?;
    Ok(total)
}

/// All checks of a table: its total, and its entries from the footer backwards.
fn checked_table(image: &[u8]) -> Result<(usize, Vec<Entry>), Refusal> {
    let total = checked_total(image)?;
    let mut entries = Vec::new();
    let mut end = image.len() - TOTAL_AT;
    let mut left = total - TAIL;
    while left > 0 {
        // room for a length and a GUID
        require(left >= TAIL, 6)?;
        let length = usize::from(u16_at(image, end - TAIL));
        // the length counts those, and is no more than what is left
        require(length >= TAIL, 6)?;
        require(length <= left, 6)?;
        let mut guid = [0; 16];
        guid.copy_from_slice(&image[end - 16..end]);
        end -= length;
        left -= length;
        entries.push(Entry {
            guid,
            place: end,
            length: length - TAIL,
        });
    }
    Ok((total, entries))
}

/// The table's total and the number of its entries.
pub fn read(image: &[u8]) -> Result<Summary, Refusal> {
    let (total, entries) = checked_table(image)?;
    Ok(Summary {
        total,
        entries: entries.len() as u64,
    })
}

/// Lookup by GUID, nearest the footer first.
pub fn find(image: &[u8], guid: &Guid) -> Result<Found, Refusal> {
    // all is checked before any entry is tested
    let (_, entries) = checked_table(image)?;
    for (tested, entry) in (1..).zip(&entries) {
        if entry.guid == *guid {
            return Ok(Found {
                place: entry.place,
                length: entry.length,
                tested,
            });
        }
    }
    Err(Refusal::not_found(entries.len() as u64))
}

/// The entry at an index, counted from the footer as a lookup tests them. Without a lookup the 8 carries nothing.
pub fn entry(image: &[u8], index: usize) -> Result<Entry, Refusal> {
    // all is checked before any entry is given
    let (_, entries) = checked_table(image)?;
    require(index < entries.len(), 8)?;
    Ok(entries[index])
}

/// Writes the footer and the total of an empty table, and nothing else.
pub fn start(image: &mut [u8]) -> Result<(), Refusal> {
    let length = image.len();
    // room
    require(length >= TOTAL_AT, 12)?;
    put(image, length - FOOTER_AT, &FOOTER);
    put(image, length - TOTAL_AT, &(TAIL as u16).to_le_bytes());
    Ok(())
}

/// Adds an entry farthest from the footer, and gives the new total.
pub fn extend(image: &mut [u8], guid: &Guid, data: &[u8]) -> Result<usize, Refusal> {
    // a good table
    let (total, _) = checked_table(image)?;
    let new_total = total + data.len() + TAIL;
    // a total that two bytes hold
    require(new_total <= LARGEST_TOTAL, 3)?;
    // room before the table
    let table_end = image.len() - TABLE_END;
    require(new_total <= table_end, 12)?;
    // the bytes to be used
    let (first, end) = (table_end - new_total, table_end - total);
    require(image[first..end].iter().all(|byte| *byte == 0), 13)?;
    put(image, first, data);
    put(
        image,
        end - TAIL,
        &((data.len() + TAIL) as u16).to_le_bytes(),
    );
    put(image, end - 16, guid);
    let total_at = image.len() - TOTAL_AT;
    put(image, total_at, &(new_total as u16).to_le_bytes());
    Ok(new_total)
}

#[cfg(test)]
mod tests;
