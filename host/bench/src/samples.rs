//! What the programs are given: flash images, ASPT tables and guest firmware images, good ones, and each the same at every run.

use bindings::{AsptStructure, AsptTable, Guid, NewEntry};

/// A type that no sample's entry has.
pub const MISSING: u8 = 0xEE;
/// The type that leads to level two, and the one that holds a value.
pub const LEAD: u8 = 0x40;
const VALUE: u8 = 0x0B;

/// Where an EFS is looked for: how many bytes before an image's end, in the order of the search.
pub const EFS_BEFORE_END: [usize; 6] = [
    0x06_0000, 0x0E_0000, 0x1E_0000, 0x3E_0000, 0x7E_0000, 0xFE_0000,
];
/// The shortest image that has an EFS, and the longest image.
pub const SHORTEST: usize = EFS_BEFORE_END[0];
pub const LONGEST: usize = 16_777_216;
/// Where the directories begin. Either has room for 512 entries.
pub const LEVEL_ONE: usize = 0x1000;
pub const LEVEL_TWO: usize = 0x4000;

/// Where an EFS is looked for in an image of a length, in the order of the search.
pub fn efs_places(length: usize) -> Vec<usize> {
    let places = EFS_BEFORE_END.map(|before| length.checked_sub(before));
    places.into_iter().flatten().collect()
}

/// The physical address of the first byte of an image: its last is the last below 4 GiB.
pub fn window_first(length: usize) -> u64 {
    (1 << 32) - length as u64
}

/// An entry's sixteen bytes.
pub fn entry_bytes(entry: &NewEntry) -> [u8; 16] {
    let mut bytes = [0; 16];
    bytes[0] = entry.class;
    bytes[1] = entry.subprogram;
    bytes[4..8].copy_from_slice(&entry.size.to_le_bytes());
    let last = entry.location | u64::from(entry.mode) << 62;
    bytes[8..].copy_from_slice(&last.to_le_bytes());
    bytes
}

/// A directory's bytes.
pub fn directory_bytes(cookie: &[u8; 4], entries: &[NewEntry]) -> Vec<u8> {
    let mut bytes = cookie.to_vec();
    bytes.extend([0; 4]);
    bytes.extend((entries.len() as u64).to_le_bytes());
    bytes.extend(entries.iter().flat_map(entry_bytes));
    sum_again(&mut bytes);
    bytes
}

/// Writes the checksum that a directory's bytes have.
pub fn sum_again(directory: &mut [u8]) {
    let sum = second::flash::checksum(&directory[8..]);
    directory[4..8].copy_from_slice(&sum.to_le_bytes());
}

/// How many entries `mixed_entries` can give without a repeat: as many as a directory may have.
pub const MOST_MIXED: usize = 512;

/// Entries of many types, subprograms, modes and sizes, of which none leads to level two, none has the missing type, and no two
/// have the same type and subprogram.
pub fn mixed_entries(amount: usize, variant: usize) -> Vec<NewEntry> {
    assert!(
        amount <= MOST_MIXED,
        "{amount} entries would repeat a type and subprogram"
    );
    (0..amount)
        .map(|i| {
            let mode = (i % 3) as u32;
            let offset = 0x3_0000 + 0x40 * ((i + variant) % 1024) as u64;
            // Of 64 entries in a row no two have the same type here; each 64 have other subprograms with their types. The values
            // have subprograms of their own, from 8 on.
            let (class, subprogram) = match i % 16 {
                5 => (VALUE, 8 + i / 16),
                _ => (((7 * i + variant) % 0x40) as u8, (i + i / 64) % 8),
            };
            NewEntry {
                class,
                subprogram: subprogram as u8,
                size: (0x10 + 3 * i) as u32,
                // An address in the shortest image is one in every other that has an EFS.
                location: match mode {
                    0 => window_first(SHORTEST) + offset,
                    _ => offset,
                },
                mode,
            }
        })
        .collect()
}

/// How many entries that lead one directory can have: one for each subprogram.
pub const MOST_LEADS: usize = 256;

/// An entry that leads to level two.
pub fn lead() -> NewEntry {
    lead_with(0)
}

/// The same with a subprogram.
pub fn lead_with(subprogram: u8) -> NewEntry {
    NewEntry {
        class: LEAD,
        subprogram,
        size: 0,
        location: LEVEL_TWO as u64,
        mode: 1,
    }
}

/// An image of a length, with an EFS whose pointer leads to level one. It is where the search comes to last.
pub fn image(length: usize, one: &[NewEntry], two: &[NewEntry]) -> Vec<u8> {
    let mut image = vec![0; length];
    let efs = efs_places(length)
        .pop()
        .expect("the image is not too short for an EFS");
    image[efs..efs + 4].copy_from_slice(&[0xAA, 0x55, 0xAA, 0x55]);
    image[efs + 0x14..efs + 0x18].copy_from_slice(&(LEVEL_ONE as u32).to_le_bytes());
    for (place, bytes) in [
        (LEVEL_ONE, directory_bytes(b"$PSP", one)),
        (LEVEL_TWO, directory_bytes(b"$PL2", two)),
    ] {
        image[place..place + bytes.len()].copy_from_slice(&bytes);
    }
    image
}

/// A small image with `amount` entries in level one, none of which leads on.
pub fn one_level(amount: usize) -> Vec<u8> {
    image(SHORTEST, &mixed_entries(amount, 0), &[])
}

/// The same where the last entry has a reserved bit set, which is all that is wrong.
pub fn one_level_faulty(amount: usize) -> Vec<u8> {
    let mut image = one_level(amount);
    let directory = &mut image[LEVEL_ONE..][..16 + 16 * amount];
    // The flags of an entry are its third byte and its fourth.
    directory[16 * amount + 3] |= 0x80;
    sum_again(directory);
    image
}

/// A small image with `amount` entries in each level; the middle one of level one leads to level two.
pub fn entered_once(amount: usize) -> Vec<u8> {
    let mut one = mixed_entries(amount, 0);
    one[amount / 2] = lead();
    image(SHORTEST, &one, &mixed_entries(amount, 1))
}

/// `amount` entries that lead to the same level two, each with a subprogram of its own.
pub fn leads(amount: usize) -> Vec<NewEntry> {
    assert!(
        amount <= MOST_LEADS,
        "{amount} entries that lead would repeat a subprogram"
    );
    (0..amount).map(|i| lead_with(i as u8)).collect()
}

/// A small image whose level one has `amount` entries, each of which leads to the same level two of 512.
pub fn entered_each(amount: usize) -> Vec<u8> {
    image(SHORTEST, &leads(amount), &mixed_entries(512, 1))
}

/// An image of 16 MiB as a board has one: some thirty entries in level one, some sixty in level two. Variants differ in totals,
/// types and places.
pub fn board(variant: usize) -> Vec<u8> {
    let mut one = mixed_entries(30 + variant, variant);
    one[4 + variant] = lead();
    image(LONGEST, &one, &mixed_entries(60 + variant, variant + 1))
}

/// A table in which no two fields have the same value.
pub fn aspt() -> AsptTable {
    let structure = |kind, id, registers| AsptStructure {
        kind,
        id,
        registers,
    };
    AsptTable {
        oem: *b"ABCDEF",
        oem_table: *b"GHIJKLMN",
        oem_revision: 0x1234_5678,
        creator: 0x9ABC_DEF0,
        creator_revision: 0x0FED_CBA9,
        base: 0x0123_4567_89AB_C000,
        pages: 0x10,
        structures: [
            structure(1, 1, [0x20, 0x24, 0x28]),
            structure(2, 0, [0x2C, 0, 0]),
            structure(0, 0, [0x10, 0x14, 0xFFFC]),
        ],
    }
}

/// The GUID of the entry that was added as number `i`.
pub fn guid(i: usize) -> Guid {
    let mut bytes = *b"\0\0\0\0a plain guid";
    bytes[..4].copy_from_slice(&(i as u32).to_le_bytes());
    Guid(bytes)
}

/// A guest firmware image whose table has `amount` entries, each with eight bytes of data.
pub fn guest(amount: usize) -> Vec<u8> {
    let mut image = vec![0; 50 + 26 * amount + 64];
    second::guids::start(&mut image).expect("the image has room for a table");
    for i in 0..amount {
        second::guids::extend(&mut image, &guid(i).0, &(i as u64).to_le_bytes())
            .expect("the image has room for each entry");
    }
    image
}

#[cfg(test)]
mod tests {
    use super::*;
    use std::collections::BTreeSet;

    /// How many different pairs of type and subprogram the entries have.
    fn pairs(entries: &[NewEntry]) -> usize {
        let pairs: BTreeSet<(u8, u8)> = entries
            .iter()
            .map(|entry| (entry.class, entry.subprogram))
            .collect();
        pairs.len()
    }

    #[test]
    fn no_sample_repeats_a_type_and_subprogram() {
        for variant in 0..8 {
            let entries = mixed_entries(MOST_MIXED, variant);
            assert_eq!(pairs(&entries), 512, "variant {variant}");
            assert!(
                entries
                    .iter()
                    .all(|entry| entry.class != LEAD && entry.class != MISSING),
                "variant {variant}"
            );
        }
        assert_eq!(pairs(&leads(MOST_LEADS)), 256);
    }

    #[test]
    fn every_entry_that_is_no_value_has_its_bytes_in_the_image() {
        let entries = mixed_entries(MOST_MIXED, 0);
        for length in [SHORTEST, LONGEST] {
            let image = image(length, &entries, &[]);
            for (index, entry) in (0..).zip(&entries) {
                let part = second::flash::bytes(&image, 1, index);
                let number = part.err().map(|refused| refused.number);
                let due = if entry.class == VALUE { Some(17) } else { None };
                assert_eq!(number, due, "entry {index} of {length} bytes");
            }
        }
    }

    #[test]
    fn the_efs_of_the_longest_image_is_the_last_that_is_looked_for() {
        let efs = |length| second::flash::efs(&image(length, &[], &[])).map(|efs| efs.place);
        assert_eq!(efs(SHORTEST), Ok(0));
        assert_eq!(efs(LONGEST), Ok(0x2_0000));
    }

    #[test]
    fn the_mix_has_many_types_and_subprograms_among_few_entries() {
        let entries = mixed_entries(64, 0);
        let types: BTreeSet<u8> = entries.iter().map(|entry| entry.class).collect();
        let subprograms: BTreeSet<u8> = entries.iter().map(|entry| entry.subprogram).collect();
        assert!(types.len() > 32, "{types:?}");
        assert!(subprograms.len() >= 8, "{subprograms:?}");
    }
}
