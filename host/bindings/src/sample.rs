//! A small flash image for tests: an EFS, and a directory of each level.

use crate::answer::{Place, Refusal};
use crate::checksum::checksum;

/// The image's length, and the physical address of its first byte: its last is the last below 4 GiB.
pub const LENGTH: usize = 0x8_0000;
pub const WINDOW: u32 = 0xFFF8_0000;

/// Where the EFS lies: the first place where one is looked for, 0xFFFA0000, and the only one in so short an image.
pub const EFS: usize = 0x2_0000;

/// Where the directories begin.
pub const LEVEL_ONE: u64 = 0x1000;
pub const LEVEL_TWO: u64 = 0x2000;

/// The refusal that is met in the header of the sample's directory of a level, and in an entry of it.
pub fn met_in_header(number: u64, level: u64) -> Refusal {
    met(number, level, None)
}

pub fn met_in_entry(number: u64, level: u64, index: u64) -> Refusal {
    met(number, level, Some(index))
}

fn met(number: u64, level: u64, index: Option<u64>) -> Refusal {
    let directory = if level == 1 { LEVEL_ONE } else { LEVEL_TWO };
    met_at(directory, number, level, index)
}

/// The refusal that is met in the directory of a level that begins there: in an entry, or in the header.
pub fn met_at(directory: u64, number: u64, level: u64, index: Option<u64>) -> Refusal {
    let place = Some(Place {
        level,
        index,
        directory,
    });
    Refusal {
        place,
        ..Refusal::alone(number)
    }
}

/// An entry's sixteen bytes.
pub fn entry_bytes(class: u8, subprogram: u8, size: u32, location: u64, mode: u64) -> Vec<u8> {
    let mut bytes = vec![class, subprogram, 0, 0];
    bytes.extend(size.to_le_bytes());
    bytes.extend((location | mode << 62).to_le_bytes());
    bytes
}

/// A directory's bytes, with the checksum that the library takes of them.
pub fn directory_bytes(cookie: &[u8; 4], entries: &[Vec<u8>]) -> Vec<u8> {
    let mut summed = (entries.len() as u64).to_le_bytes().to_vec();
    summed.extend(entries.concat());
    let sum = checksum(&summed).expect("any bytes have a checksum");
    [&cookie[..], &sum.to_le_bytes()[..4], &summed].concat()
}

/// The entries of level one, of which the second leads to level two, and those of level two. No two of a level have the same type
/// and subprogram.
fn entries() -> [Vec<Vec<u8>>; 2] {
    let one = vec![
        entry_bytes(0x12, 0x34, 0x100, 0x3000, 1),
        entry_bytes(0x40, 0, 0, LEVEL_TWO, 1),
        entry_bytes(0x12, 0x35, 0, 0, 3),
    ];
    let two = vec![
        entry_bytes(0x01, 0, 0x40, 0x3100, 1),
        entry_bytes(0x0B, 0, 0, 0x1234, 0),
    ];
    [one, two]
}

/// An image whose EFS leads to a level one of these entries, and where a level two of these begins.
pub fn board_of([one, two]: [Vec<Vec<u8>>; 2]) -> Vec<u8> {
    let mut image = vec![0; LENGTH];
    let mut put = |place: u64, bytes: &[u8]| {
        let place = place as usize;
        image[place..place + bytes.len()].copy_from_slice(bytes);
    };
    put(EFS as u64, &[0xAA, 0x55, 0xAA, 0x55]);
    put(EFS as u64 + 0x14, &(LEVEL_ONE as u32).to_le_bytes());
    put(LEVEL_ONE, &directory_bytes(b"$PSP", &one));
    put(LEVEL_TWO, &directory_bytes(b"$PL2", &two));
    image
}

/// An image whose EFS leads to a level one of three entries, of which the second leads to a level two of two.
pub fn board() -> Vec<u8> {
    board_of(entries())
}

/// The same where a level has one entry more, with the type and subprogram of its first.
pub fn board_that_repeats(level: u32) -> Vec<u8> {
    let mut entries = entries();
    let of_level = &mut entries[level as usize - 1];
    let (class, subprogram) = (of_level[0][0], of_level[0][1]);
    of_level.push(entry_bytes(class, subprogram, 1, 2, 1));
    board_of(entries)
}
