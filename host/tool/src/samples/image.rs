//! What a sample board is put together from.

use bindings::{checksum, extend, start, Answer, NewEntry};

/// The address modes.
pub const PHYSICAL: u32 = 0;
pub const FROM_IMAGE: u32 = 1;
pub const FROM_DIRECTORY: u32 = 2;
pub const FROM_PARTITION: u32 = 3;

/// How many bytes a directory takes, and how many more each entry.
pub const PIECE: usize = 16;

/// Where level 1 begins on a small image.
pub const LEVEL_ONE: usize = 0x1000;

/// The type of a boot loader.
pub const BOOT_LOADER: u8 = 0x01;

/// An image of 512 KiB whose EFS leads to level 1.
pub fn small_image() -> Vec<u8> {
    let mut image = vec![0; 0x8_0000];
    put_efs(&mut image, 0x2_0000, LEVEL_ONE as u32);
    image
}

pub fn entry(class: u8, subprogram: u8, size: u32, location: u64, mode: u32) -> NewEntry {
    NewEntry {
        class,
        subprogram,
        size,
        location,
        mode,
    }
}

/// An entry whose bytes lie at a place of the image.
pub fn at(class: u8, subprogram: u8, size: u32, place: u64) -> NewEntry {
    entry(class, subprogram, size, place, FROM_IMAGE)
}

pub fn put(image: &mut [u8], place: usize, bytes: &[u8]) {
    image[place..place + bytes.len()].copy_from_slice(bytes);
}

/// An EFS: its signature, and at 0x14 the pointer to level 1.
pub fn put_efs(image: &mut [u8], place: usize, pointer: u32) {
    put(image, place, &[0xAA, 0x55, 0xAA, 0x55]);
    put(image, place + 0x14, &pointer.to_le_bytes());
}

/// A directory at a buffer's start.
pub fn put_directory(buffer: &mut [u8], level: u32, entries: &[NewEntry]) -> Answer<()> {
    start(buffer, level)?;
    for entry in entries {
        extend(buffer, entry)?;
    }
    Ok(())
}

/// The checksum of a directory at a buffer's start that was changed by hand.
pub fn put_checksum(buffer: &mut [u8], entries: usize) -> Answer<()> {
    let sum = checksum(&buffer[8..PIECE * (1 + entries)])?;
    put(buffer, 4, &(sum as u32).to_le_bytes());
    Ok(())
}

/// The bytes of an entry, as the writer writes them, where no directory counts it.
pub fn put_uncounted(image: &mut [u8], place: usize, entry: NewEntry) -> Answer<()> {
    let mut alone = [0; 2 * PIECE];
    put_directory(&mut alone, 1, &[entry])?;
    put(image, place, &alone[PIECE..]);
    Ok(())
}
