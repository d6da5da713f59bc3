//! The sample board: a small flash image that shows all that a register can show.

use super::image::{
    entry, put, put_directory, put_efs, FROM_DIRECTORY, FROM_IMAGE, FROM_PARTITION, PHYSICAL,
};
use bindings::Answer;

/// The image's length, and the places of what lies in it. The EFS is at 0xfffa0000, the first of its places, which is the only
/// one that a flash of 512 KiB has.
const LENGTH: usize = 0x8_0000;
const EFS: usize = 0x2_0000;
const LEVEL_ONE: usize = 0x2_1000;
const LEVEL_TWO: usize = 0x2_8000;

/// Where physical addresses of the sample's flash begin: it ends at 4 GiB.
const WINDOW: u64 = 0x1_0000_0000 - LENGTH as u64;

/// The sample board. The library's writer refuses none of it, which a test shows.
pub fn board() -> Answer<Vec<u8>> {
    let mut image = vec![0xFF; LENGTH];
    // The physical address of level 1; the other pointer, at 0x10, is absent.
    put_efs(&mut image, EFS, (WINDOW as u32) + LEVEL_ONE as u32);
    put_directory(
        &mut image[LEVEL_ONE..],
        1,
        &[
            entry(0x00, 0, 0x240, WINDOW + 0x2_2000, PHYSICAL),
            entry(0x03, 0, 0x800, 0x2_3000, FROM_IMAGE),
            entry(0x0B, 0, 0, 0x1_0000_0001, PHYSICAL),
            entry(0x40, 0, 0x400, LEVEL_TWO as u64, FROM_IMAGE),
            entry(0x22, 0, 0x100, 0x1000, FROM_PARTITION),
        ],
    )?;
    put_directory(
        &mut image[LEVEL_TWO..],
        2,
        &[
            entry(0x01, 0, 0xC00, 0x1000, FROM_DIRECTORY),
            entry(0x02, 0, 0x2000, WINDOW + 0x2_A000, PHYSICAL),
            entry(0x08, 0, 0x1000, 0x2_C000, FROM_IMAGE),
            entry(0x08, 1, 0x1000, 0x2_D000, FROM_IMAGE),
            entry(0x21, 0, 0x10, 0x2_E000, FROM_IMAGE),
            entry(0x5A, 0, 0x200, LENGTH as u64 - 0x100, FROM_IMAGE),
        ],
    )?;
    for (place, version) in [
        (0x2_3000, 0x0008_0170),
        (LEVEL_TWO + 0x1000, 0x0008_0174),
        (0x2_A000, 0x0008_0113),
        (0x2_C000, 0x002E_0705),
        (0x2_D000, 0x002E_0706),
    ] {
        put_firmware_header(&mut image, place, version);
    }
    Ok(image)
}

/// A firmware header: 256 bytes with a mark at 0x10 and the version at 0x60.
fn put_firmware_header(image: &mut [u8], place: usize, version: u32) {
    put(image, place, &[0; 0x100]);
    put(image, place + 0x10, b"$PS1");
    put(image, place + 0x60, &version.to_le_bytes());
}
