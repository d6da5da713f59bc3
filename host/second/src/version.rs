//! Firmware binaries: the version in the header that one begins with, as source document 001 describes it.

use crate::flash::{self, Part, View};
use crate::little_endian::u32_at;
use crate::refusal::{require, Refusal};

/// Length of the header.
const HEADER: usize = 256;
/// Where its mark stands, and the mark.
const MARK_AT: usize = 0x10;
const MARK: &[u8; 4] = b"$PS1";
/// Where the version stands.
const VERSION_AT: usize = 0x60;

/// The version of a firmware binary.
pub fn version(bytes: &[u8]) -> Result<u32, Refusal> {
    // the header is present
    require(bytes.len() >= HEADER, 1)?;
    // its mark
    require(bytes[MARK_AT..].starts_with(MARK), 2)?;
    Ok(u32_at(bytes, VERSION_AT))
}

/// The version of the binary that the bytes of entry `index` of the directory of that level are.
pub fn of_entry(image: &[u8], level: u32, index: u64) -> Result<u32, Refusal> {
    version(part_of(image, flash::bytes(image, level, index)?))
}

/// The same of an entry that a view gives.
pub fn of_view(view: &View, index: u64) -> Result<u32, Refusal> {
    version(part_of(view.image, view.bytes(index)?))
}

fn part_of(image: &[u8], part: Part) -> &[u8] {
    let from = part.place as usize;
    &image[from..from + part.length as usize]
}

#[cfg(test)]
mod tests {
    use super::*;

    /// The first lines of the boot loader that source document 001 prints, and zeros in place of the rest.
    fn boot_loader() -> Vec<u8> {
        let mut bytes = vec![0; HEADER];
        bytes[0x10..0x1C].copy_from_slice(&[0x24, 0x50, 0x53, 0x31, 0xC0, 0xE1, 0, 0, 1, 0, 0, 0]);
        bytes[0x60..0x6C].copy_from_slice(&[0x74, 1, 8, 0, 0xFF, 0xFF, 0xFF, 0xFF, 0, 1, 0, 0]);
        bytes
    }

    #[test]
    fn the_boot_loader_of_the_source_has_version_00_08_01_74() {
        assert_eq!(version(&boot_loader()), Ok(0x0008_0174));
    }

    #[test]
    fn a_header_cut_off_is_1_and_another_mark_is_2() {
        let mut bytes = boot_loader();
        assert_eq!(version(&bytes[..255]), Err(Refusal::of(1)));
        bytes[0x13] = b'2';
        assert_eq!(version(&bytes), Err(Refusal::of(2)));
        assert_eq!(version(&bytes[..255]), Err(Refusal::of(1)));
    }
}
