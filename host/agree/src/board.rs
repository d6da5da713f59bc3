//! A small board for tests of the tool: an EFS and a directory of each level, each of which a test may break.

use crate::subjects::directory::{Directory, Entry};

/// Where the EFS lies, where the directories begin, and how long the image is: so that the first EFS candidate comes to lie there.
pub const EFS: usize = 0x2_0000;
pub const LEVEL_ONE: usize = 0x2_1000;
pub const LEVEL_TWO: usize = 0x2_8000;
pub const LENGTH: usize = 0x8_0000;

/// The physical address of the image's first byte: the flash ends at 4 GiB.
pub const WINDOW: u64 = 0x1_0000_0000 - LENGTH as u64;

/// An entry that keeps to the rules.
pub fn entry(class: u8, subprogram: u8, size: u32, location: u64, mode: u64) -> Entry {
    Entry {
        class,
        subprogram,
        reserved: 0,
        size,
        word: location | mode << 62,
    }
}

/// A board, before it is written.
pub struct Board {
    pub one: Directory,
    pub two: Directory,
    /// The pointers at 0x10 and at 0x14 of the EFS.
    pub early: u32,
    pub late: u32,
}

impl Board {
    /// A board of five entries in level one, of which the fourth leads to a level two of four.
    pub fn new() -> Board {
        Board {
            one: Directory::of(
                1,
                vec![
                    entry(0x00, 0, 0x240, WINDOW + 0x2_2000, 0),
                    entry(0x03, 0, 0x800, 0x2_3000, 1),
                    entry(0x0B, 0, 0, 0x1_0000_0001, 0),
                    entry(0x40, 0, 0x400, LEVEL_TWO as u64, 1),
                    entry(0x22, 0, 0x100, 0x1000, 3),
                ],
            ),
            two: Directory::of(
                2,
                vec![
                    entry(0x01, 0, 0xC00, 0x1000, 2),
                    entry(0x08, 1, 0x1000, 0x2_D000, 1),
                    entry(0x5A, 0, 0x101, LENGTH as u64 - 0x100, 1),
                    entry(0x13, 0, 0, LENGTH as u64, 1),
                ],
            ),
            early: 0,
            late: (WINDOW + LEVEL_ONE as u64) as u32,
        }
    }

    /// The image. Each byte that nothing else holds tells its place, so that a part taken from elsewhere is seen.
    pub fn bytes(&self) -> Vec<u8> {
        let mut image: Vec<u8> = (0..LENGTH)
            .map(|place| (place ^ place >> 8) as u8)
            .collect();
        let mut put = |place: usize, bytes: &[u8]| {
            image[place..place + bytes.len()].copy_from_slice(bytes);
        };
        put(EFS, &[0xAA, 0x55, 0xAA, 0x55]);
        put(EFS + 0x10, &self.early.to_le_bytes());
        put(EFS + 0x14, &self.late.to_le_bytes());
        put(LEVEL_ONE, &self.one.bytes());
        put(LEVEL_TWO, &self.two.bytes());
        image
    }

    /// The image of a board that is changed in one thing.
    pub fn with(change: impl FnOnce(&mut Board)) -> Vec<u8> {
        let mut board = Board::new();
        change(&mut board);
        board.bytes()
    }
}

impl Default for Board {
    fn default() -> Board {
        Board::new()
    }
}
