//! Boards that are refused for a fault which nobody finds by eye, or which is no damage at all: what is told of them is where it is, what
//! stands there and what should.

use super::image::{
    at, put, put_checksum, put_directory, small_image, BOOT_LOADER, LEVEL_ONE, PIECE,
};
use super::machines::Machine;
use bindings::{Answer, NewEntry};

pub static REFUSED: [Machine; 2] = [
    Machine {
        name: "entry-300-of-301.rom",
        make: last_of_301,
    },
    Machine {
        name: "as-amdfwtool-writes-it.rom",
        make: as_amdfwtool_writes_it,
    },
];

/// The last of 301 entries has a reserved bit set, under a checksum that is right.
fn last_of_301() -> Answer<Vec<u8>> {
    const LAST: usize = 300;
    const FLAGS: usize = 2;
    let mut image = small_image();
    let others = (0..LAST as u64 - 1).map(|k| {
        let class = 0x60 + (k / 256) as u8;
        at(class, k as u8, 0x10, 0x8000 + 0x10 * k)
    });
    let first = [
        at(0x00, 0, 0x240, 0x4000),
        at(BOOT_LOADER, 0, 0x100, 0x5000),
    ];
    let one: Vec<NewEntry> = first.into_iter().chain(others).collect();
    put_directory(&mut image[LEVEL_ONE..], 1, &one)?;
    put(&mut image[LEVEL_ONE..], PIECE * (1 + LAST) + FLAGS, &[1, 0]);
    put_checksum(&mut image[LEVEL_ONE..], one.len())?;
    Ok(image)
}

/// The last word of the header tells, as coreboot's tool writes it, how many pages of 4 KiB the directory and its firmware take, and the
/// size of a block of the flash.
fn as_amdfwtool_writes_it() -> Answer<Vec<u8>> {
    const RESERVED: usize = 12;
    const PAGES: u32 = 0x10;
    const BLOCK: u32 = 1 << 10;
    let mut image = small_image();
    let one = [
        at(0x00, 0, 0x240, 0x2000),
        at(BOOT_LOADER, 0, 0x100, 0x3000),
        at(0x08, 0, 0x80, 0x4000),
    ];
    put_directory(&mut image[LEVEL_ONE..], 1, &one)?;
    let word = (PAGES | BLOCK).to_le_bytes();
    put(&mut image[LEVEL_ONE..], RESERVED, &word);
    put_checksum(&mut image[LEVEL_ONE..], one.len())?;
    Ok(image)
}

#[cfg(test)]
mod tests {
    use super::*;
    use bindings::{directory, Place, Refusal};

    #[test]
    fn each_is_refused_for_its_fault_alone() {
        let met = REFUSED.iter().map(|Machine { make, .. }| {
            let image = make().expect("the writer refuses none of it");
            let refusal = directory(&image, 1).unwrap_err();
            let place = refusal.place.expect("it is met in the directory");
            (refusal.number, place)
        });
        let met: Vec<(u64, Place)> = met.collect();
        let place = |index| Place {
            level: 1,
            index,
            directory: LEVEL_ONE as u64,
        };
        let due = [Some(300), None].map(|index| (Refusal::FIELD, place(index)));
        assert_eq!(met, due);
    }
}
