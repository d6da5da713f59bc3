//! What boards of the usual sizes look like: where their windows begin, where an EFS may be, and which pointers it may have. It is
//! there for people who hold a dump against it. The tool decides nothing by it, and tests hold it to the library.

use bindings::Refusal;

/// A board of a usual size.
struct Board {
    size: &'static str,
    /// How many bytes its flash has, and so its image.
    length: u64,
    /// The physical address of its first byte; that of its last one is 0xffffffff.
    window: u64,
    /// The addresses in its window where an EFS is looked for, in this order, each with the place that it has in the image.
    efs: &'static [(u64, u64)],
}

static BOARDS: [Board; 3] = [
    Board {
        size: "4 MiB",
        length: 0x40_0000,
        window: 0xFFC0_0000,
        efs: &[
            (0xFFFA_0000, 0x3A_0000),
            (0xFFF2_0000, 0x32_0000),
            (0xFFE2_0000, 0x22_0000),
            (0xFFC2_0000, 0x02_0000),
        ],
    },
    Board {
        size: "8 MiB",
        length: 0x80_0000,
        window: 0xFF80_0000,
        efs: &[
            (0xFFFA_0000, 0x7A_0000),
            (0xFFF2_0000, 0x72_0000),
            (0xFFE2_0000, 0x62_0000),
            (0xFFC2_0000, 0x42_0000),
            (0xFF82_0000, 0x02_0000),
        ],
    },
    Board {
        size: "16 MiB",
        length: 0x100_0000,
        window: 0xFF00_0000,
        efs: &[
            (0xFFFA_0000, 0xFA_0000),
            (0xFFF2_0000, 0xF2_0000),
            (0xFFE2_0000, 0xE2_0000),
            (0xFFC2_0000, 0xC2_0000),
            (0xFF82_0000, 0x82_0000),
            (0xFF02_0000, 0x02_0000),
        ],
    },
];

/// What a board of each size looks like in that which a refusal is about. Most refusals are about nothing that the size changes.
pub fn told(number: u64) -> Vec<String> {
    let words: fn(&Board) -> String = match number {
        Refusal::SIGNATURE => efs_words,
        Refusal::OUTSIDE => address_words,
        _ => return Vec::new(),
    };
    let told = BOARDS.iter().map(|board| {
        let Board { size, length, .. } = board;
        format!("{size}, {length} bytes: {}", words(board))
    });
    told.collect()
}

/// Where the EFS is looked for.
fn efs_words(board: &Board) -> String {
    let places = board
        .efs
        .iter()
        .map(|(address, place)| format!("{place:#x} ({address:#x})"));
    let places: Vec<String> = places.collect();
    format!(
        "the window begins at {:#x}, and the EFS is looked for at {} of the image, in this order.",
        board.window,
        places.join(", ")
    )
}

/// Which physical addresses and which pointers lead into the image.
fn address_words(board: &Board) -> String {
    let Board { length, window, .. } = board;
    let last = length - 1;
    format!(
        "physical addresses {window:#x} to 0xffffffff are 0x0 to {last:#x} of the image, and a \
         pointer of the EFS is 0x1 to {last:#x} or {window:#x} to 0xfffffffe."
    )
}

#[cfg(test)]
mod tests {
    use super::*;
    use bindings::{efs, extend, pointer, start, view_part, NewEntry};

    const SIGNATURE: [u8; 4] = [0xAA, 0x55, 0xAA, 0x55];

    fn put(image: &mut [u8], place: u64, bytes: &[u8]) {
        image[place as usize..][..bytes.len()].copy_from_slice(bytes);
    }

    fn found(image: &[u8]) -> Result<u64, u64> {
        efs(image)
            .map(|efs| efs.place)
            .map_err(|refusal| refusal.number)
    }

    #[test]
    fn the_library_looks_for_the_efs_where_it_is_told_and_nowhere_else() {
        let places = BOARDS.iter().flat_map(|board| board.efs);
        let places: Vec<u64> = places.map(|(_, place)| *place).collect();
        for board in &BOARDS {
            let mut image = vec![0; board.length as usize];
            for place in places.iter().filter(|place| **place < board.length) {
                put(&mut image, *place, &SIGNATURE);
                let is_told = board.efs.iter().any(|(_, told)| told == place);
                let due = if is_told { Ok(*place) } else { Err(2) };
                assert_eq!(found(&image), due, "{} {place:#x}", board.size);
                put(&mut image, *place, &[0; 4]);
            }
            // Each that is put in comes before those that are told behind it.
            for (_, place) in board.efs.iter().rev() {
                put(&mut image, *place, &SIGNATURE);
                assert_eq!(found(&image), Ok(*place), "{}", board.size);
            }
        }
    }

    #[test]
    fn the_library_takes_the_pointers_that_are_told_and_no_others() {
        for board in &BOARDS {
            let (length, window) = (board.length, board.window);
            let mut image = vec![0; length as usize];
            let efs = board.efs[0].1;
            put(&mut image, efs, &SIGNATURE);
            for (value, due) in [
                (0x1, Ok(0x1)),
                (length - 1, Ok(length - 1)),
                (length, Err(7)),
                (window - 1, Err(7)),
                (window, Ok(0)),
                (0xFFFF_FFFE, Ok(length - 2)),
                (0xFFFF_FFFF, Err(8)),
                (0x0, Err(8)),
            ] {
                put(&mut image, efs + 0x14, &(value as u32).to_le_bytes());
                let led = pointer(&image).map(|pointer| pointer.place);
                let led = led.map_err(|refusal| refusal.number);
                assert_eq!(led, due, "{} {value:#x}", board.size);
            }
        }
    }

    #[test]
    fn the_library_takes_the_physical_addresses_that_are_told_and_no_others() {
        for board in &BOARDS {
            let (length, window) = (board.length, board.window);
            let mut image = vec![0; length as usize];
            let locations = [
                (window, Ok(0)),
                (window - 1, Err(7)),
                (0xFFFF_FFFF, Ok(length - 1)),
                (0x1_0000_0000, Err(7)),
            ];
            start(&mut image, 1).expect("there is room");
            for (subprogram, (location, _)) in (0..).zip(locations) {
                let entry = NewEntry {
                    class: 0x01,
                    subprogram,
                    size: 1,
                    location,
                    mode: 0,
                };
                extend(&mut image, &entry).expect("there is room");
            }
            for (index, (location, due)) in locations.into_iter().enumerate() {
                let part = view_part(&image, 0, index).map(|part| part.place);
                let part = part.map_err(|refusal| refusal.number);
                assert_eq!(part, due, "{} {location:#x}", board.size);
            }
        }
    }

    #[test]
    fn the_efs_is_told_by_its_place_and_its_address() {
        let told = told(Refusal::SIGNATURE);
        assert_eq!(
            told[1],
            "8 MiB, 8388608 bytes: the window begins at 0xff800000, and the EFS is looked for at \
             0x7a0000 (0xfffa0000), 0x720000 (0xfff20000), 0x620000 (0xffe20000), \
             0x420000 (0xffc20000), 0x20000 (0xff820000) of the image, in this order."
        );
        for board in &BOARDS {
            for (address, place) in board.efs {
                assert_eq!(address - board.window, *place, "{}", board.size);
            }
        }
    }

    #[test]
    fn what_the_size_does_not_change_is_told_of_no_board() {
        for number in 1..=18 {
            let is_told = [Refusal::SIGNATURE, Refusal::OUTSIDE].contains(&number);
            let boards = if is_told { BOARDS.len() } else { 0 };
            assert_eq!(told(number).len(), boards, "{number}");
        }
    }
}
