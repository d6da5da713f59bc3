//! What is wrong at a place that a refusal carries.

use crate::answer::{answer_of, Answer, Place};
use crate::exported::exported;

exported! {
    fn kpalumere_wrong(image: &[u8], place: usize, level: u32, index: usize, words: &mut [u64]) -> u64;
}

/// A field that is wrong: which number refuses it, where it stands, what stands there and what should.
#[derive(Clone, Copy, Debug, PartialEq, Eq)]
pub struct Wrong {
    /// The number of the refusal.
    pub number: u64,
    /// Where in the image the field begins, and its length in bytes.
    pub field: u64,
    pub bytes: u64,
    /// What stands there; of missing bytes how many there are, of mode 3 the mode, of bytes outside the image their location.
    pub stands: u64,
    /// What should stand there: the one value that may, or the largest (of the total, the mode, and where bytes end), or the level where
    /// the type may stand, or the type that is a value, or the index of the earlier entry.
    pub should: u64,
}

/// What is wrong at the place that a refusal carries, in the image or buffer for which it was answered. Where nothing is wrong there, that
/// is an 8.
#[inline]
pub fn wrong(image: &[u8], place: Place) -> Answer<Wrong> {
    // A level that no word of the boundary holds is none, and neither is an index: the library refuses the largest that it can be given.
    let level = u32::try_from(place.level).unwrap_or(u32::MAX);
    let index = place.index.unwrap_or(u64::MAX) as usize;
    answer_of(
        |words| kpalumere_wrong(image, place.directory as usize, level, index, words),
        |&[number, field, bytes, stands, should]| Wrong {
            number,
            field,
            bytes,
            stands,
            should,
        },
    )
}

#[cfg(test)]
mod tests {
    use super::*;
    use crate::answer::Refusal;
    use crate::sample::{
        board, board_of, board_that_repeats, directory_bytes, entry_bytes, LENGTH, LEVEL_ONE,
        LEVEL_TWO,
    };
    use crate::{directory, extend, find_image, part, view_entry, NewEntry};

    const PSP: u64 = 0x5053_5024;
    const PL2: u64 = 0x324C_5024;

    /// What is told, in the order of the words.
    fn told([number, field, bytes, stands, should]: [u64; 5]) -> Answer<Wrong> {
        Ok(Wrong {
            number,
            field,
            bytes,
            stands,
            should,
        })
    }

    /// What is wrong where a call met its refusal: it is of that refusal's number.
    fn asked<T>(image: &[u8], answer: Answer<T>) -> Answer<Wrong> {
        let refusal = answer.err().expect("the call is refused");
        let place = refusal.place.expect("it was met in a directory");
        let wrong = wrong(image, place);
        assert_eq!(wrong.map(|wrong| wrong.number), Ok(refusal.number));
        wrong
    }

    fn at(level: u64, index: Option<u64>, directory: u64) -> Place {
        Place {
            level,
            index,
            directory,
        }
    }

    /// An image with these bytes at a place.
    fn with(mut image: Vec<u8>, place: u64, bytes: &[u8]) -> Vec<u8> {
        image[place as usize..][..bytes.len()].copy_from_slice(bytes);
        image
    }

    /// A level one of these entries behind a good one and the lead, and a level two of these behind a good one.
    fn board_with(one: &[Vec<u8>], two: &[Vec<u8>]) -> Vec<u8> {
        let good = entry_bytes(0x21, 0, 0, 0, 1);
        let lead = entry_bytes(0x40, 0, 0, LEVEL_TWO, 1);
        let one = [&[good.clone(), lead], one].concat();
        board_of([one, [&[good], two].concat()])
    }

    /// The place of an entry of level one, and of level two.
    fn one(index: u64) -> u64 {
        LEVEL_ONE + 16 + 16 * index
    }

    fn two(index: u64) -> u64 {
        LEVEL_TWO + 16 + 16 * index
    }

    #[test]
    fn of_missing_bytes_it_tells_how_many_there_are() {
        let image = board();
        let end = LENGTH as u64;
        // Of the header, asked by its cookie or by a level.
        for (back, level) in [(0, 0), (1, 0), (15, 0), (15, 1), (15, 2)] {
            let place = end - back;
            let expected = told([1, place, 16, back, 16]);
            assert_eq!(wrong(&image, at(level, None, place)), expected, "{back}");
        }
        let cut = asked(&image, view_entry(&image, LENGTH - 15, 0));
        assert_eq!(cut, told([1, end - 15, 16, 15, 16]));
        // Of the entries.
        let two = [entry_bytes(0x01, 0, 0, 0, 1), entry_bytes(0x02, 0, 0, 0, 1)];
        let bytes = directory_bytes(b"$PSP", &two);
        for there in [0, 1, 31] {
            let place = end - 16 - there;
            let image = with(board(), place, &bytes[..16 + there as usize]);
            let cut = asked(&image, view_entry(&image, place as usize, 0));
            assert_eq!(cut, told([1, place + 16, 32, there, 32]), "{there}");
        }
        let whole = with(board(), end - 48, &bytes);
        assert_eq!(wrong(&whole, at(0, None, end - 48)), Err(Refusal::alone(8)));
    }

    #[test]
    fn of_a_cookie_it_tells_which_should_stand_there() {
        let image = with(board(), LEVEL_TWO, b"$PSP");
        let cookie = asked(&image, directory(&image, 2));
        assert_eq!(cookie, told([2, LEVEL_TWO, 4, PSP, PL2]));
        let image = with(board(), LEVEL_ONE, b"$PL2");
        let cookie = asked(&image, directory(&image, 1));
        assert_eq!(cookie, told([2, LEVEL_ONE, 4, PL2, PSP]));
        // Where no cookie told a level, it is that of level one.
        let image = with(board(), LEVEL_TWO, b"ABCD");
        let cookie = asked(&image, view_entry(&image, LEVEL_TWO as usize, 0));
        assert_eq!(cookie, told([2, LEVEL_TWO, 4, 0x4443_4241, PSP]));
    }

    #[test]
    fn of_a_total_it_tells_the_largest() {
        let total = |total: u32| with(board(), LEVEL_ONE + 8, &total.to_le_bytes());
        for many in [513, u32::MAX] {
            let image = total(many);
            let limits = asked(&image, directory(&image, 1));
            assert_eq!(limits, told([3, LEVEL_ONE + 8, 4, u64::from(many), 512]));
        }
        // 512 is no total too large: the checksum is another then.
        let image = total(512);
        let sum = asked(&image, directory(&image, 1));
        assert_eq!(sum.map(|wrong| wrong.number), Ok(4));
    }

    #[test]
    fn of_a_checksum_it_tells_both() {
        for (level, place, total) in [(1, LEVEL_ONE, 3), (2, LEVEL_TWO, 2)] {
            let bytes = &board()[place as usize..][..16 + 16 * total];
            let right = crate::checksum(&bytes[8..]).expect("any bytes have a checksum");
            let image = with(board(), place + 4, &0x0102_0304u32.to_le_bytes());
            let sum = asked(&image, directory(&image, level));
            assert_eq!(sum, told([4, place + 4, 4, 0x0102_0304, right]));
            // With what should stand there the directory is good.
            let repaired = with(image, place + 4, &(right as u32).to_le_bytes());
            assert_eq!(directory(&repaired, level), directory(&board(), level));
        }
    }

    #[test]
    fn of_reserved_bits_it_tells_zero() {
        let mut header = directory_bytes(b"$PSP", &[]);
        header[15] = 0x80;
        let sum = crate::checksum(&header[8..]).expect("any bytes have a checksum");
        header[4..8].copy_from_slice(&(sum as u32).to_le_bytes());
        let image = with(board(), LEVEL_ONE, &header);
        let reserved = asked(&image, directory(&image, 1));
        assert_eq!(reserved, told([5, LEVEL_ONE + 12, 4, 0x8000_0000, 0]));
        for flags in [1u16, 0x8000, 0xFFFF] {
            let mut entry = entry_bytes(0x12, 0, 0, 0, 1);
            entry[2..4].copy_from_slice(&flags.to_le_bytes());
            let stands = u64::from(flags);
            let image = board_with(&[entry.clone()], &[]);
            let reserved = asked(&image, directory(&image, 1));
            assert_eq!(reserved, told([5, one(2) + 2, 2, stands, 0]));
            let image = board_with(&[], &[entry]);
            let reserved = asked(&image, directory(&image, 2));
            assert_eq!(reserved, told([5, two(1) + 2, 2, stands, 0]));
        }
    }

    #[test]
    fn of_a_misplaced_type_it_tells_the_level_where_it_may_stand() {
        let image = board_with(&[], &[entry_bytes(0x40, 0, 0, 0, 1)]);
        let misplaced = asked(&image, directory(&image, 2));
        assert_eq!(misplaced, told([14, two(1), 1, 0x40, 1]));
    }

    #[test]
    fn of_an_entry_that_repeats_it_tells_the_earlier_one() {
        let image = board_that_repeats(1);
        let repeated = asked(&image, directory(&image, 1));
        assert_eq!(repeated, told([18, one(3), 1, 0x12, 0]));
        // The first that repeats, and the first that it repeats.
        let entry = |class, size| entry_bytes(class, 7, size, 0, 1);
        let entries = [
            entry(0x31, 0),
            entry(0x32, 0),
            entry(0x32, 1),
            entry(0x31, 1),
        ];
        let image = board_with(&[], &entries);
        let repeated = asked(&image, find_image(&image, 0x99, 0));
        assert_eq!(repeated, told([18, two(3), 1, 0x32, 2]));
    }

    #[test]
    fn of_a_value_it_tells_the_type_that_is_one() {
        let value = asked(&board(), part(&board(), 2, 1));
        assert_eq!(value, told([17, two(1), 1, 0x0B, 0x0B]));
    }

    #[test]
    fn of_a_mode_it_tells_the_highest() {
        let mode = asked(&board(), part(&board(), 1, 2));
        assert_eq!(mode, told([16, one(2) + 8, 8, 3, 2]));
        // Of the entry that leads to level two.
        let image = board_of([vec![entry_bytes(0x40, 0, 0, LEVEL_TWO, 3)], vec![]]);
        let mode = asked(&image, directory(&image, 2));
        assert_eq!(mode, told([16, one(0) + 8, 8, 3, 2]));
    }

    #[test]
    fn of_a_location_it_tells_where_bytes_end_at_the_latest() {
        let end = LENGTH as u64;
        for (size, location) in [
            (0, end + 1),
            (1, end),
            (0x100, end - 0xFF),
            (0, (1 << 62) - 1),
        ] {
            let image = board_with(&[entry_bytes(0x12, 0, size, location, 1)], &[]);
            let outside = asked(&image, part(&image, 1, 2));
            assert_eq!(outside, told([7, one(2) + 8, 8, location, end]));
        }
        for (size, location) in [(0, end), (0x100, end - 0x100)] {
            let image = board_with(&[entry_bytes(0x12, 0, size, location, 1)], &[]);
            let nothing = wrong(&image, at(1, Some(2), LEVEL_ONE));
            assert_eq!(nothing, Err(Refusal::alone(8)));
        }
        // A physical address, below the image's first byte and above 4 GiB; and from the directory on.
        for (location, mode) in [(0xFFF7_FFFF, 0), (1 << 32, 0), (end - LEVEL_ONE + 1, 2)] {
            let image = board_with(&[entry_bytes(0x12, 0, 0, location, mode)], &[]);
            let outside = asked(&image, part(&image, 1, 2));
            assert_eq!(outside, told([7, one(2) + 8, 8, location, end]));
        }
        // Of the entry that leads to level two.
        let image = board_of([vec![entry_bytes(0x40, 0, 0, end + 1, 1)], vec![]]);
        let outside = asked(&image, directory(&image, 2));
        assert_eq!(outside, told([7, one(0) + 8, 8, end + 1, end]));
    }

    #[test]
    fn of_a_buffer_it_tells_what_an_extend_met() {
        let entry = NewEntry {
            class: 1,
            subprogram: 0,
            size: 0,
            location: 0,
            mode: 1,
        };
        let mut buffer = vec![0xEE; 24];
        let answer = extend(&mut buffer, &entry);
        let cookie = asked(&buffer, answer);
        assert_eq!(cookie, told([2, 0, 4, 0xEEEE_EEEE, PSP]));
        let answer = extend(&mut buffer[..3], &entry);
        let cut = asked(&buffer[..3], answer);
        assert_eq!(cut, told([1, 0, 16, 3, 16]));
    }

    #[test]
    fn where_nothing_is_wrong_there_is_nothing_to_tell() {
        let nothing = Err(Refusal::alone(8));
        for level in [0, 1] {
            assert_eq!(wrong(&board(), at(level, None, LEVEL_ONE)), nothing);
            // Of three entries the last has mode 3.
            for index in [0, 1, 3, 1 << 32, u64::MAX] {
                let place = at(level, Some(index), LEVEL_ONE);
                assert_eq!(wrong(&board(), place), nothing, "{index}");
            }
            assert!(wrong(&board(), at(level, Some(2), LEVEL_ONE)).is_ok());
        }
    }

    #[test]
    fn a_directory_that_is_refused_tells_whichever_entry_is_asked_for() {
        let image = board_that_repeats(1);
        for index in [None, Some(0), Some(2), Some(4), Some(u64::MAX)] {
            for level in [0, 1] {
                let seen = wrong(&image, at(level, index, LEVEL_ONE));
                assert_eq!(seen, told([18, one(3), 1, 0x12, 0]));
            }
        }
    }

    #[test]
    fn what_is_no_place_is_refused_by_its_number_alone() {
        let image = board();
        let no = |number| Err(Refusal::alone(number));
        assert_eq!(wrong(&[], at(1, None, 0)), no(15));
        assert_eq!(wrong(&vec![0; 16_777_217], at(1, None, 0)), no(15));
        assert_eq!(wrong(&image, at(1, None, LENGTH as u64 + 1)), no(7));
        // Nothing is cut to 32 bits.
        assert_eq!(wrong(&image, at(1, None, LEVEL_ONE + (1 << 32))), no(7));
        assert_eq!(wrong(&image, at(1, None, u64::MAX)), no(7));
        for level in [3, u64::from(u32::MAX), (1 << 32) + 1, u64::MAX] {
            assert_eq!(wrong(&image, at(level, None, LEVEL_ONE)), no(9), "{level}");
        }
        // The level comes first, as in every call on an image, then the image's length, then the place.
        assert_eq!(wrong(&[], at(3, None, 1)), no(9));
        assert_eq!(wrong(&[], at(2, None, 1)), no(15));
        assert_eq!(wrong(&image, at(3, None, LENGTH as u64 + 1)), no(9));
        assert_eq!(wrong(&image, at(2, None, LENGTH as u64 + 1)), no(7));
    }

    #[test]
    fn five_words_are_written_and_without_them_none_is() {
        let (image, place) = (board(), LEVEL_ONE as usize);
        let mut words = [7; 7];
        for count in 0..5 {
            let number = kpalumere_wrong(&image, place, 1, 2, &mut words[..count]);
            assert_eq!(number, 12, "{count} words");
        }
        // A refusal keeps them, and asks for none.
        assert_eq!(kpalumere_wrong(&image, place, 1, 0, &mut words), 8);
        assert_eq!(kpalumere_wrong(&image, place, 3, 2, &mut words), 9);
        assert_eq!(kpalumere_wrong(&[], place, 1, 2, &mut words), 15);
        assert_eq!(kpalumere_wrong(&image, place, 1, 0, &mut []), 8);
        assert_eq!(words, [7; 7]);
        assert_eq!(kpalumere_wrong(&image, place, 1, 2, &mut words), 0);
        assert_eq!(words, [16, one(2) + 8, 8, 3, 2, 7, 7]);
    }
}
