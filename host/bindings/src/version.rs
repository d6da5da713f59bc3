//! The firmware version in the header that a firmware binary begins with.

use crate::answer::{answer_of, Answer};
use crate::exported::exported;

exported! {
    fn kpalumere_version(bytes: &[u8], words: &mut [u64]) -> u64;
    fn kpalumere_entry_version(image: &[u8], level: u32, index: u64, words: &mut [u64]) -> u64;
    fn kpalumere_view_version(image: &[u8], place: usize, index: usize, words: &mut [u64]) -> u64;
}

/// The version of a firmware binary, by its header. People are shown its bytes from the highest on: 0x00080174 is
/// 00.08.01.74.
#[inline]
pub fn version(bytes: &[u8]) -> Answer<u64> {
    answer_of(
        |words| kpalumere_version(bytes, words),
        |&[version]| version,
    )
}

/// The version of the firmware binary that the bytes of an entry of the directory of a level are.
#[inline]
pub fn entry_version(image: &[u8], level: u32, index: usize) -> Answer<u64> {
    answer_of(
        |words| kpalumere_entry_version(image, level, index as u64, words),
        |&[version, _, _, _]| version,
    )
}

/// The same of an entry of the directory that a view of the image and the place holds.
#[inline]
pub fn view_version(image: &[u8], place: usize, index: usize) -> Answer<u64> {
    answer_of(
        |words| kpalumere_view_version(image, place, index, words),
        |&[version, _, _, _]| version,
    )
}

#[cfg(test)]
mod tests {
    use super::*;
    use crate::answer::Refusal;
    use crate::sample::{board, met_in_entry, LEVEL_ONE, LEVEL_TWO};
    use crate::{part, view_part};

    /// A binary of so many bytes whose header has the mark and the version of source document 001's example.
    fn binary(length: usize) -> Vec<u8> {
        let mut bytes = vec![0; length];
        bytes[0x10..0x14].copy_from_slice(b"$PS1");
        bytes[0x60..0x64].copy_from_slice(&[0x74, 0x01, 0x08, 0x00]);
        bytes
    }

    #[test]
    fn the_version_stands_in_the_header() {
        for length in [256, 257, 0x1000] {
            assert_eq!(version(&binary(length)), Ok(0x0008_0174), "{length} bytes");
        }
    }

    #[test]
    fn a_header_cut_off_is_refused_before_its_mark_is_looked_at() {
        assert_eq!(version(&binary(255)), Err(Refusal::alone(1)));
        assert_eq!(version(&[0; 255]), Err(Refusal::alone(1)));
        assert_eq!(version(&[]), Err(Refusal::alone(1)));
    }

    #[test]
    fn each_byte_of_the_mark_counts() {
        for place in 0x10..0x14 {
            let mut bytes = binary(256);
            bytes[place] ^= 1;
            assert_eq!(version(&bytes), Err(Refusal::alone(2)), "byte {place:#x}");
        }
    }

    #[test]
    fn without_room_for_the_word_the_answer_is_12() {
        assert_eq!(kpalumere_version(&binary(256), &mut []), 12);
    }

    #[test]
    fn words_past_the_first_are_kept() {
        let mut words = [7, 8];
        assert_eq!(kpalumere_version(&binary(256), &mut words), 0);
        assert_eq!(words, [0x0008_0174, 8]);
    }

    /// The sample board with a binary where the bytes of its first entry lie: 0x100 bytes at 0x3000.
    fn board_with_a_binary() -> Vec<u8> {
        let mut image = board();
        image[0x3000..0x3100].copy_from_slice(&binary(256));
        image
    }

    #[test]
    fn an_entrys_version_is_that_of_its_bytes_by_level_and_by_view() {
        let image = board_with_a_binary();
        let (one, two) = (LEVEL_ONE as usize, LEVEL_TWO as usize);
        assert_eq!(entry_version(&image, 1, 0), Ok(0x0008_0174));
        assert_eq!(view_version(&image, one, 0), Ok(0x0008_0174));
        // Bytes without the mark, and bytes too few for a header.
        assert_eq!(entry_version(&board(), 1, 0), Err(Refusal::alone(2)));
        assert_eq!(view_version(&board(), one, 0), Err(Refusal::alone(2)));
        assert_eq!(entry_version(&image, 2, 0), Err(Refusal::alone(1)));
        assert_eq!(view_version(&image, two, 0), Err(Refusal::alone(1)));
        // The last byte of the header's mark.
        let mut damaged = image;
        damaged[0x3013] ^= 1;
        assert_eq!(entry_version(&damaged, 1, 0), Err(Refusal::alone(2)));
        assert_eq!(view_version(&damaged, one, 0), Err(Refusal::alone(2)));
    }

    #[test]
    fn where_an_entry_has_no_bytes_its_version_is_refused_as_its_part_is() {
        let image = board_with_a_binary();
        let mode = Err(met_in_entry(16, 1, 2));
        assert_eq!(entry_version(&image, 1, 2), mode);
        assert_eq!(view_version(&image, LEVEL_ONE as usize, 2), mode);
        for (level, place) in [(1, LEVEL_ONE as usize), (2, LEVEL_TWO as usize)] {
            for index in [1, 2, 3, usize::MAX] {
                if let Err(refusal) = part(&image, level, index) {
                    let whence = format!("level {level}, index {index}");
                    assert_eq!(
                        entry_version(&image, level, index),
                        Err(refusal),
                        "{whence}"
                    );
                    let viewed = view_part(&image, place, index).err();
                    assert_eq!(viewed, Some(refusal), "{whence}");
                    let viewed = view_version(&image, place, index);
                    assert_eq!(viewed, Err(refusal), "{whence}");
                }
            }
        }
        assert_eq!(entry_version(&image, 3, 0), Err(Refusal::alone(9)));
        assert_eq!(entry_version(&[], 1, 0), Err(Refusal::alone(15)));
        assert_eq!(view_version(&[], 0, 0), Err(Refusal::alone(15)));
        for place in [
            image.len() + 1,
            1 << 32,
            (1 << 32) + LEVEL_ONE as usize,
            usize::MAX,
        ] {
            let viewed = view_version(&image, place, 0);
            assert_eq!(viewed, Err(Refusal::alone(7)), "{place:#x}");
        }
    }

    #[test]
    fn without_room_an_entrys_version_is_12_and_words_behind_are_kept() {
        let image = board_with_a_binary();
        let one = LEVEL_ONE as usize;
        assert_eq!(kpalumere_entry_version(&image, 1, 0, &mut []), 12);
        assert_eq!(kpalumere_view_version(&image, one, 0, &mut []), 12);
        // An entry that has no bytes is told in four words.
        let mut words = [7; 5];
        assert_eq!(kpalumere_entry_version(&image, 1, 2, &mut words[..3]), 12);
        assert_eq!(kpalumere_view_version(&image, one, 2, &mut words[..3]), 12);
        assert_eq!(words, [7; 5]);
        assert_eq!(kpalumere_entry_version(&image, 1, 2, &mut words[..4]), 16);
        assert_eq!(words, [2, 1, 2, LEVEL_ONE, 7]);
        words = [7; 5];
        assert_eq!(kpalumere_view_version(&image, one, 2, &mut words), 16);
        assert_eq!(words, [2, 1, 2, LEVEL_ONE, 7]);
        // What is wrong in the bytes of an entry is met in no directory, and neither is an index beyond it.
        let mut words = [7, 8];
        assert_eq!(kpalumere_entry_version(&image, 2, 0, &mut words), 1);
        assert_eq!(kpalumere_entry_version(&board(), 1, 0, &mut words), 2);
        assert_eq!(kpalumere_view_version(&board(), one, 0, &mut words), 2);
        assert_eq!(kpalumere_view_version(&image, one, 3, &mut words), 8);
        assert_eq!(words, [7, 8]);
        assert_eq!(kpalumere_entry_version(&image, 1, 0, &mut words), 0);
        assert_eq!(words, [0x0008_0174, 8]);
        words[0] = 7;
        assert_eq!(kpalumere_view_version(&image, one, 0, &mut words), 0);
        assert_eq!(words, [0x0008_0174, 8]);
    }
}
