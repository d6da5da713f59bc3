//! The checksum of document 01: Fletcher's 32-bit sum over lent bytes.

use crate::answer::{answer_of, Answer};
use crate::exported::exported;

exported! {
    fn kpalumere_checksum(bytes: &[u8], words: &mut [u64]) -> u64;
}

/// The checksum of the lent bytes, taken as 16-bit words; a last odd byte has no part in it. A directory holds the
/// checksum of its bytes from 8 on in the four bytes at 4.
#[inline]
pub fn checksum(bytes: &[u8]) -> Answer<u64> {
    answer_of(|words| kpalumere_checksum(bytes, words), |&[sum]| sum)
}

#[cfg(test)]
mod tests {
    use super::*;

    /// The paper's sentence, word by word: S and T over all 16-bit words, modulo 65,535, with 0 written as 65,535.
    fn by_the_paper(bytes: &[u8]) -> u64 {
        let words: Vec<u64> = bytes
            .chunks_exact(2)
            .map(|pair| u64::from(pair[0]) + 256 * u64::from(pair[1]))
            .collect();
        let count = words.len() as u64;
        let sum: u64 = words.iter().sum();
        let weighted: u64 = (0..count).map(|i| words[i as usize] * (count - i)).sum();
        let folded = |sum: u64| match sum % 65_535 {
            0 => 65_535,
            rest => rest,
        };
        folded(weighted) * 65_536 + folded(sum)
    }

    /// Bytes that look random and are the same at each run.
    fn mixed_bytes(length: usize) -> Vec<u8> {
        let mut state = 1u32;
        let mut bytes = Vec::with_capacity(length);
        for _ in 0..length {
            state = state.wrapping_mul(1_664_525).wrapping_add(1_013_904_223);
            bytes.push((state >> 24) as u8);
        }
        bytes
    }

    #[test]
    fn empty_directory_has_value_m1() {
        assert_eq!(checksum(&[0; 8]), Ok(0xFFFF_FFFF));
    }

    #[test]
    fn directory_of_one_entry_has_value_m2() {
        // From byte 8 on: total 1, zero; then type 1, subprogram 0, size 0x100, location 0x1000 in mode 1.
        let mut bytes = vec![1, 0, 0, 0, 0, 0, 0, 0];
        bytes.extend([1, 0, 0, 0, 0, 1, 0, 0]);
        bytes.extend(0x4000_0000_0000_1000u64.to_le_bytes());
        assert_eq!(checksum(&bytes), Ok(0x8614_5102));
    }

    #[test]
    fn no_bytes_have_both_halves_65535() {
        assert_eq!(checksum(&[]), Ok(0xFFFF_FFFF));
    }

    #[test]
    fn words_on_both_sides_of_each_fold_are_as_the_paper_says() {
        // Every remainder of four words, both sides of 359 and 718 words, and the largest directory.
        let words = (0..=9)
            .chain(350..=370)
            .chain(710..=726)
            .chain([4 + 8 * 512]);
        for length in words.map(|words| 2 * words) {
            let bytes = mixed_bytes(length);
            assert_eq!(checksum(&bytes), Ok(by_the_paper(&bytes)), "{length} bytes");
            let full = vec![0xFF; length];
            assert_eq!(checksum(&full), Ok(by_the_paper(&full)), "{length} of 0xFF");
        }
    }

    #[test]
    fn the_steepest_words_do_not_pass_32_bits() {
        // Both sums are 65,534 after `run` words, from where words of 0xFFFF let them grow fastest.
        for run in 352..=364 {
            let mut bytes = vec![0; 2 * run];
            bytes[2 * run - 2] = 0xFE;
            bytes[2 * run - 1] = 0xFF;
            bytes.resize(2 * run + 2 * 2000, 0xFF);
            assert_eq!(checksum(&bytes), Ok(by_the_paper(&bytes)), "{run} words");
        }
    }

    #[test]
    fn a_last_odd_byte_has_no_part_in_it() {
        let bytes = mixed_bytes(31);
        assert_eq!(checksum(&bytes), checksum(&bytes[..30]));
    }

    #[test]
    fn bytes_at_an_odd_address_are_read_as_any_others() {
        let bytes = mixed_bytes(65);
        assert_eq!(checksum(&bytes[1..]), Ok(by_the_paper(&bytes[1..])));
    }

    #[test]
    fn without_room_for_the_word_the_answer_is_12() {
        assert_eq!(kpalumere_checksum(&[0; 8], &mut []), 12);
    }

    #[test]
    fn words_past_the_first_are_kept() {
        let mut words = [7, 8, 9];
        assert_eq!(kpalumere_checksum(&[0; 8], &mut words), 0);
        assert_eq!(words, [0xFFFF_FFFF, 8, 9]);
    }
}
