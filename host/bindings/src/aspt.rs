//! The AMD Secure Processor Table: read from lent bytes, and written into them.
//!
//! A table crosses the boundary as 22 words: the OEM ID and the OEM table ID, each as a number from its lowest byte on, OEM
//! revision, creator, creator revision, base and pages; then for each structure its type, ID byte and three register offsets.

use crate::answer::{answer_of, done_by, Answer};
use crate::exported::exported;

exported! {
    fn kpalumere_aspt_read(bytes: &[u8], words: &mut [u64]) -> u64;
    fn kpalumere_aspt_write(buffer: &mut [u8], words: &[u64]) -> u64;
}

/// How many words a table takes, and from which on the structures stand.
pub(crate) const ALL: usize = 22;
const STRUCTURES: usize = 7;

/// What a table holds besides what is the same in every table.
#[derive(Clone, Copy, Debug, PartialEq, Eq)]
pub struct AsptTable {
    pub oem: [u8; 6],
    pub oem_table: [u8; 8],
    pub oem_revision: u32,
    pub creator: u32,
    pub creator_revision: u32,
    pub base: u64,
    pub pages: u32,
    /// The three structures in their order.
    pub structures: [AsptStructure; 3],
}

/// A structure of the table. A field that its type lacks is no part of it: it is read as 0, and not written.
#[derive(Clone, Copy, Debug, PartialEq, Eq)]
pub struct AsptStructure {
    /// Its type, a word that Rust keeps for itself.
    pub kind: u16,
    pub id: u8,
    /// The register offsets in the order of the source's table.
    pub registers: [u32; 3],
}

/// Reads the table in the first 112 bytes.
#[inline]
pub fn aspt_read(bytes: &[u8]) -> Answer<AsptTable> {
    answer_of(
        |words| kpalumere_aspt_read(bytes, words),
        AsptTable::of_words,
    )
}

/// Writes a table over the buffer's first 112 bytes.
#[inline]
pub fn aspt_write(buffer: &mut [u8], table: &AsptTable) -> Answer<()> {
    done_by(kpalumere_aspt_write(buffer, &table.words()))
}

impl AsptTable {
    #[inline]
    fn of_words(words: &[u64; ALL]) -> AsptTable {
        let structure = |at: usize| AsptStructure {
            kind: words[at] as u16,
            id: words[at + 1] as u8,
            registers: [
                words[at + 2] as u32,
                words[at + 3] as u32,
                words[at + 4] as u32,
            ],
        };
        let [o0, o1, o2, o3, o4, o5, ..] = words[0].to_le_bytes();
        AsptTable {
            oem: [o0, o1, o2, o3, o4, o5],
            oem_table: words[1].to_le_bytes(),
            oem_revision: words[2] as u32,
            creator: words[3] as u32,
            creator_revision: words[4] as u32,
            base: words[5],
            pages: words[6] as u32,
            structures: [
                structure(STRUCTURES),
                structure(STRUCTURES + 5),
                structure(STRUCTURES + 10),
            ],
        }
    }

    #[inline]
    fn words(&self) -> [u64; ALL] {
        let mut words = [0; ALL];
        let [o0, o1, o2, o3, o4, o5] = self.oem;
        words[..STRUCTURES].copy_from_slice(&[
            u64::from_le_bytes([o0, o1, o2, o3, o4, o5, 0, 0]),
            u64::from_le_bytes(self.oem_table),
            u64::from(self.oem_revision),
            u64::from(self.creator),
            u64::from(self.creator_revision),
            self.base,
            u64::from(self.pages),
        ]);
        for (part, structure) in words[STRUCTURES..].chunks_mut(5).zip(&self.structures) {
            part[0] = u64::from(structure.kind);
            part[1] = u64::from(structure.id);
            for (word, register) in part[2..].iter_mut().zip(structure.registers) {
                *word = u64::from(register);
            }
        }
        words
    }
}

#[cfg(test)]
mod tests {
    use super::*;
    use crate::answer::Refusal;

    /// A table in which no two fields have the same value.
    fn table() -> AsptTable {
        let structure = |kind, id, registers| AsptStructure {
            kind,
            id,
            registers,
        };
        AsptTable {
            oem: *b"AMDINC",
            oem_table: *b"AMDICRB\0",
            oem_revision: 0x1234_5678,
            creator: 0x9ABC_DEF0,
            creator_revision: 0x0FED_CBA9,
            base: 0x0123_4567_89AB_C000,
            pages: 0x10,
            structures: [
                structure(1, 1, [0x20, 0x24, 0x28]),
                structure(2, 0, [0x2C, 0, 0]),
                structure(0, 0, [0x10, 0x14, 0xFFFC]),
            ],
        }
    }

    #[test]
    fn a_table_that_was_written_is_read_back() {
        let mut buffer = [0xEE; 120];
        assert_eq!(aspt_write(&mut buffer, &table()), Ok(()));
        assert_eq!(aspt_read(&buffer), Ok(table()));
        assert_eq!(buffer[..4], *b"ASPT");
        assert_eq!(buffer[10..24], *b"AMDINCAMDICRB\0");
        assert_eq!(buffer[24..28], [0x78, 0x56, 0x34, 0x12]);
        assert_eq!(buffer[36..44], 0x0123_4567_89AB_C000u64.to_le_bytes());
        assert_eq!(buffer[52..57], [1, 0, 20, 0, 1]);
        assert_eq!(
            buffer[60..72],
            [0x20, 0, 0, 0, 0x24, 0, 0, 0, 0x28, 0, 0, 0]
        );
        assert_eq!(buffer[112..], [0xEE; 8]);
        let sum = buffer[..112]
            .iter()
            .fold(0u8, |sum, b| sum.wrapping_add(*b));
        assert_eq!(sum, 0);
    }

    #[test]
    fn a_field_that_the_type_lacks_is_not_written() {
        let mut given = table();
        given.structures[1].id = 9;
        given.structures[1].registers = [0x2C, 0xFFFF_FFFF, 7];
        given.structures[2].id = 9;
        let mut buffer = [0; 112];
        assert_eq!(aspt_write(&mut buffer, &given), Ok(()));
        assert_eq!(aspt_read(&buffer), Ok(table()));
    }

    #[test]
    fn a_refused_write_keeps_every_byte() {
        let mut buffer = [0x11; 112];
        let kept = buffer;
        let answer = aspt_write(&mut buffer[..111], &table());
        assert_eq!(answer, Err(Refusal::alone(12)));
        let mut bad = table();
        bad.base += 1;
        assert_eq!(aspt_write(&mut buffer, &bad), Err(Refusal::alone(5)));
        let mut bad = table();
        bad.structures[2].kind = 0x102;
        assert_eq!(aspt_write(&mut buffer, &bad), Err(Refusal::alone(6)));
        let mut bad = table();
        bad.structures[2].registers[2] = 0xFFFD;
        assert_eq!(aspt_write(&mut buffer, &bad), Err(Refusal::alone(7)));
        assert_eq!(buffer, kept);
    }

    #[test]
    fn a_damaged_table_is_refused() {
        let mut buffer = [0; 112];
        assert_eq!(aspt_write(&mut buffer, &table()), Ok(()));
        assert_eq!(aspt_read(&buffer[..111]), Err(Refusal::alone(1)));
        buffer[111] ^= 1;
        assert_eq!(aspt_read(&buffer), Err(Refusal::alone(4)));
        buffer[0] ^= 1;
        assert_eq!(aspt_read(&buffer), Err(Refusal::alone(2)));
    }

    #[test]
    fn without_room_for_the_words_the_answer_is_12_and_none_is_written() {
        let mut buffer = [0; 112];
        assert_eq!(aspt_write(&mut buffer, &table()), Ok(()));
        let mut words = [7; ALL + 1];
        assert_eq!(kpalumere_aspt_read(&buffer, &mut words[..ALL - 1]), 12);
        assert_eq!(words, [7; ALL + 1]);
        assert_eq!(kpalumere_aspt_read(&buffer, &mut words), 0);
        assert_eq!(words[ALL], 7);
    }

    #[test]
    fn fewer_words_than_a_table_has_are_refused_and_more_are_ignored() {
        let mut buffer = [0x11; 112];
        let words = table().words();
        assert_eq!(kpalumere_aspt_write(&mut buffer, &words[..ALL - 1]), 1);
        assert_eq!(buffer, [0x11; 112]);
        let longer = [&words[..], &[7]].concat();
        assert_eq!(kpalumere_aspt_write(&mut buffer, &longer), 0);
        assert_eq!(aspt_read(&buffer), Ok(table()));
    }

    /// Writes these words: the number is this, and what is refused changes no byte.
    fn expect_written(words: &[u64; ALL], number: u64, what: &str) {
        let mut buffer = [0x11; 112];
        assert_eq!(kpalumere_aspt_write(&mut buffer, words), number, "{what}");
        assert_eq!(buffer == [0x11; 112], number != 0, "{what}");
    }

    /// The words of `table`, whose structures have types 1, 2 and 0, with another word in the place of one.
    fn with(at: usize, word: u64) -> [u64; ALL] {
        let mut words = table().words();
        words[at] = word;
        words
    }

    #[test]
    fn a_word_that_its_field_cannot_hold_is_5_where_the_field_is_there() {
        // Before the structures; any word is an OEM table ID, and any a base address.
        for (at, bits) in [(0, 48), (2, 32), (3, 32), (4, 32), (6, 32)] {
            for wide in [1 << bits, u64::MAX, table().words()[at] + (1 << bits)] {
                expect_written(&with(at, wide), 5, &format!("word {at} of {wide:#x}"));
            }
            let held = (1 << bits) - 1;
            expect_written(&with(at, held), 0, &format!("word {at} of {held:#x}"));
        }
        expect_written(&with(1, u64::MAX), 0, "the OEM table ID");
        expect_written(&with(5, 0xFFFF_FFFF_FFFF_0000), 0, "the base address");
        // The structures of types 1, 2 and 0: whether they have the ID byte, and how many registers they have.
        for (at, has_id, registers) in [(7, true, 3), (12, false, 1), (17, false, 3)] {
            let what = format!("the structure from word {at} on");
            let id = if has_id { 5 } else { 0 };
            for wide in [0x100, 0x101, u64::MAX] {
                expect_written(&with(at + 1, wide), id, &what);
            }
            for register in 0..3 {
                let number = if register < registers { 5 } else { 0 };
                for wide in [1 << 32, (1 << 32) + 0x10, u64::MAX] {
                    expect_written(&with(at + 2 + register, wide), number, &what);
                }
            }
        }
    }

    #[test]
    fn a_type_that_its_field_cannot_hold_is_none() {
        for at in [7, 12, 17] {
            let class = table().words()[at];
            for wide in [3, 0xFFFF, 0x1_0000 + class, (1 << 32) + class, u64::MAX] {
                // A structure of no type has no field, so no other word of it is looked at.
                let mut words = with(at, wide);
                expect_written(&words, 6, &format!("word {at} of {wide:#x}"));
                words[at + 1..at + 5].fill(u64::MAX);
                expect_written(&words, 6, &format!("word {at} of {wide:#x}, wide fields"));
                // The base address comes before it, and so do words that fields cannot hold; room comes behind.
                assert_eq!(kpalumere_aspt_write(&mut [], &words), 6);
                words[5] += 1;
                expect_written(&words, 5, "the base address");
                words[5] -= 1;
                words[2] = 1 << 32;
                expect_written(&words, 5, "a word before the structures");
                words[2] = 0;
                let other = if at == 7 { 19 } else { 9 };
                words[other] = 1 << 32;
                expect_written(&words, 5, "a register of another structure");
            }
        }
    }

    #[test]
    fn a_word_of_a_field_that_the_type_lacks_is_neither_looked_at_nor_written() {
        let mut words = table().words();
        for at in [13, 15, 16, 18] {
            words[at] = u64::MAX;
        }
        let mut buffer = [0; 112];
        assert_eq!(kpalumere_aspt_write(&mut buffer, &words), 0);
        assert_eq!(aspt_read(&buffer), Ok(table()));
    }

    #[test]
    fn a_register_of_33_bits_is_5_in_a_space_that_would_hold_it() {
        let mut words = with(6, 0x20_0000);
        words[9] = 0xFFFF_FFFF;
        expect_written(&words, 0, "the last offset of 32 bits");
        words[9] = 0x1_0000_0000;
        expect_written(&words, 5, "the first of 33");
    }
}
