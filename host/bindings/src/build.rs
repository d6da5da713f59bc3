//! A directory in a buffer: started at its beginning, and extended by one entry after another.

use crate::answer::{answer_of, done_by, Answer};
use crate::exported::exported;

exported! {
    fn kpalumere_start(buffer: &mut [u8], level: u32) -> u64;
    fn kpalumere_extend(
        buffer: &mut [u8], class: u8, subprogram: u8, size: u32, location: u64, mode: u32, words: &mut [u64]
    ) -> u64;
}

/// An entry to be written. Its location and mode may be any numbers: the library checks them.
#[derive(Clone, Copy, Debug, PartialEq, Eq)]
pub struct NewEntry {
    /// Its type, a word that Rust keeps for itself.
    pub class: u8,
    pub subprogram: u8,
    pub size: u32,
    pub location: u64,
    pub mode: u32,
}

/// Writes an empty directory of a level at the buffer's start.
#[inline]
pub fn start(buffer: &mut [u8], level: u32) -> Answer<()> {
    done_by(kpalumere_start(buffer, level))
}

/// Adds an entry to the directory at the buffer's start, and answers the new total.
#[inline]
pub fn extend(buffer: &mut [u8], entry: &NewEntry) -> Answer<u64> {
    let NewEntry {
        class,
        subprogram,
        size,
        location,
        mode,
    } = *entry;
    answer_of(
        |words| kpalumere_extend(buffer, class, subprogram, size, location, mode, words),
        |&[total, _, _, _]| total,
    )
}

#[cfg(test)]
mod tests {
    use super::*;
    use crate::answer::Refusal;
    use crate::sample::{directory_bytes, entry_bytes, met_at};

    /// The entry of value M2.
    const M2: NewEntry = NewEntry {
        class: 1,
        subprogram: 0,
        size: 0x100,
        location: 0x1000,
        mode: 1,
    };

    #[test]
    fn a_started_directory_has_value_m1_and_one_of_an_entry_m2() {
        let mut buffer = [0xEE; 40];
        assert_eq!(start(&mut buffer, 1), Ok(()));
        assert_eq!(buffer[..8], *b"$PSP\xFF\xFF\xFF\xFF");
        assert_eq!(buffer[8..16], [0; 8]);
        assert_eq!(buffer[16..], [0xEE; 24]);
        assert_eq!(extend(&mut buffer, &M2), Ok(1));
        assert_eq!(buffer[4..8], 0x8614_5102u32.to_le_bytes());
        assert_eq!(buffer[8..20], [1, 0, 0, 0, 0, 0, 0, 0, 1, 0, 0, 0]);
        assert_eq!(buffer[24..32], 0x4000_0000_0000_1000u64.to_le_bytes());
        assert_eq!(buffer[32..], [0xEE; 8]);
    }

    #[test]
    fn all_nine_arguments_arrive() {
        let mut buffer = [0; 32];
        assert_eq!(start(&mut buffer, 2), Ok(()));
        let entry = NewEntry {
            class: 0xA1,
            subprogram: 0xB2,
            size: 0xC3D4_E5F6,
            location: 0x0123_4567_89AB_CDEF,
            mode: 3,
        };
        assert_eq!(extend(&mut buffer, &entry), Ok(1));
        let expected = [0xA1, 0xB2, 0, 0, 0xF6, 0xE5, 0xD4, 0xC3];
        assert_eq!(buffer[16..24], expected);
        assert_eq!(buffer[24..], 0xC123_4567_89AB_CDEFu64.to_le_bytes());
    }

    #[test]
    fn a_refused_write_keeps_every_byte() {
        let mut buffer = [0x11; 24];
        let kept = buffer;
        assert_eq!(start(&mut buffer, 3), Err(Refusal::alone(9)));
        assert_eq!(start(&mut buffer[..15], 1), Err(Refusal::alone(12)));
        // No cookie tells the level of what is there.
        assert_eq!(extend(&mut buffer, &M2), Err(met(2, 0, None)));
        for few in [0, 15] {
            assert_eq!(extend(&mut buffer[..few], &M2), Err(met(1, 0, None)));
        }
        assert_eq!(buffer, kept);
        assert_eq!(start(&mut buffer, 2), Ok(()));
        let kept = buffer;
        let outside = NewEntry { mode: 4, ..M2 };
        assert_eq!(extend(&mut buffer, &outside), Err(Refusal::alone(5)));
        let outside = NewEntry {
            location: 1 << 62,
            ..M2
        };
        assert_eq!(extend(&mut buffer, &outside), Err(Refusal::alone(5)));
        let misplaced = NewEntry { class: 0x40, ..M2 };
        assert_eq!(extend(&mut buffer, &misplaced), Err(Refusal::alone(14)));
        assert_eq!(extend(&mut buffer, &M2), Err(Refusal::alone(12)));
        assert_eq!(buffer, kept);
    }

    /// The refusal of a directory at the buffer's start.
    fn met(number: u64, level: u64, index: Option<u64>) -> Refusal {
        met_at(0, number, level, index)
    }

    #[test]
    fn what_is_wrong_in_the_directory_there_tells_where_and_in_the_new_entry_does_not() {
        let good = entry_bytes(2, 0, 0, 0, 1);
        let mut flags = entry_bytes(3, 0, 0, 0, 1);
        flags[2] = 1;
        for (level, cookie) in [(1, b"$PSP"), (2, b"$PL2")] {
            let of = |entries: &[&Vec<u8>]| {
                let entries: Vec<Vec<u8>> = entries.iter().map(|one| one.to_vec()).collect();
                directory_bytes(cookie, &entries)
            };
            let refused = |mut buffer: Vec<u8>, no: Refusal| {
                let kept = buffer.clone();
                assert_eq!(extend(&mut buffer, &M2), Err(no));
                assert_eq!(buffer, kept);
            };
            refused(of(&[&good, &flags]), met(5, level, Some(1)));
            refused(of(&[&flags]), met(5, level, Some(0)));
            refused(of(&[&good, &good]), met(18, level, Some(1)));
            refused(of(&[&good])[..31].to_vec(), met(1, level, None));
            let mut damaged = of(&[&good]);
            damaged[4] ^= 1;
            refused(damaged, met(4, level, None));
            // A good directory without room for one entry more.
            refused(of(&[&good]), Refusal::alone(12));
        }
        let lead = entry_bytes(0x40, 0, 0, 0, 1);
        let mut buffer = directory_bytes(b"$PL2", &[good, lead]);
        assert_eq!(extend(&mut buffer, &M2), Err(met(14, 2, Some(1))));
    }

    #[test]
    fn an_entry_that_repeats_an_earlier_one_is_refused() {
        let mut buffer = [0xEE; 64];
        assert_eq!(start(&mut buffer, 1), Ok(()));
        assert_eq!(extend(&mut buffer, &M2), Ok(1));
        let kept = buffer;
        let elsewhere = NewEntry {
            size: 1,
            location: 2,
            mode: 2,
            ..M2
        };
        assert_eq!(extend(&mut buffer, &elsewhere), Err(Refusal::alone(18)));
        // It is told before the room that is missing, and after the mode.
        let full = &mut buffer[..32];
        assert_eq!(extend(full, &elsewhere), Err(Refusal::alone(18)));
        let outside = NewEntry { mode: 4, ..M2 };
        assert_eq!(extend(full, &outside), Err(Refusal::alone(5)));
        assert_eq!(buffer, kept);
        let other_subprogram = NewEntry {
            subprogram: 1,
            ..M2
        };
        assert_eq!(extend(&mut buffer, &other_subprogram), Ok(2));
        // The pair counts in its order: subprogram 1 of type 0 is another than subprogram 0 of type 1.
        let exchanged = NewEntry {
            class: 0,
            subprogram: 1,
            ..M2
        };
        assert_eq!(extend(&mut buffer, &exchanged), Ok(3));
    }

    #[test]
    fn without_room_for_the_word_nothing_is_written() {
        let mut buffer = [0; 32];
        assert_eq!(start(&mut buffer, 1), Ok(()));
        let kept = buffer;
        let answer = kpalumere_extend(&mut buffer, 1, 0, 0x100, 0x1000, 1, &mut []);
        assert_eq!(answer, 12);
        assert_eq!(buffer, kept);
        // A place takes four.
        let mut words = [7; 5];
        let mut unlike = [0x11; 32];
        for count in 0..4 {
            let lent = &mut words[..count];
            let answer = kpalumere_extend(&mut unlike, 1, 0, 0x100, 0x1000, 1, lent);
            assert_eq!(answer, 12, "{count} words");
        }
        assert_eq!(words, [7; 5]);
        let answer = kpalumere_extend(&mut unlike, 1, 0, 0x100, 0x1000, 1, &mut words);
        assert_eq!((answer, words), (2, [1, 0, 0, 0, 7]));
        // What is wrong in the new entry is told by its number alone.
        let answer = kpalumere_extend(&mut buffer, 1, 0, 0x100, 0x1000, 4, &mut []);
        assert_eq!((answer, buffer), (5, kept));
    }
}
