//! The GUID table at the end of a guest firmware image: read, looked up, started and extended.

use crate::answer::{answer_of, done_by, lookup_of, Answer};
use crate::exported::exported;

exported! {
    fn kpalumere_guids(image: &[u8], words: &mut [u64]) -> u64;
    fn kpalumere_guid_find(image: &[u8], low: u64, high: u64, words: &mut [u64]) -> u64;
    fn kpalumere_guid_entry(image: &[u8], index: usize, words: &mut [u64]) -> u64;
    fn kpalumere_guid_start(buffer: &mut [u8]) -> u64;
    fn kpalumere_guid_extend(buffer: &mut [u8], low: u64, high: u64, data: &[u8], words: &mut [u64]) -> u64;
}

/// A GUID: its sixteen bytes as they lie in memory.
#[derive(Clone, Copy, Debug, PartialEq, Eq)]
pub struct Guid(pub [u8; 16]);

impl Guid {
    /// The two numbers that stand for it at the boundary: its first eight bytes and its last, read from the lowest on.
    #[inline]
    fn halves(&self) -> (u64, u64) {
        let number = u128::from_le_bytes(self.0);
        (number as u64, (number >> 64) as u64)
    }

    /// The GUID that two numbers stand for.
    #[inline]
    fn of_halves(low: u64, high: u64) -> Guid {
        Guid((u128::from(high) << 64 | u128::from(low)).to_le_bytes())
    }
}

/// A checked table: its length in bytes, and how many entries it has.
#[derive(Clone, Copy, Debug, PartialEq, Eq)]
pub struct GuidTable {
    pub total: u64,
    pub entries: u64,
}

/// An entry of the table: its GUID, and where in the image its data lies.
#[derive(Clone, Copy, Debug, PartialEq, Eq)]
pub struct GuidEntry {
    pub guid: Guid,
    pub place: u64,
    pub length: u64,
}

/// What a lookup found: where the data lies, and how many entries were tested, the match with them.
#[derive(Clone, Copy, Debug, PartialEq, Eq)]
pub struct GuidMatch {
    pub place: u64,
    pub length: u64,
    pub tested: u64,
}

/// The table, all of it checked.
#[inline]
pub fn guids(image: &[u8]) -> Answer<GuidTable> {
    answer_of(
        |words| kpalumere_guids(image, words),
        |&[total, entries]| GuidTable { total, entries },
    )
}

/// The entry nearest the footer that has the GUID.
#[inline]
pub fn guid_find(image: &[u8], guid: &Guid) -> Answer<GuidMatch> {
    let (low, high) = guid.halves();
    lookup_of(
        |words| kpalumere_guid_find(image, low, high, words),
        |&[place, length, tested]| GuidMatch {
            place,
            length,
            tested,
        },
    )
}

/// An entry by its index, counted from the footer.
#[inline]
pub fn guid_entry(image: &[u8], index: usize) -> Answer<GuidEntry> {
    answer_of(
        |words| kpalumere_guid_entry(image, index, words),
        |&[low, high, place, length]| GuidEntry {
            guid: Guid::of_halves(low, high),
            place,
            length,
        },
    )
}

/// Writes a table with no entries at the buffer's end.
#[inline]
pub fn guid_start(buffer: &mut [u8]) -> Answer<()> {
    done_by(kpalumere_guid_start(buffer))
}

/// Adds an entry to the table, farthest from the footer, and answers the new total.
#[inline]
pub fn guid_extend(buffer: &mut [u8], guid: &Guid, data: &[u8]) -> Answer<u64> {
    let (low, high) = guid.halves();
    answer_of(
        |words| kpalumere_guid_extend(buffer, low, high, data, words),
        |&[total]| total,
    )
}

#[cfg(test)]
mod tests {
    use super::*;
    use crate::answer::Refusal;

    /// The sixteen bytes before the last 32 of an image that has a table.
    const FOOTER: [u8; 16] = [
        0xDE, 0x82, 0xB5, 0x96, 0xB2, 0x1F, 0xF7, 0x45, 0xBA, 0xEA, 0xA3, 0x66, 0xC5, 0x5A, 0x08,
        0x2D,
    ];

    const ONE: Guid = Guid([1, 2, 3, 4, 5, 6, 7, 8, 9, 10, 11, 12, 13, 14, 15, 16]);
    const OTHER: Guid = Guid([0xF0; 16]);

    /// An image of 120 bytes with a table of two entries, of five bytes of data and of none.
    fn two_entries() -> Vec<u8> {
        let mut image = vec![0; 120];
        assert_eq!(guid_start(&mut image), Ok(()));
        assert_eq!(guid_extend(&mut image, &ONE, b"hello"), Ok(41));
        assert_eq!(guid_extend(&mut image, &OTHER, b""), Ok(59));
        image
    }

    #[test]
    fn a_guid_is_its_bytes_in_memory() {
        let (low, high) = ONE.halves();
        assert_eq!((low, high), (0x0807_0605_0403_0201, 0x100F_0E0D_0C0B_0A09));
        assert_eq!(Guid::of_halves(low, high), ONE);
    }

    #[test]
    fn a_started_table_has_value_m9_and_a_total_of_17_m10() {
        let mut image = vec![0xEE; 60];
        assert_eq!(guid_start(&mut image), Ok(()));
        assert_eq!(image[10..12], [18, 0]);
        assert_eq!(image[12..28], FOOTER);
        assert!(image[..10].iter().chain(&image[28..]).all(|&b| b == 0xEE));
        let empty = GuidTable {
            total: 18,
            entries: 0,
        };
        assert_eq!(guids(&image), Ok(empty));
        image[10] = 17;
        assert_eq!(guids(&image), Err(Refusal::alone(3)));
    }

    #[test]
    fn entries_are_counted_from_the_footer() {
        let image = two_entries();
        let table = GuidTable {
            total: 59,
            entries: 2,
        };
        assert_eq!(guids(&image), Ok(table));
        let nearest = GuidEntry {
            guid: ONE,
            place: 47,
            length: 5,
        };
        let farthest = GuidEntry {
            guid: OTHER,
            place: 29,
            length: 0,
        };
        assert_eq!(guid_entry(&image, 0), Ok(nearest));
        assert_eq!(guid_entry(&image, 1), Ok(farthest));
        assert_eq!(guid_entry(&image, 2), Err(Refusal::alone(8)));
        assert_eq!(guid_entry(&image, 1 << 32), Err(Refusal::alone(8)));
        assert_eq!(image[47..52], *b"hello");
        assert_eq!(image[52..54], [23, 0]);
        assert_eq!(image[54..70], ONE.0);
    }

    #[test]
    fn a_lookup_tells_how_many_entries_it_tested() {
        let image = two_entries();
        let farthest = GuidMatch {
            place: 29,
            length: 0,
            tested: 2,
        };
        assert_eq!(guid_find(&image, &OTHER), Ok(farthest));
        let absent = guid_find(&image, &Guid(FOOTER)).unwrap_err();
        assert_eq!(absent.to_string(), "refused 8 tested=2");
        let short = guid_find(&image[..49], &ONE).unwrap_err();
        assert_eq!(short, Refusal::alone(1));
    }

    #[test]
    fn a_refused_write_keeps_every_byte() {
        let mut image = two_entries();
        let kept = image.clone();
        assert_eq!(guid_start(&mut image[..49]), Err(Refusal::alone(12)));
        let long = [0; 12];
        let answer = guid_extend(&mut image, &ONE, &long);
        assert_eq!(answer, Err(Refusal::alone(12)));
        assert_eq!(image, kept);
        image[28] = 1;
        let kept = image.clone();
        let answer = guid_extend(&mut image, &ONE, b"");
        assert_eq!(answer, Err(Refusal::alone(13)));
        assert_eq!(image, kept);
    }

    #[test]
    fn without_room_for_the_words_the_answer_is_12_and_none_is_written() {
        let mut image = two_entries();
        let kept = image.clone();
        let mut words = [7; 4];
        assert_eq!(kpalumere_guids(&image, &mut words[..1]), 12);
        let ((low, high), absent) = (ONE.halves(), Guid(FOOTER).halves());
        assert_eq!(kpalumere_guid_find(&image, low, high, &mut words[..2]), 12);
        assert_eq!(kpalumere_guid_find(&image, absent.0, absent.1, &mut []), 12);
        assert_eq!(kpalumere_guid_entry(&image, 0, &mut words[..3]), 12);
        let answer = kpalumere_guid_extend(&mut image, low, high, b"", &mut []);
        assert_eq!(answer, 12);
        assert_eq!((words, image), ([7; 4], kept));
    }
}
