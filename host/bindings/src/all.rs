//! All of a kind at once: every entry of the directory that a view holds, and every directory of an image.

use crate::answer::{answer_of, done_by, Answer, Refusal, PLACE_WORDS};
use crate::exported::exported;
use crate::flash::{Directory, Entry, Part};

exported! {
    fn kpalumere_view_entries(image: &[u8], place: usize, words: &mut [u64]) -> u64;
    fn kpalumere_directories(image: &[u8], words: &mut [u64]) -> u64;
}

/// The most entries that a directory has.
pub(crate) const MOST_ENTRIES: usize = 512;

/// Words in which a directory tells itself, and those of each entry behind them.
pub(crate) const HEAD_WORDS: usize = 3;
pub(crate) const ROW_WORDS: usize = 8;

/// Words for all entries of a directory, whichever it is.
pub(crate) const WORDS_FOR_ENTRIES: usize = HEAD_WORDS + ROW_WORDS * MOST_ENTRIES;

/// The most directories that an image has: level one, and one of level two for each entry of type 0x40, of which no two have the
/// same subprogram.
pub(crate) const MOST_DIRECTORIES: usize = 257;

/// The words of each directory, behind the one that tells how many there are.
pub(crate) const ENTERED_WORDS: usize = 4;

/// Words for so many directories, and for those of any image.
const fn words_for(directories: usize) -> usize {
    1 + ENTERED_WORDS * directories
}
pub(crate) const WORDS_FOR_ALL: usize = words_for(MOST_DIRECTORIES);

/// Words for eight directories, which are lent first. Most images have two, and to clear the words for all would take longer than the
/// call.
const WORDS_FOR_FEW: usize = words_for(8);

/// Words lent for every entry of a directory. They can be lent again, and need not be cleared for that.
pub struct Words(Vec<u64>);

impl Words {
    /// Words for the largest directory.
    pub fn new() -> Words {
        Words(vec![0; WORDS_FOR_ENTRIES])
    }
}

impl Default for Words {
    fn default() -> Words {
        Words::new()
    }
}

/// A directory, and every entry of it.
#[derive(Debug, PartialEq, Eq)]
pub struct Entries<'a> {
    pub directory: Directory,
    rows: &'a [u64],
}

/// An entry, and where its bytes lie, or the number for which they do not: the row tells which entry it is.
#[derive(Clone, Copy, Debug, PartialEq, Eq)]
pub struct EntryRow {
    pub entry: Entry,
    pub part: Answer<Part>,
}

impl EntryRow {
    /// The entry and its part, as they stand in a row of words.
    #[inline]
    fn of_words(row: &[u64]) -> EntryRow {
        match *row {
            [class, subprogram, size, location, mode, number, place, length] => EntryRow {
                entry: Entry {
                    class,
                    subprogram,
                    size,
                    location,
                    mode,
                },
                part: done_by(number).map(|()| Part { place, length }),
            },
            _ => unreachable!("a row has {ROW_WORDS} words"),
        }
    }
}

impl Entries<'_> {
    /// The entries, in order.
    #[inline]
    pub fn rows(&self) -> impl ExactSizeIterator<Item = EntryRow> + '_ {
        let rows = self.rows.chunks_exact(ROW_WORDS);
        rows.map(|row| EntryRow::of_words(row))
    }
}

/// Every entry of the directory that a view holds, which is checked once.
#[inline]
pub fn view_entries<'a>(image: &[u8], place: usize, words: &'a mut Words) -> Answer<Entries<'a>> {
    // What a call before left there is no place of this one's refusal.
    words.0[..PLACE_WORDS].fill(0);
    match kpalumere_view_entries(image, place, &mut words.0) {
        0 => (),
        number => return Err(Refusal::of_words(number, &words.0)),
    }
    let (head, rows) = words.0.split_at(HEAD_WORDS);
    let directory = Directory {
        place: head[0],
        level: head[1],
        total: head[2],
    };
    let rows = &rows[..ROW_WORDS * directory.total as usize];
    Ok(Entries { directory, rows })
}

/// A directory that the walk through an image enters.
#[derive(Clone, Copy, Debug, PartialEq, Eq)]
pub struct Entered {
    pub directory: Directory,
    /// The index of the entry of level one that led there; 0 for level one itself, to which no entry leads.
    pub lead: u64,
}

impl Entered {
    /// The directory and its lead, as they stand in its words.
    #[inline]
    fn of_words(row: &[u64]) -> Entered {
        match *row {
            [place, level, total, lead] => Entered {
                directory: Directory {
                    place,
                    level,
                    total,
                },
                lead,
            },
            _ => unreachable!("a directory has {ENTERED_WORDS} words"),
        }
    }
}

/// Every directory of an image: level one, then, for each of its entries of type 0x40 in order, the one of level two that it leads
/// to; or the first fault.
#[inline]
pub fn directories(image: &[u8]) -> Answer<Vec<Entered>> {
    let few = directories_in::<WORDS_FOR_FEW>(image);
    if few == Err(Refusal::alone(Refusal::ROOM)) {
        return directories_in::<WORDS_FOR_ALL>(image);
    }
    few
}

/// The same with so many words lent: 12 where they do not suffice.
#[inline]
fn directories_in<const ROOM: usize>(image: &[u8]) -> Answer<Vec<Entered>> {
    answer_of(
        |words: &mut [u64; ROOM]| kpalumere_directories(image, words),
        |words| {
            let count = words[0] as usize;
            let rows = words[1..].chunks_exact(ENTERED_WORDS).take(count);
            rows.map(|row| Entered::of_words(row)).collect()
        },
    )
}

#[cfg(test)]
mod tests {
    use super::*;
    use crate::sample::{
        board, board_of, board_that_repeats, directory_bytes, entry_bytes, met_in_entry,
        met_in_header, LENGTH, LEVEL_ONE, LEVEL_TWO,
    };
    use crate::{directory, view_entry, view_part};

    /// A place that no directory of the sample has: for a second one of level two.
    const LEVEL_TWO_AGAIN: u64 = 0x2800;

    /// A board whose level one has entries with bytes, one with none of them, and each kind that has no part: a value, mode 3, and
    /// bytes that do not lie in the image.
    fn board_of_every_part() -> Vec<u8> {
        let one = vec![
            entry_bytes(0x01, 0, 0x100, 0x3000, 1),
            entry_bytes(0x02, 7, 0x40, 0xFFF8_3000, 0),
            entry_bytes(0x03, 0, 0x20, 0x10, 2),
            entry_bytes(0x04, 0, 0, LENGTH as u64, 1),
            entry_bytes(0x0B, 0, 5, 0x1234, 1),
            entry_bytes(0x05, 0, 1, LENGTH as u64, 1),
            entry_bytes(0x06, 0, 0, 0xFFF7_FFFF, 0),
            entry_bytes(0x07, 0, u32::MAX, (1 << 62) - 1, 3),
            entry_bytes(0x40, 0, 0, LEVEL_TWO, 1),
        ];
        let two = vec![entry_bytes(0x01, 0, 0x40, 0x3100, 1)];
        board_of([one, two])
    }

    /// A board whose level one leads three times: to one level two, to another, and to the first again.
    fn board_of_three_leads() -> Vec<u8> {
        let one = vec![
            entry_bytes(0x01, 0, 0x100, 0x3000, 1),
            entry_bytes(0x40, 9, 0, LEVEL_TWO, 1),
            entry_bytes(0x02, 0, 0x100, 0x3000, 1),
            entry_bytes(0x40, 0, 0, LEVEL_TWO_AGAIN, 1),
            entry_bytes(0x40, 1, 0, 0xFFF8_0000 + LEVEL_TWO, 0),
        ];
        let two = vec![entry_bytes(0x01, 0, 0x40, 0x3100, 1)];
        let again = directory_bytes(b"$PL2", &[]);
        with(board_of([one, two]), LEVEL_TWO_AGAIN, &again)
    }

    /// An image in which these bytes stand at a place.
    fn with(mut image: Vec<u8>, place: u64, bytes: &[u8]) -> Vec<u8> {
        image[place as usize..][..bytes.len()].copy_from_slice(bytes);
        image
    }

    fn entered(place: u64, level: u64, total: u64, lead: u64) -> Entered {
        let directory = Directory {
            place,
            level,
            total,
        };
        Entered { directory, lead }
    }

    #[test]
    fn every_row_is_what_the_single_calls_give() {
        let mut words = Words::new();
        for (image, level, place) in [
            (board(), 1, LEVEL_ONE),
            (board(), 2, LEVEL_TWO),
            (board_of_every_part(), 1, LEVEL_ONE),
            (board_of_every_part(), 2, LEVEL_TWO),
        ] {
            let place = place as usize;
            let entries = view_entries(&image, place, &mut words).expect("the directory is good");
            assert_eq!(Ok(entries.directory), directory(&image, level));
            let total = entries.directory.total as usize;
            assert_eq!(entries.rows().len(), total);
            for (index, row) in entries.rows().enumerate() {
                assert_eq!(Ok(row.entry), view_entry(&image, place, index), "{index}");
                // A row tells by itself which entry it is.
                let part = view_part(&image, place, index).map_err(|no| Refusal::alone(no.number));
                assert_eq!(row.part, part, "{index}");
            }
        }
    }

    #[test]
    fn every_kind_of_part_stands_in_its_row() {
        let mut words = Words::new();
        let image = board_of_every_part();
        let entries = view_entries(&image, LEVEL_ONE as usize, &mut words).expect("it is good");
        let given = |place, length| Ok(Part { place, length });
        let refused = |number| Err(Refusal::alone(number));
        let parts: Vec<Answer<Part>> = entries.rows().map(|row| row.part).collect();
        let expected = [
            given(0x3000, 0x100),
            given(0x3000, 0x40),
            given(LEVEL_ONE + 0x10, 0x20),
            given(LENGTH as u64, 0),
            refused(Refusal::VALUE),
            refused(Refusal::OUTSIDE),
            refused(Refusal::OUTSIDE),
            refused(Refusal::MODE),
            given(LEVEL_TWO, 0),
        ];
        assert_eq!(parts, expected);
    }

    #[test]
    fn words_lent_again_keep_nothing_of_before() {
        let mut again = Words::new();
        let image = board_of_every_part();
        for place in [LEVEL_ONE, LEVEL_TWO, LEVEL_ONE] {
            let mut fresh = Words::new();
            let seen = view_entries(&image, place as usize, &mut again);
            assert_eq!(seen, view_entries(&image, place as usize, &mut fresh));
        }
    }

    #[test]
    fn a_directory_that_is_refused_gives_no_entries() {
        let mut words = Words::new();
        let mut number = |image: &[u8], place: usize| {
            let answer = view_entries(image, place, &mut words);
            answer.expect_err("the directory is not good").number
        };
        let (image, place) = (board(), LEVEL_ONE as usize);
        assert_eq!(number(&[], 0), Refusal::IMAGE);
        assert_eq!(number(&image, LENGTH + 1), Refusal::OUTSIDE);
        // A place is not cut to 32 bits.
        assert_eq!(number(&image, place + (1 << 32)), Refusal::OUTSIDE);
        assert_eq!(number(&image, usize::MAX), Refusal::OUTSIDE);
        assert_eq!(number(&image, LENGTH), Refusal::SHORT);
        assert_eq!(number(&image, 0), Refusal::SIGNATURE);
        let damaged = |at: usize| {
            let mut image = board();
            image[place + at] ^= 0x80;
            image
        };
        assert_eq!(number(&damaged(9), place), Refusal::LIMITS);
        assert_eq!(number(&damaged(4), place), Refusal::CHECKSUM);
        for (level, place) in [(1, LEVEL_ONE), (2, LEVEL_TWO)] {
            let repeats = board_that_repeats(level);
            assert_eq!(number(&repeats, place as usize), Refusal::REPEATED);
        }
    }

    #[test]
    fn a_directory_that_is_refused_tells_where_and_words_of_before_do_not() {
        let mut words = Words::new();
        // Words that would tell a place, if they were a refusal's.
        for first in [1, 2] {
            words.0[..PLACE_WORDS].copy_from_slice(&[first, 1, 2, 3]);
            let answer = view_entries(&board(), LENGTH + 1, &mut words);
            assert_eq!(answer, Err(Refusal::alone(Refusal::OUTSIDE)));
        }
        let mut image = board_that_repeats(2);
        let no = met_in_entry(Refusal::REPEATED, 2, 2);
        let two = LEVEL_TWO as usize;
        assert_eq!(view_entries(&image, two, &mut words), Err(no));
        image[two + 4] ^= 1;
        let no = met_in_header(Refusal::CHECKSUM, 2);
        assert_eq!(view_entries(&image, two, &mut words), Err(no));
    }

    #[test]
    fn without_room_for_the_words_the_answer_is_12_and_none_is_written() {
        let (image, place) = (board(), LEVEL_ONE as usize);
        let mut words = [7; 27];
        assert_eq!(kpalumere_view_entries(&image, place, &mut words[..26]), 12);
        assert_eq!(kpalumere_view_entries(&image, place, &mut []), 12);
        assert_eq!(kpalumere_directories(&image, &mut words[..8]), 12);
        assert_eq!(kpalumere_directories(&image, &mut []), 12);
        assert_eq!(words, [7; 27]);
        assert_eq!(kpalumere_view_entries(&image, place, &mut words), 0);
        assert_ne!(words[26], 7);
        // The place of a refusal takes four.
        let repeats = board_that_repeats(1);
        let mut words = [7; 5];
        assert_eq!(kpalumere_view_entries(&repeats, place, &mut words[..3]), 12);
        assert_eq!(kpalumere_directories(&repeats, &mut words[..3]), 12);
        assert_eq!(words, [7; 5]);
        assert_eq!(kpalumere_view_entries(&repeats, place, &mut words[..4]), 18);
        assert_eq!(words, [2, 1, 3, LEVEL_ONE, 7]);
        words = [7; 5];
        assert_eq!(kpalumere_directories(&repeats, &mut words[..4]), 18);
        assert_eq!(words, [2, 1, 3, LEVEL_ONE, 7]);
        words = [7; 5];
        assert_eq!(kpalumere_view_entries(&image, LENGTH + 1, &mut words), 7);
        assert_eq!(kpalumere_directories(&[], &mut words), 15);
        assert_eq!(words, [7; 5]);
    }

    #[test]
    fn words_past_the_values_are_kept() {
        let (image, place) = (board(), LEVEL_TWO as usize);
        let mut words = [7; 21];
        assert_eq!(kpalumere_view_entries(&image, place, &mut words), 0);
        let rows = [
            [LEVEL_TWO, 2, 2].as_slice(),
            &[0x01, 0, 0x40, 0x3100, 1, 0, 0x3100, 0x40],
            &[0x0B, 0, 0, 0x1234, 0, 17, 0, 0],
            &[7, 7],
        ];
        assert_eq!(words.as_slice(), rows.concat());
        let mut words = [7; 11];
        assert_eq!(kpalumere_directories(&image, &mut words), 0);
        assert_eq!(words, [2, LEVEL_ONE, 1, 3, 0, LEVEL_TWO, 2, 2, 1, 7, 7]);
    }

    #[test]
    fn every_directory_is_told_with_the_entry_that_led_there() {
        let both = vec![entered(LEVEL_ONE, 1, 3, 0), entered(LEVEL_TWO, 2, 2, 1)];
        assert_eq!(directories(&board()), Ok(both));
        let all = vec![
            entered(LEVEL_ONE, 1, 5, 0),
            entered(LEVEL_TWO, 2, 1, 1),
            entered(LEVEL_TWO_AGAIN, 2, 0, 3),
            entered(LEVEL_TWO, 2, 1, 4),
        ];
        assert_eq!(directories(&board_of_three_leads()), Ok(all));
        let alone = board_of([vec![], vec![]]);
        assert_eq!(directories(&alone), Ok(vec![entered(LEVEL_ONE, 1, 0, 0)]));
    }

    #[test]
    fn as_many_directories_as_there_can_be_are_told() {
        let image = board_of([vec![], vec![]]);
        let leads = (0..=255).map(|subprogram| entry_bytes(0x40, subprogram, 0, 0x6000, 1));
        let leads: Vec<Vec<u8>> = leads.collect();
        let image = with(image, LEVEL_ONE, &directory_bytes(b"$PSP", &leads));
        let image = with(image, 0x6000, &directory_bytes(b"$PL2", &[]));
        let told = directories(&image).expect("no lead repeats another");
        assert_eq!(told.len(), MOST_DIRECTORIES);
        assert_eq!(told[0], entered(LEVEL_ONE, 1, 256, 0));
        for (lead, two) in told[1..].iter().enumerate() {
            assert_eq!(*two, entered(0x6000, 2, 0, lead as u64));
        }
    }

    #[test]
    fn the_first_fault_refuses_all_directories() {
        assert_eq!(directories(&[]), Err(Refusal::alone(Refusal::IMAGE)));
        assert_eq!(directories(&[0]), Err(Refusal::alone(Refusal::SIGNATURE)));
        for (level, index) in [(1, 3), (2, 2)] {
            let repeats = board_that_repeats(level);
            let no = met_in_entry(Refusal::REPEATED, u64::from(level), index);
            assert_eq!(directories(&repeats), Err(no), "{level}");
        }
        // A later lead, behind two that are good.
        let mut image = board_of_three_leads();
        image[LEVEL_TWO_AGAIN as usize + 4] ^= 1;
        let mut words = [7; 17];
        assert_eq!(kpalumere_directories(&image, &mut words), 4);
        assert_eq!(words[..4], [1, 2, 0, LEVEL_TWO_AGAIN]);
        assert_eq!(words[4..], [7; 13]);
        // Both leads are faulty: the first of them tells.
        image[LEVEL_TWO as usize] ^= 1;
        assert_eq!(kpalumere_directories(&image, &mut words), 2);
        assert_eq!(words[..4], [1, 2, 0, LEVEL_TWO]);
    }
}
