//! The flash image: its EFS and directory pointer, its directories of both levels, their entries, where their bytes lie, and the two lookups.

use crate::answer::{answer_of, lookup_of, Answer, PLACE_WORDS};
use crate::exported::exported;

exported! {
    fn kpalumere_efs(image: &[u8], words: &mut [u64]) -> u64;
    fn kpalumere_pointer(image: &[u8], words: &mut [u64]) -> u64;
    fn kpalumere_directory(image: &[u8], level: u32, words: &mut [u64]) -> u64;
    fn kpalumere_repeated(image: &[u8], level: u32, words: &mut [u64]) -> u64;
    fn kpalumere_entry(image: &[u8], level: u32, index: u64, words: &mut [u64]) -> u64;
    fn kpalumere_part(image: &[u8], level: u32, index: u64, words: &mut [u64]) -> u64;
    fn kpalumere_find(image: &[u8], level: u32, class: u8, subprogram: u8, words: &mut [u64]) -> u64;
    fn kpalumere_find_image(image: &[u8], class: u8, subprogram: u8, words: &mut [u64]) -> u64;
}

/// The EFS: where in the image it begins, and its two directory pointers as they stand.
#[derive(Clone, Copy, Debug, PartialEq, Eq)]
pub struct Efs {
    pub place: u64,
    /// The pointer at 0x10.
    pub early: u64,
    /// The pointer at 0x14.
    pub late: u64,
}

/// The directory pointer that is used.
#[derive(Clone, Copy, Debug, PartialEq, Eq)]
pub struct Pointer {
    /// The offset of its field in the EFS: 0x14, or 0x10 where the pointer there is absent.
    pub field: u64,
    /// Its value as it stands: a physical address or a flash offset.
    pub value: u64,
    /// Where in the image it leads, which is where level one begins.
    pub place: u64,
}

/// A checked directory: where in the image it begins, its level, and how many entries it has.
#[derive(Clone, Copy, Debug, PartialEq, Eq)]
pub struct Directory {
    pub place: u64,
    pub level: u64,
    pub total: u64,
}

/// Two entries of one directory with the same type and subprogram, for which it is refused.
#[derive(Clone, Copy, Debug, PartialEq, Eq)]
pub struct Repeat {
    /// The index of the first entry that repeats an earlier one.
    pub index: u64,
    /// The index of the first entry that it repeats.
    pub earlier: u64,
    /// The type of both.
    pub class: u64,
    pub subprogram: u64,
}

/// An entry of a directory.
#[derive(Clone, Copy, Debug, PartialEq, Eq)]
pub struct Entry {
    /// Its type, a word that Rust keeps for itself.
    pub class: u64,
    pub subprogram: u64,
    pub size: u64,
    /// The low 62 bits of the entry's last eight bytes: where its bytes lie, or the value that it holds.
    pub location: u64,
    /// How the location is counted: 0 as a physical address, 1 from the image's start, 2 from the directory's.
    pub mode: u64,
}

impl Entry {
    /// The entry whose fields stand in these words.
    #[inline]
    pub(crate) fn of_words(words: &[u64; 5]) -> Entry {
        let [class, subprogram, size, location, mode] = *words;
        Entry {
            class,
            subprogram,
            size,
            location,
            mode,
        }
    }
}

/// A part of the lent image: where it begins, and its length.
#[derive(Clone, Copy, Debug, PartialEq, Eq)]
pub struct Part {
    pub place: u64,
    pub length: u64,
}

impl Part {
    /// The part that the first of these words tell. So many are lent for a refusal.
    #[inline]
    pub(crate) fn of_words(words: &[u64; PLACE_WORDS]) -> Part {
        let [place, length, _, _] = *words;
        Part { place, length }
    }
}

/// What a lookup in one directory found.
#[derive(Clone, Copy, Debug, PartialEq, Eq)]
pub struct Match {
    pub index: u64,
    /// How many entries were tested, the match with them.
    pub tested: u64,
}

/// What a lookup in a whole image found.
#[derive(Clone, Copy, Debug, PartialEq, Eq)]
pub struct ImageMatch {
    /// Where the directory of the match begins, and its level.
    pub place: u64,
    pub level: u64,
    pub index: u64,
    /// How many entries were tested in all directories that were entered, the match with them.
    pub tested: u64,
}

/// The EFS of an image.
#[inline]
pub fn efs(image: &[u8]) -> Answer<Efs> {
    answer_of(
        |words| kpalumere_efs(image, words),
        |&[place, early, late]| Efs { place, early, late },
    )
}

/// The directory pointer of an image, and where it leads.
#[inline]
pub fn pointer(image: &[u8]) -> Answer<Pointer> {
    answer_of(
        |words| kpalumere_pointer(image, words),
        |&[field, value, place]| Pointer {
            field,
            value,
            place,
        },
    )
}

/// The directory of a level.
#[inline]
pub fn directory(image: &[u8], level: u32) -> Answer<Directory> {
    answer_of(
        |words| kpalumere_directory(image, level, words),
        |&[place, level, total, _]| Directory {
            place,
            level,
            total,
        },
    )
}

/// The entries for which the directory of a level is refused with 18. A good directory has none, and that is an 8.
#[inline]
pub fn repeated(image: &[u8], level: u32) -> Answer<Repeat> {
    answer_of(
        |words| kpalumere_repeated(image, level, words),
        |&[index, earlier, class, subprogram]| Repeat {
            index,
            earlier,
            class,
            subprogram,
        },
    )
}

/// An entry of the directory of a level.
#[inline]
pub fn entry(image: &[u8], level: u32, index: usize) -> Answer<Entry> {
    answer_of(
        |words| kpalumere_entry(image, level, index as u64, words),
        Entry::of_words,
    )
}

/// Where the bytes of an entry of the directory of a level lie.
#[inline]
pub fn part(image: &[u8], level: u32, index: usize) -> Answer<Part> {
    answer_of(
        |words| kpalumere_part(image, level, index as u64, words),
        Part::of_words,
    )
}

/// The entry of a type and subprogram in the directory of a level. There is at most one: a directory that repeats a type and
/// subprogram is refused with 18.
#[inline]
pub fn find(image: &[u8], level: u32, class: u8, subprogram: u8) -> Answer<Match> {
    lookup_of(
        |words| kpalumere_find(image, level, class, subprogram, words),
        |&[index, tested, _, _]| Match { index, tested },
    )
}

/// The first entry of a type and subprogram in the whole image, as level one leads through it.
#[inline]
pub fn find_image(image: &[u8], class: u8, subprogram: u8) -> Answer<ImageMatch> {
    lookup_of(
        |words| kpalumere_find_image(image, class, subprogram, words),
        |&[place, level, index, tested]| ImageMatch {
            place,
            level,
            index,
            tested,
        },
    )
}

#[cfg(test)]
mod tests {
    use super::*;
    use crate::answer::{Place, Refusal};
    use crate::sample::{
        board, board_of, board_that_repeats, directory_bytes, entry_bytes, met_in_entry,
        met_in_header, EFS, LENGTH, LEVEL_ONE, LEVEL_TWO, WINDOW,
    };

    /// The sample board with other pointers in its EFS.
    fn board_with(early: u32, late: u32) -> Vec<u8> {
        let mut image = board();
        image[EFS + 0x10..EFS + 0x14].copy_from_slice(&early.to_le_bytes());
        image[EFS + 0x14..EFS + 0x18].copy_from_slice(&late.to_le_bytes());
        image
    }

    #[test]
    fn the_efs_has_its_place_and_both_pointers() {
        let expected = Efs {
            place: EFS as u64,
            early: 0x0123_4567,
            late: 0x89AB_CDEF,
        };
        let image = board_with(0x0123_4567, 0x89AB_CDEF);
        assert_eq!(efs(&image), Ok(expected));
        // The flash ends at 4 GiB: bytes taken from its start move the EFS, and one taken from its end moves it away.
        let first = Efs {
            place: 0,
            ..expected
        };
        assert_eq!(efs(&image[EFS..]), Ok(first));
        assert_eq!(efs(&image[EFS + 1..]), Err(Refusal::alone(2)));
        assert_eq!(efs(&image[..LENGTH - 1]), Err(Refusal::alone(2)));
        assert_eq!(efs(&[]), Err(Refusal::alone(15)));
        assert_eq!(efs(&vec![0; 16_777_217]), Err(Refusal::alone(15)));
    }

    #[test]
    fn the_late_pointer_is_used_unless_it_is_absent() {
        let leads = |field, value, place| {
            Ok(Pointer {
                field,
                value,
                place,
            })
        };
        let physical = WINDOW + 0x1000;
        assert_eq!(pointer(&board()), leads(0x14, LEVEL_ONE, LEVEL_ONE));
        let both = board_with(0x2000, physical);
        assert_eq!(pointer(&both), leads(0x14, 0xFFF8_1000, 0x1000));
        for absent in [0, 0xFFFF_FFFF] {
            let early = board_with(physical, absent);
            assert_eq!(pointer(&early), leads(0x10, 0xFFF8_1000, 0x1000));
        }
    }

    #[test]
    fn a_pointer_leads_from_the_first_byte_of_the_image_to_its_last() {
        let place = |late| pointer(&board_with(0, late)).map(|to| to.place as usize);
        assert_eq!(place(WINDOW), Ok(0));
        assert_eq!(place(1), Ok(1));
        assert_eq!(place(LENGTH as u32 - 1), Ok(LENGTH - 1));
        // 0xFFFFFFFF would be the last byte, but is an absent pointer.
        assert_eq!(place(0xFFFF_FFFE), Ok(LENGTH - 2));
    }

    #[test]
    fn a_pointer_is_refused_with_the_number_of_its_check() {
        let refused = |early, late| pointer(&board_with(early, late)).unwrap_err().number;
        assert_eq!(pointer(&[]), Err(Refusal::alone(15)));
        assert_eq!(pointer(&[0]), Err(Refusal::alone(2)));
        assert_eq!(refused(0, 0xFFFF_FFFF), 8);
        // Neither a flash offset nor physical, on both sides.
        assert_eq!(refused(0x1000, LENGTH as u32), 7);
        assert_eq!(refused(0x1000, WINDOW - 1), 7);
        // It would be one or the other in an image of 16 MiB.
        assert_eq!(refused(0x1000, 0x00FF_FFFF), 7);
        assert_eq!(refused(0x1000, 0xFF00_1000), 7);
    }

    #[test]
    fn both_levels_are_found() {
        let image = board();
        let one = Directory {
            place: LEVEL_ONE,
            level: 1,
            total: 3,
        };
        let two = Directory {
            place: LEVEL_TWO,
            level: 2,
            total: 2,
        };
        assert_eq!(directory(&image, 1), Ok(one));
        assert_eq!(directory(&image, 2), Ok(two));
        assert_eq!(directory(&image, 3), Err(Refusal::alone(9)));
        assert_eq!(directory(&[], 1), Err(Refusal::alone(15)));
    }

    #[test]
    fn a_directory_that_repeats_a_type_and_subprogram_is_refused() {
        let no = met_in_entry(18, 1, 3);
        let image = board_that_repeats(1);
        assert_eq!(directory(&image, 1), Err(no));
        // Level two is reached through level one.
        assert_eq!(directory(&image, 2), Err(no));
        assert_eq!(entry(&image, 1, 0), Err(no));
        assert_eq!(part(&image, 1, 0), Err(no));
        assert_eq!(find(&image, 1, 0x12, 0x34), Err(no));
        assert_eq!(find_image(&image, 0x12, 0x34), Err(no));
        let no = met_in_entry(18, 2, 2);
        let image = board_that_repeats(2);
        assert_eq!(directory(&image, 1), directory(&board(), 1));
        assert_eq!(directory(&image, 2), Err(no));
        // The walk meets the fault of level two only where it comes to it.
        assert_eq!(
            find_image(&image, 0x12, 0x34),
            find_image(&board(), 0x12, 0x34)
        );
        assert_eq!(find_image(&image, 0x01, 0), Err(no));
    }

    #[test]
    fn the_entries_that_repeat_are_named() {
        let image = board_that_repeats(1);
        let in_one = Repeat {
            index: 3,
            earlier: 0,
            class: 0x12,
            subprogram: 0x34,
        };
        assert_eq!(repeated(&image, 1), Ok(in_one));
        // Level two is not reached.
        assert_eq!(repeated(&image, 2), Err(met_in_entry(18, 1, 3)));
        let image = board_that_repeats(2);
        let in_two = Repeat {
            index: 2,
            earlier: 0,
            class: 0x01,
            subprogram: 0,
        };
        assert_eq!(repeated(&image, 1), Err(Refusal::alone(8)));
        assert_eq!(repeated(&image, 2), Ok(in_two));
        let mut words = [7; 5];
        assert_eq!(kpalumere_repeated(&image, 2, &mut words), 0);
        assert_eq!(words, [2, 0, 0x01, 0, 7]);
    }

    #[test]
    fn where_nothing_repeats_there_are_no_entries_to_name() {
        let mut words = [7; 4];
        for level in [1, 2] {
            assert_eq!(repeated(&board(), level), Err(Refusal::alone(8)));
            assert_eq!(kpalumere_repeated(&board(), level, &mut words), 8);
        }
        // Every other refusal is that of the directory.
        let mut damaged = board_that_repeats(1);
        damaged[LEVEL_ONE as usize + 4] ^= 1;
        assert_eq!(repeated(&damaged, 1), Err(met_in_header(4, 1)));
        assert_eq!(repeated(&board_that_repeats(1), 0), Err(Refusal::alone(9)));
        assert_eq!(repeated(&board_that_repeats(1), 3), Err(Refusal::alone(9)));
        assert_eq!(repeated(&[], 1), Err(Refusal::alone(15)));
        assert_eq!(repeated(&board_with(0, 0), 1), Err(Refusal::alone(8)));
        assert_eq!(words, [7; 4]);
    }

    #[test]
    fn an_entry_has_its_five_fields() {
        let expected = Entry {
            class: 0x12,
            subprogram: 0x34,
            size: 0x100,
            location: 0x3000,
            mode: 1,
        };
        assert_eq!(entry(&board(), 1, 0), Ok(expected));
        assert_eq!(entry(&board(), 1, 3), Err(Refusal::alone(8)));
    }

    #[test]
    fn an_index_is_not_cut_to_32_bits() {
        assert_eq!(entry(&board(), 1, 1 << 32), Err(Refusal::alone(8)));
        assert_eq!(part(&board(), 1, 1 << 32), Err(Refusal::alone(8)));
    }

    #[test]
    fn the_bytes_of_an_entry_lie_in_the_image() {
        let expected = Part {
            place: 0x3000,
            length: 0x100,
        };
        assert_eq!(part(&board(), 1, 0), Ok(expected));
        assert_eq!(part(&board(), 1, 2), Err(met_in_entry(16, 1, 2)));
        assert_eq!(part(&board(), 2, 1), Err(met_in_entry(17, 2, 1)));
    }

    #[test]
    fn a_lookup_tells_how_many_entries_it_tested() {
        let image = board();
        let second = Match {
            index: 1,
            tested: 2,
        };
        assert_eq!(find(&image, 2, 0x0B, 0), Ok(second));
        let absent = find(&image, 1, 0x0B, 0).unwrap_err();
        assert_eq!(absent.to_string(), "refused 8 tested=3");
        let below = ImageMatch {
            place: LEVEL_TWO,
            level: 2,
            index: 1,
            tested: 4,
        };
        assert_eq!(find_image(&image, 0x0B, 0), Ok(below));
        let absent = find_image(&image, 0x99, 0).unwrap_err();
        assert_eq!(absent.to_string(), "refused 8 tested=5");
    }

    #[test]
    fn without_room_for_the_words_the_answer_is_12_and_none_is_written() {
        let image = board();
        let mut words = [7; 5];
        assert_eq!(kpalumere_efs(&image, &mut words[..2]), 12);
        assert_eq!(kpalumere_pointer(&image, &mut words[..2]), 12);
        assert_eq!(kpalumere_directory(&image, 1, &mut words[..2]), 12);
        let repeats = board_that_repeats(1);
        assert_eq!(kpalumere_repeated(&repeats, 1, &mut words[..3]), 12);
        assert_eq!(kpalumere_entry(&image, 1, 0, &mut words[..4]), 12);
        assert_eq!(kpalumere_part(&image, 1, 0, &mut words[..1]), 12);
        assert_eq!(kpalumere_find(&image, 1, 0x40, 0, &mut words[..1]), 12);
        assert_eq!(kpalumere_find_image(&image, 0x40, 0, &mut words[..3]), 12);
        assert_eq!(words, [7; 5]);
        // An 8 of a lookup has a count to tell.
        assert_eq!(kpalumere_find(&image, 1, 0x99, 0, &mut []), 12);
        assert_eq!(kpalumere_find_image(&image, 0x99, 0, &mut []), 12);
    }

    #[test]
    fn words_past_the_values_are_kept() {
        let image = board();
        let mut words = [7; 6];
        assert_eq!(kpalumere_part(&image, 1, 0, &mut words), 0);
        assert_eq!(words, [0x3000, 0x100, 7, 7, 7, 7]);
        assert_eq!(kpalumere_find(&image, 1, 0x99, 0, &mut words), 8);
        assert_eq!(words, [3, 0x100, 7, 7, 7, 7]);
    }

    /// The directory of a level, an entry, a part and a lookup in it: each is refused like this.
    fn assert_refused(image: &[u8], level: u32, no: Refusal) {
        assert_eq!(directory(image, level), Err(no));
        assert_eq!(entry(image, level, 0), Err(no));
        assert_eq!(part(image, level, 0), Err(no));
        assert_eq!(find(image, level, 0x99, 0), Err(no));
    }

    /// The sample board with these bytes at a place.
    fn with(place: u64, bytes: &[u8]) -> Vec<u8> {
        let mut image = board();
        image[place as usize..][..bytes.len()].copy_from_slice(bytes);
        image
    }

    #[test]
    fn what_is_wrong_in_a_header_tells_its_level() {
        for (level, place) in [(1, LEVEL_ONE), (2, LEVEL_TWO)] {
            let refused = |at: u64, bytes: &[u8], number| {
                let image = with(place + at, bytes);
                let no = met_in_header(number, level);
                assert_refused(&image, level as u32, no);
                assert_eq!(repeated(&image, level as u32), Err(no));
                assert_eq!(find_image(&image, 0x99, 0), Err(no));
            };
            refused(0, b"$BHD", 2);
            refused(8, &513u32.to_le_bytes(), 3);
            refused(4, &[0; 4], 4);
            let cookie = if level == 1 { b"$PSP" } else { b"$PL2" };
            let mut reserved = directory_bytes(cookie, &[]);
            reserved[12] = 1;
            let sum = crate::checksum(&reserved[8..]).expect("any bytes have a checksum");
            reserved[4..8].copy_from_slice(&(sum as u32).to_le_bytes());
            refused(0, &reserved, 5);
        }
        // The header and the entries of a level one at the image's end.
        let near_end = |back: usize, bytes: &[u8]| {
            let place = LENGTH - back;
            let mut image = board_with(0, place as u32);
            image[place..].copy_from_slice(&bytes[..back]);
            image
        };
        let entry = entry_bytes(0x12, 0x34, 0x100, 0x3000, 1);
        let one = directory_bytes(b"$PSP", &[entry]);
        let short = |back: usize| {
            let place = Place {
                level: 1,
                index: None,
                directory: (LENGTH - back) as u64,
            };
            Refusal {
                place: Some(place),
                ..Refusal::alone(1)
            }
        };
        for back in [1, 15, 16, 31] {
            assert_refused(&near_end(back, &one), 1, short(back));
        }
        assert!(directory(&near_end(32, &one), 1).is_ok());
    }

    #[test]
    fn what_is_wrong_in_an_entry_tells_its_level_and_index() {
        let good = |class| entry_bytes(class, 0, 0, 0, 1);
        let lead = entry_bytes(0x40, 0, 0, LEVEL_TWO, 1);
        let with_flags = |at: usize| {
            let mut entry = good(0x33);
            entry[at] = 0x80;
            entry
        };
        for flags in [with_flags(2), with_flags(3)] {
            let one = vec![lead.clone(), good(1), flags.clone()];
            let image = board_of([one, vec![]]);
            assert_refused(&image, 1, met_in_entry(5, 1, 2));
            // What stands before level two is told of level one.
            assert_refused(&image, 2, met_in_entry(5, 1, 2));
            let image = board_of([vec![lead.clone()], vec![good(1), flags]]);
            assert_refused(&image, 2, met_in_entry(5, 2, 1));
        }
        let image = board_of([vec![lead.clone()], vec![lead.clone()]]);
        assert_refused(&image, 2, met_in_entry(14, 2, 0));
        let image = board_of([vec![lead], vec![good(1), good(2), good(2), good(1)]]);
        assert_refused(&image, 2, met_in_entry(18, 2, 2));
    }

    #[test]
    fn what_is_wrong_in_a_location_tells_its_entry() {
        let two = || vec![entry_bytes(0x01, 0, 0, 0, 1)];
        let led = |location, mode| {
            let one = vec![
                entry_bytes(0x01, 0, 0, LENGTH as u64 + 1, 1),
                entry_bytes(0x40, 0, 0, location, mode),
            ];
            board_of([one, two()])
        };
        // It is asked for where its bytes are, and where it leads to level two.
        let outside = led(LENGTH as u64 + 1, 1);
        assert_eq!(part(&outside, 1, 0), Err(met_in_entry(7, 1, 0)));
        assert_eq!(part(&outside, 1, 1), Err(met_in_entry(7, 1, 1)));
        assert!(directory(&outside, 1).is_ok());
        assert!(entry(&outside, 1, 1).is_ok());
        assert_refused(&outside, 2, met_in_entry(7, 1, 1));
        assert_eq!(repeated(&outside, 2), Err(met_in_entry(7, 1, 1)));
        assert_eq!(find_image(&outside, 0x99, 0), Err(met_in_entry(7, 1, 1)));
        assert_refused(&led(0, 3), 2, met_in_entry(16, 1, 1));
        // The image's end is no place beyond it: a directory is looked for there, and cut off.
        let place = Place {
            level: 2,
            index: None,
            directory: LENGTH as u64,
        };
        let short = Refusal {
            place: Some(place),
            ..Refusal::alone(1)
        };
        assert_refused(&led(LENGTH as u64, 1), 2, short);
    }

    #[test]
    fn what_is_met_in_no_directory_tells_no_place() {
        let image = board();
        for level in [0, 3] {
            assert_refused(&image, level, Refusal::alone(9));
        }
        assert_refused(&[0], 1, Refusal::alone(2));
        assert_refused(&board_with(0, LENGTH as u32), 1, Refusal::alone(7));
        let without_lead = board_of([vec![], vec![]]);
        assert_eq!(directory(&without_lead, 2), Err(Refusal::alone(8)));
        let untested = find(&without_lead, 2, 0x99, 0).unwrap_err();
        assert_eq!(untested.to_string(), "refused 8 tested=0");
        assert_eq!(entry(&image, 1, 3), Err(Refusal::alone(8)));
        assert_eq!(part(&image, 1, 3), Err(Refusal::alone(8)));
    }

    #[test]
    fn a_place_takes_four_words_and_without_them_the_answer_is_12() {
        let image = board_that_repeats(1);
        type Call = fn(&[u8], &mut [u64]) -> u64;
        let calls: [Call; 6] = [
            |image, words| kpalumere_directory(image, 1, words),
            |image, words| kpalumere_repeated(image, 2, words),
            |image, words| kpalumere_entry(image, 1, 0, words),
            |image, words| kpalumere_part(image, 1, 0, words),
            |image, words| kpalumere_find(image, 1, 0x99, 0, words),
            |image, words| kpalumere_find_image(image, 0x99, 0, words),
        ];
        let damaged = with(LEVEL_ONE + 4, &[0; 4]);
        for (at, call) in calls.into_iter().enumerate() {
            let mut words = [7; 6];
            for count in 0..PLACE_WORDS {
                assert_eq!(call(&image, &mut words[..count]), 12, "{at}, {count} words");
            }
            assert_eq!(words, [7; 6], "{at}");
            assert_eq!(call(&image, &mut words[..4]), 18, "{at}");
            assert_eq!(words, [2, 1, 3, LEVEL_ONE, 7, 7], "{at}");
            assert_eq!(call(&damaged, &mut words), 4, "{at}");
            assert_eq!(words, [1, 1, 0, LEVEL_ONE, 7, 7], "{at}");
            // What has no place to tell keeps the words, and asks for none.
            let mut words = [7; 6];
            assert_eq!(call(&[], &mut words), 15, "{at}");
            assert_eq!(call(&[], &mut []), 15, "{at}");
            assert_eq!(words, [7; 6], "{at}");
        }
    }
}
