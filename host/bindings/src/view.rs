//! A view of a directory: a lent image and the place where a directory of it begins, checked again at each call.

use crate::answer::{answer_of, Answer};
use crate::exported::exported;
use crate::flash::{Entry, Part};

exported! {
    fn kpalumere_view(image: &[u8], level: u32, words: &mut [u64]) -> u64;
    fn kpalumere_view_entry(image: &[u8], place: usize, index: usize, words: &mut [u64]) -> u64;
    fn kpalumere_view_part(image: &[u8], place: usize, index: usize, words: &mut [u64]) -> u64;
}

/// The place that a view of the directory of a level holds.
#[inline]
pub fn view(image: &[u8], level: u32) -> Answer<u64> {
    answer_of(
        |words| kpalumere_view(image, level, words),
        |&[place, _, _, _]| place,
    )
}

/// An entry, from a view that holds the image and the place.
#[inline]
pub fn view_entry(image: &[u8], place: usize, index: usize) -> Answer<Entry> {
    answer_of(
        |words| kpalumere_view_entry(image, place, index, words),
        Entry::of_words,
    )
}

/// Where the bytes of an entry lie, from a view that holds the image and the place.
#[inline]
pub fn view_part(image: &[u8], place: usize, index: usize) -> Answer<Part> {
    answer_of(
        |words| kpalumere_view_part(image, place, index, words),
        Part::of_words,
    )
}

#[cfg(test)]
mod tests {
    use super::*;
    use crate::answer::{Place, Refusal};
    use crate::sample::{
        board, board_that_repeats, met_in_entry, met_in_header, LENGTH, LEVEL_ONE, LEVEL_TWO,
    };
    use crate::{entry, part};

    #[test]
    fn a_view_holds_the_directorys_place() {
        assert_eq!(view(&board(), 1), Ok(LEVEL_ONE));
        assert_eq!(view(&board(), 2), Ok(LEVEL_TWO));
        assert_eq!(view(&board(), 0), Err(Refusal::alone(9)));
    }

    #[test]
    fn a_view_gives_what_the_level_gives() {
        let image = board();
        for (level, place) in [(1, LEVEL_ONE as usize), (2, LEVEL_TWO as usize)] {
            for index in 0..4 {
                let seen = view_entry(&image, place, index);
                assert_eq!(seen, entry(&image, level, index), "{level} {index}");
                let seen = view_part(&image, place, index);
                assert_eq!(seen, part(&image, level, index), "{level} {index}");
            }
        }
    }

    #[test]
    fn a_view_of_a_directory_that_repeats_answers_18() {
        for (level, place, index) in [(1, LEVEL_ONE as usize, 3), (2, LEVEL_TWO as usize, 2)] {
            let image = board_that_repeats(level);
            let no = met_in_entry(18, u64::from(level), index);
            assert_eq!(view(&image, level), Err(no));
            assert_eq!(view_entry(&image, place, 0), Err(no));
            assert_eq!(view_part(&image, place, 0), Err(no));
        }
    }

    #[test]
    fn a_view_tells_the_level_that_the_cookie_names_and_0_where_none_does() {
        for (level, place) in [(1, LEVEL_ONE as usize), (2, LEVEL_TWO as usize)] {
            let mut image = board();
            image[place + 4] ^= 1;
            let no = met_in_header(4, level);
            assert_eq!(view_entry(&image, place, 0), Err(no));
            assert_eq!(view_part(&image, place, 0), Err(no));
        }
        let unknown = |number, directory: usize| {
            let place = Place {
                level: 0,
                index: None,
                directory: directory as u64,
            };
            Refusal {
                place: Some(place),
                ..Refusal::alone(number)
            }
        };
        // Sixteen bytes are a header, and hold no cookie; fifteen are none.
        for (number, place) in [
            (2, LEVEL_ONE as usize + 1),
            (2, LENGTH - 16),
            (1, LENGTH - 15),
            (1, LENGTH),
        ] {
            let no = unknown(number, place);
            assert_eq!(view_entry(&board(), place, 0), Err(no), "{place:#x}");
            assert_eq!(view_part(&board(), place, 0), Err(no), "{place:#x}");
        }
        let beyond = Err(Refusal::alone(7));
        assert_eq!(view_entry(&board(), LENGTH + 1, 0), beyond);
    }

    #[test]
    fn a_place_is_not_cut_to_32_bits() {
        let place = LEVEL_ONE as usize + (1 << 32);
        assert_eq!(view_entry(&board(), place, 0), Err(Refusal::alone(7)));
        assert_eq!(view_part(&board(), place, 0), Err(Refusal::alone(7)));
        assert_eq!(view_part(&board(), usize::MAX, 0), Err(Refusal::alone(7)));
    }

    #[test]
    fn a_view_of_no_bytes_answers_15() {
        assert_eq!(view_entry(&[], 0, 0), Err(Refusal::alone(15)));
        assert_eq!(view_part(&[], 0, 0), Err(Refusal::alone(15)));
    }

    #[test]
    fn without_room_for_the_words_the_answer_is_12_and_none_is_written() {
        let (image, place) = (board(), LEVEL_ONE as usize);
        let mut words = [7; 5];
        assert_eq!(kpalumere_view(&image, 1, &mut []), 12);
        assert_eq!(kpalumere_view_entry(&image, place, 0, &mut words[..4]), 12);
        assert_eq!(kpalumere_view_part(&image, place, 0, &mut words[..1]), 12);
        assert_eq!(words, [7; 5]);
    }

    #[test]
    fn a_place_takes_four_words_and_without_them_the_answer_is_12() {
        let image = board_that_repeats(1);
        type Call = fn(&[u8], usize, &mut [u64]) -> u64;
        let calls: [Call; 3] = [
            |image, _, words| kpalumere_view(image, 1, words),
            |image, place, words| kpalumere_view_entry(image, place, 0, words),
            |image, place, words| kpalumere_view_part(image, place, 0, words),
        ];
        let place = LEVEL_ONE as usize;
        for (at, call) in calls.into_iter().enumerate() {
            let mut words = [7; 6];
            for count in 0..4 {
                let number = call(&image, place, &mut words[..count]);
                assert_eq!(number, 12, "{at}, {count} words");
            }
            assert_eq!(call(&[], place, &mut words), 15, "{at}");
            assert_eq!(words, [7; 6], "{at}");
            assert_eq!(call(&image, place, &mut words[..4]), 18, "{at}");
            assert_eq!(words, [2, 1, 3, LEVEL_ONE, 7, 7], "{at}");
        }
    }
}
