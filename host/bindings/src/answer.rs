//! What a call of the library answers: what it gives, or a refusal.

use std::fmt;

/// What a call answers. A refusal is an answer as good as any other: the library met what was lent and told why
/// it is not accepted.
pub type Answer<T> = Result<T, Refusal>;

/// A refusal of the library.
#[derive(Clone, Copy, Debug, PartialEq, Eq)]
pub struct Refusal {
    /// The number that document 01 gives for it, never 0.
    pub number: u64,
    /// How many entries were tested: a lookup tells it with number 8, and no other refusal does.
    pub tested: Option<u64>,
    /// Where in a directory it was met, where it was met in one.
    pub place: Option<Place>,
}

/// Where in a directory a refusal was met: in its header, or in one of its entries.
#[derive(Clone, Copy, Debug, PartialEq, Eq)]
pub struct Place {
    /// The level of the directory; 0 where no cookie told it.
    pub level: u64,
    /// The index of the entry; none where it was met in the header.
    pub index: Option<u64>,
    /// Where in the image, or in the buffer, the directory begins.
    pub directory: u64,
}

/// The numbers of document 01, by the names that the library's crate `reply` has for them.
impl Refusal {
    /// Lent bytes too short.
    pub const SHORT: u64 = 1;
    /// Wrong signature, cookie or footer GUID, or no EFS.
    pub const SIGNATURE: u64 = 2;
    /// A length, total or count outside its limits.
    pub const LIMITS: u64 = 3;
    /// The checksum.
    pub const CHECKSUM: u64 = 4;
    /// Reserved bits set, or a field's value not allowed.
    pub const FIELD: u64 = 5;
    /// A structure or GUID entry of wrong type or length.
    pub const STRUCTURE: u64 = 6;
    /// An address or register outside the image or space.
    pub const OUTSIDE: u64 = 7;
    /// No such entry, pointer or outstanding post.
    pub const ABSENT: u64 = 8;
    /// A caller, command or level number out of range.
    pub const RANGE: u64 = 9;
    /// The caller already has a post outstanding.
    pub const OUTSTANDING: u64 = 10;
    /// The answer is not there yet.
    pub const EARLY: u64 = 11;
    /// The lent buffer has no room.
    pub const ROOM: u64 = 12;
    /// Bytes to be written over are not zero.
    pub const WRITTEN: u64 = 13;
    /// Type 0x40 in level two.
    pub const MISPLACED: u64 = 14;
    /// The flash image is empty or above the longest.
    pub const IMAGE: u64 = 15;
    /// Address mode 3.
    pub const MODE: u64 = 16;
    /// The entry holds a value.
    pub const VALUE: u64 = 17;
    /// An entry repeats an earlier type and subprogram.
    pub const REPEATED: u64 = 18;
}

impl Refusal {
    /// Whether it is the refusal of this number.
    #[inline]
    pub fn is(&self, number: u64) -> bool {
        self.number == number
    }

    /// A refusal that is its number alone.
    #[inline]
    pub fn alone(number: u64) -> Refusal {
        Refusal {
            number,
            tested: None,
            place: None,
        }
    }

    /// The refusal of a call that was lent these words, the first of them zero: with the place where it was met, if it left one there.
    #[inline]
    pub(crate) fn of_words(number: u64, words: &[u64]) -> Refusal {
        Refusal {
            place: Place::of_words(words),
            ..Refusal::alone(number)
        }
    }
}

/// The words that a refusal leaves which was met in a directory: 1 for its header or 2 for an entry, the level, the index, and where the
/// directory begins.
pub(crate) const PLACE_WORDS: usize = 4;
pub(crate) const MET_HEADER: u64 = 1;
pub(crate) const MET_ENTRY: u64 = 2;

impl Place {
    /// The place that words tell. A refusal that was met in no directory writes none of them, so that the first is neither.
    #[inline]
    fn of_words(words: &[u64]) -> Option<Place> {
        match *words {
            [MET_HEADER, level, _, directory, ..] => Some(Place {
                level,
                index: None,
                directory,
            }),
            [MET_ENTRY, level, index, directory, ..] => Some(Place {
                level,
                index: Some(index),
                directory,
            }),
            _ => None,
        }
    }
}

impl fmt::Display for Refusal {
    fn fmt(&self, out: &mut fmt::Formatter<'_>) -> fmt::Result {
        write!(out, "refused {}", self.number)?;
        if let Some(count) = self.tested {
            write!(out, " tested={count}")?;
        }
        match self.place {
            Some(place) => write!(out, " {place}"),
            None => Ok(()),
        }
    }
}

impl fmt::Display for Place {
    fn fmt(&self, out: &mut fmt::Formatter<'_>) -> fmt::Result {
        write!(out, "level={}", self.level)?;
        match self.index {
            Some(index) => write!(out, " index={index}"),
            None => Ok(()),
        }
    }
}

impl std::error::Error for Refusal {}

/// The answer of a call that has no values to give.
#[inline]
pub(crate) fn done_by(number: u64) -> Answer<()> {
    match number {
        0 => Ok(()),
        number => Err(Refusal::alone(number)),
    }
}

/// Makes a call with `ROOM` words lent for its values, and reads what it gives out of them. A call on a directory is lent four at least:
/// as many as a refusal takes to tell where it was met.
#[inline]
pub(crate) fn answer_of<T, const ROOM: usize>(
    call: impl FnOnce(&mut [u64; ROOM]) -> u64,
    given: impl FnOnce(&[u64; ROOM]) -> T,
) -> Answer<T> {
    let mut words = [0; ROOM];
    match call(&mut words) {
        0 => Ok(given(&words)),
        number => Err(Refusal::of_words(number, &words)),
    }
}

/// The same for a lookup, which with number 8 leaves the count of entries tested in the first word, and no place.
#[inline]
pub(crate) fn lookup_of<T, const ROOM: usize>(
    call: impl FnOnce(&mut [u64; ROOM]) -> u64,
    given: impl FnOnce(&[u64; ROOM]) -> T,
) -> Answer<T> {
    let mut words = [0; ROOM];
    match call(&mut words) {
        0 => Ok(given(&words)),
        Refusal::ABSENT => Err(Refusal {
            tested: Some(words[0]),
            ..Refusal::alone(Refusal::ABSENT)
        }),
        number => Err(Refusal::of_words(number, &words)),
    }
}

#[cfg(test)]
pub(crate) use tests::numbers_of_library;

#[cfg(test)]
mod tests {
    use super::*;
    use std::collections::BTreeMap;

    /// A call that writes its words and answers a number.
    fn call(number: u64) -> impl FnOnce(&mut [u64; 2]) -> u64 {
        writing(number, [5, 6])
    }

    fn writing<const ROOM: usize>(
        number: u64,
        values: [u64; ROOM],
    ) -> impl FnOnce(&mut [u64; ROOM]) -> u64 {
        move |words| {
            *words = values;
            number
        }
    }

    /// What a call and a lookup tell that answer a number and leave these words.
    fn told<const ROOM: usize>(number: u64, values: [u64; ROOM]) -> [Refusal; 2] {
        [
            answer_of(writing(number, values), |_| ()),
            lookup_of(writing(number, values), |_| ()),
        ]
        .map(|answer| answer.expect_err("the number is none of 0"))
    }

    /// The constants that a file declares in lines of their own: each one's name and the number in its value.
    fn constants_of(file: &str) -> BTreeMap<&str, u64> {
        let declared = file.lines().filter_map(|line| {
            let (name, rest) = line.trim().strip_prefix("pub const ")?.split_once(':')?;
            let (_, value) = rest.split_once('=')?;
            let digits: String = value.chars().filter(char::is_ascii_digit).collect();
            Some((name, digits.parse().ok()?))
        });
        declared.collect()
    }

    /// The refusals that the library has, by name: its enum has a line for each, as `Short = 1,`.
    pub(crate) fn numbers_of_library() -> BTreeMap<String, u64> {
        let declared = include_str!("../../../crates/reply/src/lib.rt")
            .lines()
            .filter_map(|line| {
                let (name, number) = line.trim().strip_suffix(',')?.split_once(" = ")?;
                Some((name.to_ascii_uppercase(), number.parse().ok()?))
            });
        declared.collect()
    }

    #[test]
    fn refusals_have_the_names_and_numbers_of_the_library() {
        let library = numbers_of_library();
        assert_eq!(library.get("SHORT"), Some(&1));
        let here = constants_of(include_str!("answer.rs"));
        let named = here
            .iter()
            .map(|(name, number)| ((*name).to_owned(), *number));
        assert_eq!(named.collect::<BTreeMap<_, _>>(), library);
    }

    #[test]
    fn zero_gives_the_words() {
        let given = |words: &[u64; 2]| words[0] * 10 + words[1];
        assert_eq!(answer_of(call(0), given), Ok(56));
        assert_eq!(lookup_of(call(0), given), Ok(56));
        assert_eq!(done_by(0), Ok(()));
    }

    #[test]
    fn any_other_number_is_a_refusal() {
        let refusals = [
            answer_of(call(8), |words| words[0]).unwrap_err(),
            lookup_of(call(4), |words| words[0]).unwrap_err(),
            done_by(12).unwrap_err(),
        ];
        let told = refusals.map(|refusal| refusal.to_string());
        assert_eq!(told, ["refused 8", "refused 4", "refused 12"]);
    }

    #[test]
    fn an_8_of_a_lookup_tells_how_many_were_tested() {
        let refusal = lookup_of(call(8), |words| words[0]).unwrap_err();
        assert_eq!((refusal.number, refusal.tested), (8, Some(5)));
        assert_eq!(refusal.to_string(), "refused 8 tested=5");
    }

    #[test]
    fn a_refusal_tells_where_in_a_directory_it_was_met() {
        for refusal in told(5, [2, 1, 3, 0x1000]) {
            let place = Place {
                level: 1,
                index: Some(3),
                directory: 0x1000,
            };
            assert_eq!((refusal.number, refusal.tested), (5, None));
            assert_eq!(refusal.place, Some(place));
            assert_eq!(refusal.to_string(), "refused 5 level=1 index=3");
        }
        for refusal in told(4, [1, 2, 0, 0x2000]) {
            let place = Place {
                level: 2,
                index: None,
                directory: 0x2000,
            };
            assert_eq!((refusal.number, refusal.tested), (4, None));
            assert_eq!(refusal.place, Some(place));
            assert_eq!(refusal.to_string(), "refused 4 level=2");
        }
        // The words behind have no part in it. No cookie told the level.
        for refusal in told(2, [1, 0, 0, 0, 9, 9]) {
            assert_eq!(refusal.to_string(), "refused 2 level=0");
        }
        for refusal in told(18, [2, 2, 0, 0, 9]) {
            assert_eq!(refusal.to_string(), "refused 18 level=2 index=0");
        }
    }

    #[test]
    fn a_refusal_that_leaves_no_place_has_none() {
        for first in [0, 3, 4, u64::MAX] {
            for refusal in told(9, [first, 1, 3, 0x1000]) {
                assert_eq!(refusal, Refusal::alone(9), "{first}");
            }
        }
        // Three words are too few to tell one, and the library does not.
        for refusal in told(12, [2, 1, 3]) {
            assert_eq!(refusal, Refusal::alone(12));
        }
        let untouched = answer_of(|_: &mut [u64; PLACE_WORDS]| 15, |_| ());
        assert_eq!(untouched, Err(Refusal::alone(15)));
    }

    #[test]
    fn a_count_is_not_taken_for_a_place() {
        for count in [1, 2] {
            let counted = Refusal {
                tested: Some(count),
                ..Refusal::alone(8)
            };
            let answer = lookup_of(writing(8, [count, 0, 0, 0]), |_| ());
            assert_eq!(answer, Err(counted));
        }
    }
}
