//! A refusal: the number of document 01's table; from a lookup that found nothing, a count; of a directory, the place (request 05).

/// Where in a directory a refusal was met.
#[derive(Clone, Copy, Debug, PartialEq, Eq)]
pub struct Place {
    /// The directory's level; 0 where its cookie was to tell it and did not.
    pub level: u32,
    /// The index of the entry, or none for the header.
    pub index: Option<u64>,
    /// Where the directory begins in the lent bytes.
    pub directory: u64,
}

/// Why a call was refused.
#[derive(Clone, Copy, Debug, PartialEq, Eq)]
pub struct Refusal {
    /// The number in document 01's table.
    pub number: u8,
    /// How many entries were tested. An 8 from a lookup has it; no other refusal does.
    pub tested: Option<u64>,
    /// Where it was met, if that was in the header or in an entry of a directory.
    pub place: Option<Place>,
}

impl Refusal {
    /// A refusal that is its number alone.
    pub const fn of(number: u8) -> Refusal {
        Refusal {
            number,
            tested: None,
            place: None,
        }
    }

    /// The 8 of a lookup that tested so many entries.
    pub const fn not_found(tested: u64) -> Refusal {
        Refusal {
            number: 8,
            tested: Some(tested),
            place: None,
        }
    }

    /// This refusal, met in the header of the directory of that level that begins there.
    pub const fn in_header(self, level: u32, directory: u64) -> Refusal {
        let place = Place {
            level,
            index: None,
            directory,
        };
        Refusal {
            place: Some(place),
            ..self
        }
    }

    /// This refusal, met in entry `index` of the directory of that level that begins there.
    pub const fn in_entry(self, level: u32, index: u64, directory: u64) -> Refusal {
        let place = Place {
            level,
            index: Some(index),
            directory,
        };
        Refusal {
            place: Some(place),
            ..self
        }
    }

    /// A refusal met by a lookup before it tested an entry: an 8 says that the directory asked for
    /// is absent, and then carries 0.
    pub fn before_lookup(self) -> Refusal {
        match self.number {
            8 => Refusal::not_found(0),
            _ => self,
        }
    }
}

/// One check: goes on where it holds, else refuses with the number.
pub fn require(holds: bool, number: u8) -> Result<(), Refusal> {
    if holds {
        Ok(())
    } else {
        Err(Refusal::of(number))
    }
}

#[cfg(test)]
mod tests {
    use super::*;

    #[test]
    fn a_check_that_holds_goes_on_and_another_gives_its_number() {
        assert_eq!(require(true, 7), Ok(()));
        assert_eq!(
            require(false, 7),
            Err(Refusal {
                number: 7,
                tested: None,
                place: None
            })
        );
    }

    #[test]
    fn only_an_8_carries_a_count_into_a_lookup() {
        assert_eq!(Refusal::of(8).before_lookup(), Refusal::not_found(0));
        assert_eq!(Refusal::of(8).tested, None);
        for number in (1..=18).filter(|n| *n != 8) {
            assert_eq!(Refusal::of(number).before_lookup(), Refusal::of(number));
        }
    }

    #[test]
    fn a_place_changes_nothing_else_and_goes_through_a_lookup() {
        let place = |index| Place {
            level: 2,
            index,
            directory: 0x1000,
        };
        let header = Refusal::of(5).in_header(2, 0x1000);
        let entry = Refusal::of(5).in_entry(2, 7, 0x1000);
        for (met, index) in [(header, None), (entry, Some(7))] {
            assert_eq!((met.number, met.tested), (5, None));
            assert_eq!(met.place, Some(place(index)));
            assert_eq!(met.before_lookup(), met);
        }
        assert_eq!(Refusal::of(5).place, None);
        assert_eq!(Refusal::not_found(3).place, None);
    }
}
