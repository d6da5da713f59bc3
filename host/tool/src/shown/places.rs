//! Where a refusal was met, what stands there and what should. The library tells all of it, and is asked for each: here it is put into
//! words and laid out.

use crate::shown::digits::hexadecimal;
use crate::shown::forms;
use crate::shown::json::{Fields, Json};
use crate::shown::refusals;
use crate::shown::repeats;
use crate::system::folding::{kept, on_one_line};
use bindings::{wrong, Place, Refusal, Repeat, Wrong};

/// A refusal with all that the library tells of it.
#[derive(Clone, Copy, Debug, PartialEq, Eq)]
pub struct Refused {
    pub refusal: Refusal,
    /// The field that is wrong, where the refusal was met in a directory.
    pub wrong: Option<Wrong>,
    /// What should stand there besides, where there are two: of a directory that was named by its place, the cookie of the other level.
    or_else: Option<u64>,
    /// Both entries, where one repeats an earlier one in a directory that a call by level answers on.
    pub repeat: Option<Repeat>,
}

impl Refused {
    /// A refusal that was answered for an image.
    pub fn by(image: &[u8], refusal: Refusal) -> Refused {
        let wrong_in = |level: u64| {
            let place = refusal.place?;
            wrong(image, Place { level, ..place }).ok()
        };
        let level = refusal.place.map_or(0, |place| place.level);
        let other = match (level, refusal.number) {
            (0, Refusal::SIGNATURE) => wrong_in(2),
            _ => None,
        };
        Refused {
            refusal,
            wrong: wrong_in(level),
            or_else: other.map(|other| other.should),
            repeat: repeats::named(image, refusal),
        }
    }

    /// The number with its words.
    pub fn told(&self) -> String {
        refusals::told_kept(self.refusal)
    }

    /// Where it was met, what stands there and what should: `entry 300 of level 1 at 0x21000: its bytes 2 and 3, …`.
    pub fn found(&self) -> Option<String> {
        let place = kept(&self.place_words()?);
        Some(match self.sentence() {
            Some(sentence) => format!("{place}: {sentence}"),
            None => place,
        })
    }

    /// What to do next: what to know or to check before all else, and where more is told.
    pub fn hints(&self) -> Vec<String> {
        let first = match (self.refusal.number, self.refusal.place) {
            (Refusal::SIGNATURE | Refusal::OUTSIDE, _) => Some(OF_LENGTH),
            (Refusal::FIELD, Some(Place { index: None, .. })) => Some(OF_COREBOOT),
            _ => None,
        };
        let more = refusals::hint(self.refusal);
        first.map(String::from).into_iter().chain([more]).collect()
    }

    /// All of it as a command writes it that was asked one thing, with what it says of that at the end of the first line. Of a refusal that
    /// was met in no directory that line is all.
    pub fn text(&self, end: &str) -> String {
        let below = self.found().map_or(Vec::new(), |found| {
            std::iter::once(found).chain(self.hints()).collect()
        });
        let below: String = below.iter().map(|line| format!("  {line}\n")).collect();
        on_one_line(&format!("{}{end}\n{below}", self.told()))
    }

    /// Where it was met: `entry 300 of level 1 at 0x21000`, `header of level 2 at 0x28000`.
    pub fn place_words(&self) -> Option<String> {
        let place = self.refusal.place?;
        let directory = match place.level {
            0 => format!("the directory at {:#x}", place.directory),
            level => forms::directory(level, place.directory),
        };
        Some(part_of(place, &directory))
    }

    /// The same for a cell of a table, behind the number alone: `refused 5, entry 300 of level 1`.
    pub fn brief(&self) -> String {
        let number = refusals::number(self.refusal);
        match self.refusal.place {
            Some(place) => format!("{number}, {}", part_of(place, &forms::level(place.level))),
            None => number,
        }
    }

    /// What stands there and what should.
    pub fn sentence(&self) -> Option<String> {
        let place = self.refusal.place?;
        let wrong = self.wrong?;
        Some(match place.index {
            None => self.of_header(place, wrong),
            Some(_) => self.of_entry(wrong),
        })
    }

    fn of_header(&self, place: Place, wrong: Wrong) -> String {
        let Wrong {
            field,
            stands,
            should,
            ..
        } = wrong;
        let at = at(field);
        match wrong.number {
            Refusal::SHORT => {
                let whose = match field == place.directory {
                    true => "it takes",
                    false => "its entries take",
                };
                let bytes = kept(&forms::bytes(should));
                let from = kept(&format!("from {field:#x} on"));
                format!("{whose} {bytes} {from}, and the image has {stands} there")
            }
            Refusal::SIGNATURE => {
                let or_else = self.or_else.map(|other| format!(" or {}", cookie(other)));
                let due = cookie(should) + &or_else.unwrap_or_default();
                format!("its cookie {at} is {}, and {due} is due", cookie(stands))
            }
            Refusal::LIMITS => {
                let most = kept(&forms::entries(should));
                format!("its total {at} is {stands}, and at most {most} may stand in a directory")
            }
            Refusal::CHECKSUM => {
                let [stands, should] = [stands, should].map(|sum| digits(sum, wrong));
                format!("its checksum {at} is {stands}, and the bytes behind that sum to {should}")
            }
            _ => {
                let stands = digits(stands, wrong);
                format!("its last word, {at}, is {stands}, and must be {should}")
            }
        }
    }

    fn of_entry(&self, wrong: Wrong) -> String {
        let Wrong {
            field,
            stands,
            should,
            ..
        } = wrong;
        let at = at(field);
        match wrong.number {
            Refusal::FIELD => {
                let stands = digits(stands, wrong);
                format!("its bytes 2 and 3, {at}, hold {stands}, and must be {should}")
            }
            Refusal::MISPLACED => {
                let level = kept(&forms::level(should));
                let class = digits(stands, wrong);
                format!("its type {at} is {class}, which may stand in {level} alone")
            }
            Refusal::MODE => {
                let mode = kept(&format!("mode {stands}"));
                format!(
                    "its location {at} has {mode}, and the highest that is followed is {should}"
                )
            }
            Refusal::VALUE => {
                let class = digits(stands, wrong);
                format!("its type {at} is {class}, so that its location is a value")
            }
            Refusal::REPEATED => {
                let class = digits(stands, wrong);
                let earlier = kept(&format!("entry {should}"));
                match self.repeat.map(|repeat| repeat.subprogram) {
                    Some(subprogram) => format!(
                        "its type {at} is {class} and its subprogram {subprogram:#04x}, which \
                         {earlier} has already"
                    ),
                    None => format!(
                        "its type {at} is {class}, which {earlier} has already with the same \
                         subprogram"
                    ),
                }
            }
            _ => format!(
                "its location {at} is {stands:#x}, and its bytes do not lie in the image, which \
                 ends at {should:#x}"
            ),
        }
    }

    /// Where it was met, and the field that is wrong, for programs.
    pub fn fields(refused: Option<&Refused>) -> Fields {
        let place = refused.and_then(|refused| refused.refusal.place);
        vec![
            ("met", Json::or_null(place, met)),
            Refused::wrong_field(refused),
        ]
    }

    /// The field that is wrong alone.
    pub fn wrong_field(refused: Option<&Refused>) -> (&'static str, Json) {
        let wrong = refused.and_then(|refused| refused.wrong);
        ("wrong", Json::or_null(wrong, wrong_json))
    }
}

/// A dump that is longer or shorter than its flash part is the usual cause of a signature or a place that is not there, and nothing else
/// that is shown tells it.
const OF_LENGTH: &str =
    "Is the file as long as the flash part? Its last byte is taken for the one at \
                         0xffffffff, and all physical addresses go by that.";

/// Headers whose last word is not zero are common, and nothing in them need be damaged.
const OF_COREBOOT: &str =
    "This is how amdfwtool, coreboot's tool, writes a directory: its size and more \
                           stand in that word. Document 01 asks for zero there.";

/// The part of a directory that a place is: `entry 300 of level 1`.
fn part_of(place: Place, directory: &str) -> String {
    match place.index {
        Some(index) => forms::entry(index, directory),
        None => forms::header(directory),
    }
}

fn at(field: u64) -> String {
    kept(&format!("at {field:#x}"))
}

/// A number with as many digits as its field has.
fn digits(number: u64, wrong: Wrong) -> String {
    let width = 2 + 2 * wrong.bytes as usize;
    format!("{number:#0width$x}")
}

/// The four bytes of a cookie in their order, with the letters that they are, where they are letters.
fn cookie(number: u64) -> String {
    let bytes = (number as u32).to_le_bytes();
    let pairs = bytes.map(|byte| hexadecimal(&[byte])).join(" ");
    let letters = std::str::from_utf8(&bytes);
    match letters {
        Ok(letters) if bytes.iter().all(u8::is_ascii_graphic) => {
            kept(&format!("{letters} ({pairs})"))
        }
        _ => kept(&pairs),
    }
}

fn met(place: Place) -> Json {
    Json::Object(vec![
        ("level", Json::Number(place.level)),
        ("index", Json::or_null(place.index, Json::Number)),
        ("directory", Json::Number(place.directory)),
    ])
}

fn wrong_json(wrong: Wrong) -> Json {
    // A location has up to 62 bits.
    let text = |number: u64| Json::Text(format!("{number:#x}"));
    Json::Object(vec![
        ("field", Json::Number(wrong.field)),
        ("bytes", Json::Number(wrong.bytes)),
        ("stands", text(wrong.stands)),
        ("should", text(wrong.should)),
    ])
}

#[cfg(test)]
mod tests {
    use super::*;

    /// A refusal that was met in level 1 at 0x1000, with what the library would tell of it.
    fn refused(number: u64, index: Option<u64>, field: [u64; 4]) -> Refused {
        let [field, bytes, stands, should] = field;
        let place = Place {
            level: 1,
            index,
            directory: 0x1000,
        };
        Refused {
            refusal: Refusal {
                place: Some(place),
                ..Refusal::alone(number)
            },
            wrong: Some(Wrong {
                number,
                field,
                bytes,
                stands,
                should,
            }),
            or_else: None,
            repeat: None,
        }
    }

    /// Where it was met, what stands there and what should.
    fn found(refused: Refused) -> String {
        on_one_line(&refused.found().expect("it was met in a directory"))
    }

    #[test]
    fn what_is_wrong_in_a_header_is_told_by_its_field() {
        for (number, field, told) in [
            (
                1,
                [0x1000, 16, 1, 16],
                "it takes 16 bytes from 0x1000 on, and the image has 1 there",
            ),
            (
                1,
                [0x1010, 80, 64, 80],
                "its entries take 80 bytes from 0x1010 on, and the image has 64 there",
            ),
            (
                2,
                [0x1000, 4, 0x4448_4224, 0x5053_5024],
                "its cookie at 0x1000 is $BHD (24 42 48 44), and $PSP (24 50 53 50) is due",
            ),
            (
                2,
                [0x1000, 4, 0x5053_5000, 0x5053_5024],
                "its cookie at 0x1000 is 00 50 53 50, and $PSP (24 50 53 50) is due",
            ),
            (
                3,
                [0x1008, 4, 600, 512],
                "its total at 0x1008 is 600, and at most 512 entries may stand in a directory",
            ),
            (
                4,
                [0x1004, 4, 0x12, 0x89AB_CDEF],
                "its checksum at 0x1004 is 0x00000012, and the bytes behind that sum to 0x89abcdef",
            ),
            (
                5,
                [0x100C, 4, 0x410, 0],
                "its last word, at 0x100c, is 0x00000410, and must be 0",
            ),
        ] {
            let due = format!("header of level 1 at 0x1000: {told}");
            assert_eq!(found(refused(number, None, field)), due);
        }
    }

    #[test]
    fn what_is_wrong_in_an_entry_is_told_by_its_field() {
        for (number, field, told) in [
            (
                5,
                [0x22D2, 2, 1, 0],
                "its bytes 2 and 3, at 0x22d2, hold 0x0001, and must be 0",
            ),
            (
                7,
                [0x22D8, 8, 0x8_0001, 0x8_0000],
                "its location at 0x22d8 is 0x80001, and its bytes do not lie in the image, which \
                 ends at 0x80000",
            ),
            (
                14,
                [0x22D0, 1, 0x40, 1],
                "its type at 0x22d0 is 0x40, which may stand in level 1 alone",
            ),
            (
                16,
                [0x22D8, 8, 3, 2],
                "its location at 0x22d8 has mode 3, and the highest that is followed is 2",
            ),
            (
                17,
                [0x22D0, 1, 0x0B, 0x0B],
                "its type at 0x22d0 is 0x0b, so that its location is a value",
            ),
            (
                18,
                [0x22D0, 1, 8, 7],
                "its type at 0x22d0 is 0x08, which entry 7 has already with the same subprogram",
            ),
        ] {
            let due = format!("entry 300 of level 1 at 0x1000: {told}");
            assert_eq!(found(refused(number, Some(300), field)), due);
        }
    }

    #[test]
    fn the_subprogram_of_two_entries_is_told_where_the_library_names_both() {
        let mut repeats = refused(Refusal::REPEATED, Some(300), [0x22D0, 1, 8, 7]);
        repeats.repeat = Some(Repeat {
            index: 300,
            earlier: 7,
            class: 8,
            subprogram: 2,
        });
        let due = "entry 300 of level 1 at 0x1000: its type at 0x22d0 is 0x08 and its subprogram \
                   0x02, which entry 7 has already";
        assert_eq!(found(repeats), due);
    }

    #[test]
    fn where_no_cookie_told_the_level_both_are_due() {
        let field = [0x1000, 4, 0, 0x5053_5024];
        let mut neither = refused(Refusal::SIGNATURE, None, field);
        neither.or_else = Some(0x324C_5024);
        if let Some(place) = &mut neither.refusal.place {
            place.level = 0;
        }
        let due = "header of the directory at 0x1000: its cookie at 0x1000 is 00 00 00 00, and \
                   $PSP (24 50 53 50) or $PL2 (24 50 4c 32) is due";
        assert_eq!(found(neither), due);
    }

    #[test]
    fn only_a_header_is_told_to_be_coreboots() {
        let field = [0x100C, 4, 0x410, 0];
        let is_told = |refused: Refused| refused.text("").contains("amdfwtool, coreboot's tool");
        assert!(is_told(refused(Refusal::FIELD, None, field)));
        assert!(!is_told(refused(Refusal::FIELD, Some(0), field)));
        assert!(!is_told(refused(Refusal::CHECKSUM, None, field)));
    }

    #[test]
    fn a_refusal_that_was_met_in_no_directory_is_a_line() {
        for number in [Refusal::SIGNATURE, Refusal::OUTSIDE, Refusal::IMAGE] {
            let alone = Refused::by(&[], Refusal::alone(number));
            let told = refusals::told(alone.refusal);
            assert_eq!(alone.text("; so"), format!("{told}; so\n"));
            assert_eq!((alone.place_words(), alone.found()), (None, None));
            assert_eq!(alone.brief(), format!("refused {number}"));
            let fields = Json::Object(Refused::fields(Some(&alone)));
            assert_eq!(fields.to_string(), "{\"met\": null, \"wrong\": null}");
        }
    }

    #[test]
    fn a_text_says_what_is_wrong_where_and_what_to_do() {
        let bit = refused(Refusal::FIELD, Some(300), [0x22D2, 2, 1, 0]);
        assert_eq!(
            bit.text("; nothing is written"),
            "refused 5: reserved bits set, or a value that is not allowed; nothing is written\n  \
               entry 300 of level 1 at 0x1000: its bytes 2 and 3, at 0x22d2, hold 0x0001, and \
               must be 0\n  \
               `kpalumere explain 5` says what usually causes this, and what to look at.\n"
        );
        let fields = Json::Object(Refused::fields(Some(&bit)));
        assert_eq!(
            fields.to_string(),
            "{\"met\": {\"level\": 1, \"index\": 300, \"directory\": 4096}, \
              \"wrong\": {\"field\": 8914, \"bytes\": 2, \"stands\": \"0x1\", \"should\": \"0x0\"}}"
        );
    }
}
