//! The verdict on an image: one of five, and what it is based on.

use super::facts::{Facts, Found, BOOT_LOADER};
use super::met;
use crate::shown::page::Look;
use crate::shown::places::Refused;
use crate::system::ending::Ending;
use bindings::Refusal;

/// What an image is found to be.
#[derive(Clone, Copy, Debug, PartialEq, Eq, PartialOrd, Ord)]
pub enum Verdict {
    /// Every directory is accepted, and the boot loader has its bytes.
    Good,
    /// Every directory is accepted, and none has the boot loader.
    NoBootLoader,
    /// The boot loader is there, and where its bytes lie is refused.
    BootLoaderWithoutBytes,
    Refused,
    NotRead,
}

impl Verdict {
    pub const ALL: [Verdict; 5] = [
        Verdict::Good,
        Verdict::NoBootLoader,
        Verdict::BootLoaderWithoutBytes,
        Verdict::Refused,
        Verdict::NotRead,
    ];

    /// The verdict as people are told it.
    pub fn words(self) -> &'static str {
        match self {
            Verdict::Good => "good",
            Verdict::NoBootLoader => "no boot loader",
            Verdict::BootLoaderWithoutBytes => "boot loader without bytes",
            Verdict::Refused => "refused",
            Verdict::NotRead => "not read",
        }
    }

    /// The verdict as programs are told it: one word.
    pub fn for_programs(self) -> String {
        self.words().replace(' ', "-")
    }

    /// How it looks on a terminal with colour.
    pub fn look(self) -> Look {
        match self {
            Verdict::Good => Look::Good,
            _ => Look::Bad,
        }
    }

    /// How a run ends that has to do with this image alone.
    pub fn ending(self) -> Ending {
        match self {
            Verdict::Good => Ending::Done,
            Verdict::NoBootLoader => Ending::No,
            Verdict::BootLoaderWithoutBytes | Verdict::Refused => Ending::Refused,
            Verdict::NotRead => Ending::NotReadOrWritten,
        }
    }
}

/// A verdict with what it is based on.
#[derive(Clone, Debug, PartialEq, Eq)]
pub struct Judgement {
    pub verdict: Verdict,
    /// What the image, or the part of its boot loader, is refused by.
    pub refused: Option<Refused>,
    /// Where that was met, in words; of an image without a boot loader, where its type stands with another subprogram.
    pub met: Option<String>,
}

impl Judgement {
    /// The judgement of an image that was not read.
    pub const NOT_READ: Judgement = Judgement {
        verdict: Verdict::NotRead,
        refused: None,
        met: None,
    };

    /// The judgement that follows from what the library says.
    pub fn of(facts: &Facts) -> Judgement {
        if let Some(refused) = facts.fault {
            return Judgement::refused(facts, refused);
        }
        let asked = facts.asked(BOOT_LOADER);
        let refused = asked.and_then(|asked| asked.refused);
        match (asked.map(|asked| asked.answer), refused) {
            (Some(Ok(found)), _) => Judgement::of_boot_loader(&found),
            (_, Some(refused)) if !refused.refusal.is(Refusal::ABSENT) => {
                Judgement::refused(facts, refused)
            }
            _ => Judgement {
                verdict: Verdict::NoBootLoader,
                refused: None,
                met: met::boot_loader_type(facts),
            },
        }
    }

    fn refused(facts: &Facts, refused: Refused) -> Judgement {
        Judgement {
            verdict: Verdict::Refused,
            refused: Some(refused),
            met: Some(met::fault(facts, &refused)),
        }
    }

    fn of_boot_loader(Found { row, .. }: &Found) -> Judgement {
        match row.refused {
            None => Judgement {
                verdict: Verdict::Good,
                refused: None,
                met: None,
            },
            Some(refused) => Judgement {
                verdict: Verdict::BootLoaderWithoutBytes,
                refused: Some(refused),
                met: refused.place_words(),
            },
        }
    }

    /// The judgement on one line: the verdict, the number with its words, and in brackets where.
    pub fn words(&self) -> String {
        let told = self.refused.map(|refused| refused.told());
        let words = match (self.verdict, told) {
            (Verdict::Refused, Some(told)) => told,
            (verdict, Some(told)) => format!("{}, {told}", verdict.words()),
            (verdict, None) => String::from(verdict.words()),
        };
        match &self.met {
            Some(met) => format!("{words} ({met})"),
            None => words,
        }
    }

    /// The same for a cell of a table: the verdict, the number alone, and the entry or the header.
    pub fn brief(&self) -> String {
        let brief = self.refused.map(|refused| refused.brief());
        match (self.verdict, brief) {
            (Verdict::Refused, Some(brief)) => brief,
            (verdict, Some(brief)) => format!("{}, {brief}", verdict.words()),
            (verdict, None) => String::from(verdict.words()),
        }
    }
}

#[cfg(test)]
mod tests {
    use super::super::sample;
    use super::*;
    use crate::shown::refusals;
    use crate::system::folding::on_one_line;
    use bindings::{Place, Words};

    fn facts() -> Facts {
        let board = sample::board().expect("the sample can be made");
        Facts::of(&board, &mut Words::new())
    }

    fn no(number: u64) -> Refused {
        Refused::by(&[], Refusal::alone(number))
    }

    /// A refusal that was met in the directory of a level, in an entry or in its header.
    fn no_at(number: u64, level: u64, index: Option<u64>) -> Refused {
        let place = Place {
            level,
            index,
            directory: 0x2_1000,
        };
        let refusal = Refusal {
            place: Some(place),
            ..Refusal::alone(number)
        };
        Refused::by(&[], refusal)
    }

    /// The question for the boot loader is refused.
    fn refuse_boot_loader(facts: &mut Facts, refused: Refused) {
        facts.asked[0].answer = Err(refused.refusal);
        facts.asked[0].refused = Some(refused);
    }

    /// The verdict with all its words, and in a cell.
    fn judged(facts: &Facts) -> (Verdict, String, String) {
        let judgement = Judgement::of(facts);
        let words = on_one_line(&judgement.words());
        (judgement.verdict, words, judgement.brief())
    }

    fn told_as(verdict: Verdict, words: &str, brief: &str) -> (Verdict, String, String) {
        (verdict, String::from(words), String::from(brief))
    }

    #[test]
    fn a_good_image_is_good_and_nothing_more_is_said() {
        let good = told_as(Verdict::Good, "good", "good");
        assert_eq!(judged(&facts()), good);
    }

    #[test]
    fn where_the_boot_loader_is_not_its_type_is_looked_for() {
        let mut facts = facts();
        refuse_boot_loader(&mut facts, no(Refusal::ABSENT));
        facts.directories[1].entries[0].entry.class = 0x5B;
        let none = "no boot loader";
        assert_eq!(judged(&facts), told_as(Verdict::NoBootLoader, none, none));
        for (index, words) in [
            (3, "level 2 at index 3 with subprogram 0x01)"),
            (
                2,
                "level 2 at index 2 with subprogram 0x00, and in 1 more entry)",
            ),
            (
                1,
                "level 2 at index 1 with subprogram 0x00, and in 2 more entries)",
            ),
        ] {
            facts.directories[1].entries[index].entry.class = 0x01;
            let words = format!("no boot loader (type 0x01 stands in {words}");
            assert_eq!(judged(&facts), told_as(Verdict::NoBootLoader, &words, none));
        }
    }

    #[test]
    fn a_type_that_stands_in_one_of_several_is_told_with_the_place() {
        let mut facts = facts();
        refuse_boot_loader(&mut facts, no(Refusal::ABSENT));
        facts.directories[1].entries[0].entry.subprogram = 2;
        facts.directories[0].level = 2;
        let met = Judgement::of(&facts).met;
        assert_eq!(
            met.as_deref(),
            Some("type 0x01 stands in level 2 at 0x28000 at index 0 with subprogram 0x02")
        );
    }

    #[test]
    fn a_boot_loader_whose_part_is_refused_has_no_bytes() {
        let mut facts = facts();
        let mut found = facts.asked[0].answer.unwrap();
        found.row.refused = Some(no_at(Refusal::MODE, 2, Some(0)));
        facts.asked[0].answer = Ok(found);
        let expected = told_as(
            Verdict::BootLoaderWithoutBytes,
            "boot loader without bytes, refused 16: address mode 3 (entry 0 of level 2 at 0x21000)",
            "boot loader without bytes, refused 16, entry 0 of level 2",
        );
        assert_eq!(judged(&facts), expected);
    }

    #[test]
    fn a_refused_image_tells_the_number_and_where_it_was_met() {
        let mut facts = facts();
        let expect = |facts: &mut Facts, fault: Refused, met: &str, brief: &str| {
            facts.fault = Some(fault);
            let judgement = Judgement::of(facts);
            assert_eq!(judgement.verdict, Verdict::Refused);
            assert_eq!(judgement.refused, facts.fault);
            assert_eq!(judgement.met.as_deref(), Some(met));
            assert_eq!(judgement.brief(), brief);
        };
        expect(
            &mut facts,
            no_at(Refusal::FIELD, 1, Some(300)),
            "entry 300 of level 1 at 0x21000",
            "refused 5, entry 300 of level 1",
        );
        expect(
            &mut facts,
            no_at(Refusal::CHECKSUM, 2, None),
            "header of level 2 at 0x21000",
            "refused 4, header of level 2",
        );
        // The way to level one has no header and no entry.
        facts.pointer = Err(Refusal::alone(Refusal::ABSENT));
        expect(&mut facts, no(Refusal::ABSENT), "pointers", "refused 8");
        facts.efs = Err(Refusal::alone(Refusal::SIGNATURE));
        expect(&mut facts, no(Refusal::SIGNATURE), "EFS", "refused 2");
        facts.efs = Err(Refusal::alone(Refusal::IMAGE));
        expect(&mut facts, no(Refusal::IMAGE), "length", "refused 15");
        let words = on_one_line(&Judgement::of(&facts).words());
        assert_eq!(
            words,
            format!(
                "{} (length)",
                refusals::told(Refusal::alone(Refusal::IMAGE))
            )
        );
    }

    #[test]
    fn a_question_that_meets_a_fault_refuses_the_image() {
        let mut facts = facts();
        refuse_boot_loader(&mut facts, no_at(Refusal::OUTSIDE, 1, Some(3)));
        let judgement = Judgement::of(&facts);
        assert_eq!(judgement.verdict, Verdict::Refused);
        let met = "entry 3 of level 1 at 0x21000";
        assert_eq!(judgement.met.as_deref(), Some(met));
    }

    #[test]
    fn each_verdict_has_its_word_and_its_status_and_one_is_green() {
        let told = Verdict::ALL.map(|verdict| (verdict.for_programs(), verdict.ending().status()));
        let told: Vec<(&str, u8)> = told.iter().map(|(word, no)| (word.as_str(), *no)).collect();
        assert_eq!(
            told,
            [
                ("good", 0),
                ("no-boot-loader", 1),
                ("boot-loader-without-bytes", 5),
                ("refused", 5),
                ("not-read", 3),
            ]
        );
        let green = Verdict::ALL.map(|verdict| verdict.look() == Look::Good);
        assert_eq!(green, [true, false, false, false, false]);
    }
}
