//! What the library says of one image: the answers that a register shows, and no others.

use crate::shown::entry::EntryShown;
use crate::shown::places::Refused;
use bindings::{
    directories, directory, efs, find_image, pointer, view_entries, Answer, Directory, Efs,
    Entered, ImageMatch, Pointer, Words,
};

/// The entry types that every register is asked for, by the lookup in the whole image and with subprogram 0. The first is
/// the one without which no machine starts.
pub const ASKED: [u8; 5] = [BOOT_LOADER, RECOVERY, SECURE_OS, SMU_FIRMWARE, 0x12];

/// The types of the boot loader, of the recovery boot loader, of the secure OS and of the SMU firmware.
pub const BOOT_LOADER: u8 = 0x01;
pub const RECOVERY: u8 = 0x03;
pub const SECURE_OS: u8 = 0x02;
pub const SMU_FIRMWARE: u8 = 0x08;

/// The type of an entry of level one that leads to level two.
const LEAD: u64 = 0x40;

/// What the library says of one image.
pub struct Facts {
    /// How many bytes the image has.
    pub length: usize,
    pub efs: Answer<Efs>,
    pub pointer: Answer<Pointer>,
    /// The first fault that the walk through all directories meets, where it meets one.
    pub fault: Option<Refused>,
    /// All directories that the walk enters, in its order. Where it meets a fault, level one and the level two of the lowest
    /// lead, as far as they are reached: calls of their own answer on these.
    pub directories: Vec<Listed>,
    /// One for each of [`ASKED`].
    pub asked: Vec<Asked>,
}

/// A directory with its entries.
pub struct Listed {
    pub level: u32,
    /// The index of the entry of level one that leads there; none of level one itself.
    pub lead: Option<u64>,
    pub directory: Answer<Directory>,
    /// Why it is refused, where it is.
    pub refused: Option<Refused>,
    /// Every entry, in order; none where the directory is refused.
    pub entries: Vec<EntryShown>,
}

/// A question for firmware, and its answer.
pub struct Asked {
    pub class: u8,
    pub answer: Answer<Found>,
    /// Why it is refused, where it is.
    pub refused: Option<Refused>,
}

/// The entry that answers a question, and where it stands.
#[derive(Clone, Copy)]
pub struct Found {
    pub at: ImageMatch,
    pub row: EntryShown,
}

impl Facts {
    /// Asks the library all that a register shows of an image. The words are lent to the library for the entries of one
    /// directory after another.
    pub fn of(image: &[u8], words: &mut Words) -> Facts {
        let walked = directories(image);
        let fault = refused(image, &walked);
        let directories = match walked {
            Ok(entered) => entered
                .iter()
                .map(|entered| Listed::entered(image, entered, words))
                .collect(),
            Err(_) => listed_before_a_fault(image, words),
        };
        let asked = ASKED.iter();
        let asked = asked.map(|class| Asked::of(image, *class, &directories));
        Facts {
            length: image.len(),
            efs: efs(image),
            pointer: pointer(image),
            fault,
            asked: asked.collect(),
            directories,
        }
    }

    /// The directory of level one.
    pub fn level_one(&self) -> &Listed {
        &self.directories[0]
    }

    /// The question for a type that every register is asked for.
    pub fn asked(&self, class: u8) -> Option<&Asked> {
        self.asked.iter().find(|asked| asked.class == class)
    }

    /// The directory listed before this one that is the same: two entries may lead to one place.
    pub fn listed_before(&self, listed: &Listed) -> Option<&Listed> {
        let place = listed.directory.ok()?.place;
        let before = self.directories.iter();
        before
            .take_while(|other| !std::ptr::eq(*other, listed))
            .find(|other| other.is_at(place))
    }
}

/// What the library tells of a refusal.
fn refused<T>(image: &[u8], answer: &Answer<T>) -> Option<Refused> {
    let refusal = answer.as_ref().err();
    refusal.map(|refusal| Refused::by(image, *refusal))
}

/// Level one, and where that is good and leads anywhere, the level two of its lowest lead.
fn listed_before_a_fault(image: &[u8], words: &mut Words) -> Vec<Listed> {
    let one = Listed::of(image, 1, None, directory(image, 1), words);
    let lowest = lowest_lead(&one.entries);
    let two = lowest.map(|lead| Listed::of(image, 2, Some(lead), directory(image, 2), words));
    std::iter::once(one).chain(two).collect()
}

fn lowest_lead(entries: &[EntryShown]) -> Option<u64> {
    let mut indexed = (0..).zip(entries);
    indexed.find_map(|(index, row)| (row.entry.class == LEAD).then_some(index))
}

impl Listed {
    /// Whether it is a good directory that begins at a place.
    fn is_at(&self, place: u64) -> bool {
        self.directory.map_or(false, |found| found.place == place)
    }

    /// A directory that the walk has entered.
    fn entered(image: &[u8], entered: &Entered, words: &mut Words) -> Listed {
        let Entered { directory, lead } = *entered;
        let lead = (directory.level > 1).then_some(lead);
        Listed::of(image, directory.level as u32, lead, Ok(directory), words)
    }

    fn of(
        image: &[u8],
        level: u32,
        lead: Option<u64>,
        directory: Answer<Directory>,
        words: &mut Words,
    ) -> Listed {
        let rows = directory.and_then(|found| rows(image, found, words));
        Listed {
            level,
            lead,
            directory,
            refused: refused(image, &directory),
            entries: rows.unwrap_or_default(),
        }
    }
}

/// Every entry of a directory, which is checked once for all of them.
fn rows(image: &[u8], directory: Directory, words: &mut Words) -> Answer<Vec<EntryShown>> {
    let entries = view_entries(image, directory.place as usize, words)?;
    let rows = (0..).zip(entries.rows());
    let rows = rows.map(|(index, row)| EntryShown::of_row(image, directory, index, row));
    Ok(rows.collect())
}

impl Asked {
    fn of(image: &[u8], class: u8, listed: &[Listed]) -> Asked {
        let answer = find_image(image, class, 0).and_then(|at| {
            let row = found_row(image, listed, at)?;
            Ok(Found { at, row })
        });
        Asked {
            class,
            refused: refused(image, &answer),
            answer,
        }
    }
}

/// The entry that a lookup found: mostly one of the directories that are listed. Where a fault ends the walk, it may stand in one
/// that is not.
fn found_row(image: &[u8], listed: &[Listed], at: ImageMatch) -> Answer<EntryShown> {
    let index = at.index as usize;
    let is_there = |listed: &&Listed| listed.is_at(at.place);
    let listed = listed.iter().find(is_there);
    match listed.and_then(|listed| listed.entries.get(index)) {
        Some(row) => Ok(*row),
        None => EntryShown::of(image, at.place as usize, index),
    }
}

#[cfg(test)]
mod tests {
    use super::super::sample;
    use super::*;

    fn facts() -> Facts {
        let board = sample::board().expect("the sample can be made");
        Facts::of(&board, &mut Words::new())
    }

    #[test]
    fn every_directory_is_listed_with_its_entries_and_its_lead() {
        let facts = facts();
        let listed = facts.directories.iter();
        let listed: Vec<(u32, Option<u64>, usize)> = listed
            .map(|listed| (listed.level, listed.lead, listed.entries.len()))
            .collect();
        assert_eq!(listed, [(1, None, 5), (2, Some(3), 6)]);
        assert_eq!(facts.fault, None);
    }

    #[test]
    fn what_a_question_finds_is_the_entry_that_is_listed() {
        let facts = facts();
        for asked in &facts.asked[..4] {
            let found = asked.answer.expect("the sample has it");
            let listed = &facts.directories[found.at.level as usize - 1];
            let row = listed.entries[found.at.index as usize];
            assert_eq!(
                (found.row.entry, found.row.part, found.row.version),
                (row.entry, row.part, row.version)
            );
        }
    }

    #[test]
    fn what_a_question_finds_is_told_where_its_directory_is_not_listed() {
        let board = sample::board().unwrap();
        let at = find_image(&board, BOOT_LOADER, 0).unwrap();
        let row = found_row(&board, &[], at).unwrap();
        assert_eq!(row.version_words(), Some(String::from("00.08.01.74")));
    }

    #[test]
    fn with_a_fault_level_one_is_listed_and_level_two_where_it_is_reached() {
        let mut board = sample::board().unwrap();
        let [one, two] = [0x2_1000, 0x2_8000];
        let listed = |board: &[u8]| {
            let facts = Facts::of(board, &mut Words::new());
            let listed = facts.directories.into_iter();
            let listed = listed.map(|listed| listed.directory.err().map(|no| no.number));
            let listed: Vec<Option<u64>> = listed.collect();
            (facts.fault.map(|no| no.refusal.number), listed)
        };
        board[two + 16] ^= 0xFF;
        assert_eq!(listed(&board), (Some(4), vec![None, Some(4)]));
        board[one] = 0;
        assert_eq!(listed(&board), (Some(2), vec![Some(2)]));
        assert_eq!(listed(&[]), (Some(15), vec![Some(15)]));
    }

    #[test]
    fn a_directory_at_the_place_of_an_earlier_one_is_the_same() {
        let mut facts = facts();
        assert!(facts.listed_before(&facts.directories[1]).is_none());
        facts.directories[1].directory = facts.directories[0].directory;
        let before = facts.listed_before(&facts.directories[1]);
        assert_eq!(before.map(|listed| listed.level), Some(1));
        assert!(facts.listed_before(&facts.directories[0]).is_none());
    }
}
