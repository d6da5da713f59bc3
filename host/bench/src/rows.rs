//! What is measured: for each row the same work, done by the library, the second program and the plain reading in C.

use crate::programs::{list_by_entry, Library, Listed, MailboxCalls, Plain, Program, Second};
use crate::samples;
use bindings::{
    Answer, AsptTable, Directory, Entered, Entry, EntryRow, GuidMatch, ImageMatch, Match, Part,
};
use std::rc::Rc;

/// The work of a function with a program as its parameter, for the three of them.
macro_rules! three {
    ($work:ident $(, $given:expr)*) => {{
        [$work::<Library>($($given),*), $work::<Second>($($given),*), $work::<Plain>($($given),*)]
    }};
}

/// A piece of work that can be repeated. It gives a number that its answers were folded into, the same in all programs.
pub type Work = Box<dyn FnMut() -> u64>;

/// How many programs there are, and what they are called, in the order in which a row has them.
pub const PROGRAMS: [&str; 3] = [Library::NAME, Second::NAME, Plain::NAME];

/// A row of the table.
pub struct Row {
    /// The word that names it on the command line.
    pub name: &'static str,
    /// What is done, once.
    pub what: &'static str,
    /// What `n` counts, and the `n` of the table.
    pub counted: &'static str,
    pub n: usize,
    /// The `n` for which growth is shown; none where there is nothing to grow.
    pub growth: &'static [usize],
    /// An `n` with which the work is so short that an emulator can write down each instruction of it.
    pub short: usize,
    /// The work of the three programs for an `n`.
    pub work: fn(usize) -> [Work; 3],
}

const POWERS: &[usize] = &[8, 64, 512];

/// All rows, in the order of the table.
pub const ROWS: &[Row] = &[
    Row {
        name: "checksum",
        what: "checksum of a directory",
        counted: "entries",
        n: 512,
        growth: POWERS,
        short: 64,
        work: |n| {
            let bytes =
                Rc::new(samples::one_level(n)[samples::LEVEL_ONE + 8..][..8 + 16 * n].to_vec());
            three!(checksum, &bytes)
        },
    },
    Row {
        name: "directory",
        what: "directory check",
        counted: "entries",
        n: 512,
        growth: POWERS,
        short: 64,
        work: |n| {
            let given = Rc::new(samples::one_level(n));
            three!(directory, &given)
        },
    },
    Row {
        name: "refused",
        what: "directory refused for its last entry, told with its place",
        counted: "entries",
        n: 512,
        growth: POWERS,
        short: 64,
        work: |n| {
            let given = Rc::new(samples::one_level_faulty(n));
            three!(directory, &given)
        },
    },
    Row {
        name: "find",
        what: "lookup that misses",
        counted: "entries",
        n: 512,
        growth: POWERS,
        short: 64,
        work: |n| {
            let given = Rc::new(samples::one_level(n));
            three!(find, &given)
        },
    },
    Row {
        name: "find-image-once",
        what: "whole-image lookup that misses, level two entered once",
        counted: "entries in each level",
        n: 512,
        growth: POWERS,
        short: 64,
        work: |n| {
            let given = Rc::new(samples::entered_once(n));
            three!(find_image, &given)
        },
    },
    Row {
        name: "find-image-each",
        what: "whole-image lookup that misses, level two of 512 entered n times",
        counted: "times entered",
        n: samples::MOST_LEADS,
        growth: &[4, 32, samples::MOST_LEADS],
        short: 8,
        work: |n| {
            let given = Rc::new(samples::entered_each(n));
            three!(find_image, &given)
        },
    },
    Row {
        name: "all-entries",
        what: "all entries of a directory",
        counted: "entries",
        n: 512,
        growth: POWERS,
        short: 64,
        work: |n| {
            let given = Rc::new(samples::one_level(n));
            three!(all_entries, &given)
        },
    },
    Row {
        name: "all-directories",
        what: "all directories of an image, level two entered once",
        counted: "entries in each level",
        n: 512,
        growth: POWERS,
        short: 64,
        work: |n| {
            let given = Rc::new(samples::entered_once(n));
            three!(all_directories, &given)
        },
    },
    Row {
        name: "register",
        what: "register run: all directories, of each all entries, and lookups",
        counted: "images of 16 MiB",
        n: 64,
        growth: &[1, 8, 64],
        short: 1,
        work: |n| {
            let given = boards();
            three!(register_at_once, &given, n)
        },
    },
    Row {
        name: "register-by-entry",
        what: "register run, entry by entry, each call checking its directory again",
        counted: "images of 16 MiB",
        n: 64,
        growth: &[1, 8, 64],
        short: 1,
        work: |n| {
            let given = boards();
            three!(register_by_entry, &given, n)
        },
    },
    Row {
        name: "aspt-read",
        what: "ASPT read",
        counted: "tables",
        n: 1,
        growth: &[],
        short: 1,
        work: |_| {
            let mut bytes = vec![0; 112];
            Plain::aspt_write(&mut bytes, &(&samples::aspt()).into()).expect("the table is good");
            let given = Rc::new(bytes);
            three!(aspt_read, &given)
        },
    },
    Row {
        name: "aspt-write",
        what: "ASPT write",
        counted: "tables",
        n: 1,
        growth: &[],
        short: 1,
        work: |_| three!(aspt_write),
    },
    Row {
        name: "guid-find",
        what: "GUID table, lookup of the last entry",
        counted: "entries",
        n: 100,
        growth: POWERS,
        short: 64,
        work: |n| {
            let given = Rc::new(samples::guest(n));
            three!(guid_find, &given, n)
        },
    },
    Row {
        name: "extend",
        what: "a directory started and extended entry by entry",
        counted: "entries",
        n: 512,
        growth: POWERS,
        short: 64,
        work: |n| three!(extend, n),
    },
    Row {
        name: "mailbox",
        what: "mailbox round: post, load, turn, unload, take",
        counted: "callers at once",
        n: 1,
        growth: &[1, 8],
        short: 1,
        work: |n| three!(mailbox_round, n as u32),
    },
];

/// The row of a name.
pub fn row_named(name: &str) -> Option<&'static Row> {
    ROWS.iter().find(|row| row.name == name)
}

fn checksum<P: Program>(bytes: &Rc<Vec<u8>>) -> Work {
    let bytes = Rc::clone(bytes);
    Box::new(move || P::checksum(&bytes))
}

fn directory<P: Program>(image: &Rc<Vec<u8>>) -> Work {
    let image = Rc::clone(image);
    Box::new(move || folded(&P::directory(&image, 1)))
}

fn find<P: Program>(image: &Rc<Vec<u8>>) -> Work {
    let image = Rc::clone(image);
    Box::new(move || folded(&P::find(&image, 1, samples::MISSING, 0)))
}

fn find_image<P: Program>(image: &Rc<Vec<u8>>) -> Work {
    let image = Rc::clone(image);
    Box::new(move || folded(&P::find_image(&image, samples::MISSING, 0)))
}

fn all_entries<P: Program + 'static>(image: &Rc<Vec<u8>>) -> Work {
    let (image, mut room) = (Rc::clone(image), P::Room::default());
    let place = samples::LEVEL_ONE;
    // All is folded once, here: to fold it at each call would cost as much as the call. What is left is a look at each row.
    let mut all = 0;
    let told = P::view_entries(&image, place, &mut room, |row| row.fold_into(&mut all));
    add(&mut all, folded(&told));
    Box::new(move || {
        let mut lengths = 0;
        let told = P::view_entries(&image, place, &mut room, |row| {
            lengths += row.part.map_or(1, |part| part.length);
        });
        all ^ lengths ^ folded(&told)
    })
}

fn all_directories<P: Program + 'static>(image: &Rc<Vec<u8>>) -> Work {
    let (image, mut room) = (Rc::clone(image), P::Room::default());
    Box::new(move || {
        let mut sum = 0;
        let told = P::directories(&image, &mut room, |entered| entered.fold_into(&mut sum));
        sum ^ folded(&told)
    })
}

/// How many images a register run has in memory. It reads them in turn, since 64 of them would take 1 GiB.
const BOARDS: usize = 4;

fn boards() -> Rc<Vec<Vec<u8>>> {
    Rc::new((0..BOARDS).map(samples::board).collect())
}

/// What the register asks of each image: all directories and their entries, where the bytes of each lie, a lookup in either level, and
/// one in the whole image.
fn register_at_once<P: Program + 'static>(boards: &Rc<Vec<Vec<u8>>>, images: usize) -> Work {
    let mut room = P::Room::default();
    register::<P>(boards, images, move |image, sum| {
        let listed = P::list(image, &mut room, |listed| match listed {
            Listed::Directory(entered) => entered.fold_into(sum),
            Listed::Entry(row) => row.fold_into(sum),
        });
        add(sum, folded(&listed));
    })
}

/// The same by the calls on single entries.
fn register_by_entry<P: Program>(boards: &Rc<Vec<Vec<u8>>>, images: usize) -> Work {
    register::<P>(boards, images, |image, sum| {
        for level in [1, 2] {
            let listed = list_by_entry::<P>(image, level, |row| row.fold_into(sum));
            add(sum, folded(&listed));
        }
    })
}

/// A list of each image, and lookups in it.
fn register<P: Program>(
    boards: &Rc<Vec<Vec<u8>>>,
    images: usize,
    mut list: impl FnMut(&[u8], &mut u64) + 'static,
) -> Work {
    let boards = Rc::clone(boards);
    Box::new(move || {
        let mut sum = 0;
        for image in boards.iter().cycle().take(images) {
            list(image, &mut sum);
            for level in [1, 2] {
                let found = P::find(image, level, samples::MISSING, 0);
                add(&mut sum, folded(&found));
            }
            add(&mut sum, folded(&P::find_image(image, samples::MISSING, 0)));
        }
        sum
    })
}

fn aspt_read<P: Program>(bytes: &Rc<Vec<u8>>) -> Work {
    let bytes = Rc::clone(bytes);
    // What is read is folded once, here: to fold it at each call would cost as much as the reading.
    let table = folded(&P::aspt_read(&bytes).map(|table| P::told(&table)));
    Box::new(move || table ^ u64::from(P::aspt_read(&bytes).is_ok()))
}

fn aspt_write<P: Program + 'static>() -> Work {
    let table = P::Table::from(&samples::aspt());
    let mut buffer = vec![0; 112];
    Box::new(move || {
        let written = P::aspt_write(&mut buffer, &table);
        // The checksum, which the whole table has a part in.
        folded(&written.map(|()| u64::from(buffer[9])))
    })
}

fn guid_find<P: Program>(image: &Rc<Vec<u8>>, entries: usize) -> Work {
    let image = Rc::clone(image);
    // Added last, so farthest from the footer.
    let last = samples::guid(entries - 1);
    Box::new(move || folded(&P::guid_find(&image, &last)))
}

fn extend<P: Program>(entries: usize) -> Work {
    let given = samples::mixed_entries(entries, 0);
    let mut buffer = vec![0; 16 + 16 * entries];
    Box::new(move || {
        let mut sum = folded(&P::start(&mut buffer, 1));
        for entry in &given {
            add(&mut sum, folded(&P::extend(&mut buffer, entry)));
        }
        // The checksum, which every byte behind it has a part in.
        for byte in &buffer[4..8] {
            add(&mut sum, u64::from(*byte));
        }
        sum
    })
}

/// The command words that the rounds go through: all commands, and each way in which delivery may be refused or set.
pub(crate) const COMMANDS: [u32; 12] = [
    0x0081_0000,
    0x0085_0401,
    0x0080_0000,
    0x0081_0000,
    0x0082_1111,
    0x0085_0401,
    0x0084_0403,
    0x0083_2222,
    0x0085_0401,
    0x0085_0403,
    0x0086_0000,
    0x0085_0400,
];

fn mailbox_round<P: Program + 'static>(callers: u32) -> Work {
    let mut mailbox = P::Mailbox::fresh();
    let mut commands = COMMANDS.iter().cycle();
    Box::new(move || {
        let mut sum = 0;
        for caller in 0..callers {
            let word = *commands.next().expect("the commands go round");
            add(
                &mut sum,
                folded(&mailbox.post(caller, word >> 16, word as u16)),
            );
        }
        for _ in 0..callers {
            add(&mut sum, folded(&mailbox.load()));
            add(&mut sum, folded(&mailbox.turn()));
            add(&mut sum, folded(&mailbox.unload()));
        }
        for caller in 0..callers {
            add(&mut sum, folded(&mailbox.take(caller)));
        }
        sum
    })
}

// ---- folding answers into a number

/// Adds a number, so that the order of the numbers counts.
fn add(sum: &mut u64, number: u64) {
    *sum = (sum.rotate_left(7) ^ number)
        .wrapping_add(1)
        .wrapping_mul(0x9e37_79b9_7f4a_7c15);
}

/// An answer as one number.
fn folded<T: Fold>(answer: &Answer<T>) -> u64 {
    let mut sum = 0;
    match answer {
        Ok(value) => value.fold_into(&mut sum),
        Err(refused) => {
            add(&mut sum, refused.number);
            add(&mut sum, refused.tested.unwrap_or(u64::MAX));
            if let Some(place) = refused.place {
                add(&mut sum, place.level);
                add(&mut sum, place.index.unwrap_or(u64::MAX));
                add(&mut sum, place.directory);
            }
        }
    }
    sum
}

/// What can be folded into a number.
trait Fold {
    fn fold_into(&self, sum: &mut u64);
}

macro_rules! fold {
    ($form:ty: $($field:ident),*) => {
        impl Fold for $form {
            fn fold_into(&self, sum: &mut u64) {
                $(add(sum, self.$field);)*
            }
        }
    };
}

fold!(Directory: place, level, total);
fold!(Entry: class, subprogram, size, location, mode);
fold!(Part: place, length);
fold!(Match: index, tested);
fold!(ImageMatch: place, level, index, tested);
fold!(GuidMatch: place, length, tested);

impl Fold for EntryRow {
    fn fold_into(&self, sum: &mut u64) {
        self.entry.fold_into(sum);
        add(sum, folded(&self.part));
    }
}

impl Fold for Entered {
    fn fold_into(&self, sum: &mut u64) {
        self.directory.fold_into(sum);
        add(sum, self.lead);
    }
}

impl Fold for AsptTable {
    fn fold_into(&self, sum: &mut u64) {
        for byte in self.oem.iter().chain(&self.oem_table) {
            add(sum, u64::from(*byte));
        }
        for field in [
            self.oem_revision,
            self.creator,
            self.creator_revision,
            self.pages,
        ] {
            add(sum, u64::from(field));
        }
        add(sum, self.base);
        for structure in &self.structures {
            add(sum, u64::from(structure.kind));
            add(sum, u64::from(structure.id));
            for register in structure.registers {
                add(sum, u64::from(register));
            }
        }
    }
}

impl Fold for u64 {
    fn fold_into(&self, sum: &mut u64) {
        add(sum, *self);
    }
}

impl Fold for bool {
    fn fold_into(&self, sum: &mut u64) {
        add(sum, u64::from(*self));
    }
}

impl Fold for () {
    fn fold_into(&self, sum: &mut u64) {
        add(sum, 0);
    }
}

#[cfg(test)]
mod tests {
    use super::*;
    use bindings::{Place, Refusal};
    use std::collections::BTreeSet;

    #[test]
    fn the_order_and_the_kind_of_answers_count() {
        let of = |numbers: &[u64]| {
            let mut sum = 0;
            numbers.iter().for_each(|number| add(&mut sum, *number));
            sum
        };
        assert_ne!(of(&[1, 2]), of(&[2, 1]));
        assert_ne!(of(&[0]), of(&[0, 0]));
        let absent = Refusal::alone(Refusal::ABSENT);
        let counted = Refusal {
            tested: Some(0),
            ..absent
        };
        let alone = folded::<u64>(&Err(absent));
        assert_ne!(alone, folded::<u64>(&Err(counted)));
        assert_ne!(alone, folded(&Ok(Refusal::ABSENT)));
        // So does every part of a place.
        let places = [
            (1, None, 3),
            (2, None, 3),
            (1, Some(0), 3),
            (1, Some(1), 3),
            (1, Some(1), 4),
        ];
        let mut all = vec![alone];
        all.extend(places.map(|(level, index, directory)| {
            let place = Place {
                level,
                index,
                directory,
            };
            folded::<u64>(&Err(Refusal {
                place: Some(place),
                ..absent
            }))
        }));
        let different: BTreeSet<u64> = all.iter().copied().collect();
        assert_eq!(different.len(), all.len());
    }

    #[test]
    fn the_refused_directory_is_refused_for_its_last_entry_alone() {
        for entries in [8, 64, 512] {
            let place = Place {
                level: 1,
                index: Some(entries as u64 - 1),
                directory: samples::LEVEL_ONE as u64,
            };
            let no = Refusal {
                place: Some(place),
                ..Refusal::alone(Refusal::FIELD)
            };
            let image = samples::one_level_faulty(entries);
            assert_eq!(Library::directory(&image, 1), Err(no), "{entries}");
            assert_eq!(Second::directory(&image, 1), Err(no), "{entries}");
            assert_eq!(Plain::directory(&image, 1), Err(no), "{entries}");
        }
    }

    #[test]
    fn names_are_found_and_differ() {
        for row in ROWS {
            assert_eq!(row_named(row.name).map(|found| found.what), Some(row.what));
        }
        assert!(row_named("none").is_none());
    }
}
