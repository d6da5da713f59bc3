//! The plain reading in C beside the library and the second program, on random and on damaged inputs. A comparison of times is
//! worth something only where all three give the same answers.
//!
//! The inputs follow from a seed, which is printed; the variable KPALUMERE_SEED sets another. Where it is not set the seed is
//! always the same, since a test also holds which numbers it meets, and a rare one may be missed by a seed from the clock.

use agree::random::Random;
use bench::programs::{list_by_entry, Library, Listed, MailboxCalls, Plain, Program, Second};
use bench::samples;
use bench::samples::LEAD;
use bindings::{
    Answer, AsptStructure, AsptTable, CallerPlace, Directory, Entered, EntryRow, Guid, NewEntry,
    Place, Post, Refusal, Register,
};
use std::collections::BTreeSet;
use std::fmt::Debug;

/// A test's random numbers, the numbers of the refusals that it has met, and which of them in a header and which in an entry.
struct Trial {
    random: Random,
    seed: u64,
    met: BTreeSet<u64>,
    in_headers: BTreeSet<u64>,
    in_entries: BTreeSet<u64>,
}

impl Trial {
    /// Prints the seed, which cargo shows where the test fails.
    fn begin() -> Trial {
        let seed = match std::env::var("KPALUMERE_SEED") {
            Ok(word) => word.parse().expect("KPALUMERE_SEED is a number"),
            Err(_) => 1,
        };
        println!("seed {seed}; KPALUMERE_SEED={seed} tries the same inputs again");
        Trial {
            random: Random::from_seed(seed),
            seed,
            met: BTreeSet::new(),
            in_headers: BTreeSet::new(),
            in_entries: BTreeSet::new(),
        }
    }

    /// Holds what the library, the second program and the plain reading gave to be the same.
    fn equal<T: Debug + PartialEq>(&self, what: &str, [library, second, plain]: &[T; 3]) {
        let seed = self.seed;
        assert_eq!(plain, library, "C and library: {what}, seed {seed}");
        assert_eq!(second, library, "second and library: {what}, seed {seed}");
    }

    /// The same of answers, whose numbers are kept; 0 stands for an accepted call.
    fn same<T: Debug + PartialEq>(&mut self, what: &str, answers: [Answer<T>; 3]) {
        self.equal(what, &answers);
        let number = answers[0]
            .as_ref()
            .map_or_else(|refused| refused.number, |_| 0);
        self.met.insert(number);
        let place = answers[0].as_ref().err().and_then(|refused| refused.place);
        match place.map(|place| place.index) {
            Some(None) => self.in_headers.insert(number),
            Some(Some(_)) => self.in_entries.insert(number),
            None => false,
        };
    }

    /// Holds these numbers, and no other, to have been met.
    fn met_exactly(&self, numbers: &[u64]) {
        let expected: BTreeSet<u64> = numbers.iter().copied().collect();
        assert_eq!(self.met, expected, "the numbers met, seed {}", self.seed);
    }

    /// Holds these numbers, and no other, to have been met in headers, and these in entries.
    fn met_in(&self, headers: &[u64], entries: &[u64]) {
        for (met, numbers) in [(&self.in_headers, headers), (&self.in_entries, entries)] {
            let expected: BTreeSet<u64> = numbers.iter().copied().collect();
            assert_eq!(*met, expected, "the places met, seed {}", self.seed);
        }
    }

    fn once_in(&mut self, times: u64) -> bool {
        self.random.once_in(times)
    }

    fn below(&mut self, limit: usize) -> usize {
        self.random.below(limit as u64) as usize
    }

    fn one_of<T: Copy>(&mut self, values: &[T]) -> T {
        self.random.one_of(values)
    }

    /// Changes some bytes.
    fn damage(&mut self, bytes: &mut [u8]) {
        for _ in 0..1 + self.below(2) {
            if bytes.is_empty() {
                return;
            }
            let at = self.below(bytes.len());
            bytes[at] = match self.below(3) {
                0 => self.random.number() as u8,
                1 => bytes[at] ^ 1 << self.below(8),
                _ => self.one_of(&[0, 1, 0x40, 0xFF]),
            };
        }
    }
}

/// An associated function of the three programs, with the same arguments.
macro_rules! three {
    ($name:ident($($given:expr),*)) => {
        [Library::$name($($given),*), Second::$name($($given),*), Plain::$name($($given),*)]
    };
}

// ---- the checksum

#[test]
fn checksums_are_the_same() {
    let mut trial = Trial::begin();
    for _ in 0..400 {
        let length = trial.below(9000);
        let mut bytes = trial.random.bytes(length);
        if trial.once_in(8) {
            bytes.fill(trial.one_of(&[0, 0xFF]));
        }
        trial.equal("checksum", &three!(checksum(&bytes)));
    }
}

// ---- flash images

/// Where a directory of a random image begins.
const PLACES: [usize; 4] = [0, 0x100, 0x8001, 0x1_0000];

/// An entry whose location leads, now and then, to one of the directories or to the image's end.
fn random_entry(trial: &mut Trial, length: usize) -> NewEntry {
    let mode = trial.below(4) as u32;
    // The places of level two more often, so that a lead often leads to one.
    let near = [
        0,
        0x100,
        0x100,
        0x100,
        0x8001,
        0x8001,
        0x8001,
        0x1_0000,
        length.saturating_sub(1),
        length,
        length + 1,
        length / 2,
    ];
    let offset = trial.one_of(&near) as u64;
    let location = match mode {
        // What would lead there if every window were of 16 MiB.
        0 if trial.once_in(4) => samples::window_first(samples::LONGEST) + offset,
        0 => samples::window_first(length) + offset,
        _ => offset,
    };
    NewEntry {
        class: trial.one_of(&[0x40, 0x40, 0x0B, 1, 2, 3]),
        subprogram: trial.below(3) as u8,
        size: trial.one_of(&[0, 0, 1, 0x40, length as u32, u32::MAX]),
        location: match trial.below(12) {
            0 => trial.random.number() >> 2,
            1 => location ^ 1 << 32,
            _ => location,
        },
        mode,
    }
}

/// The entries of a directory. Of most directories no two have the same type and subprogram, of some one repeats, of some many do.
fn random_entries(trial: &mut Trial, length: usize, may_lead: bool) -> Vec<NewEntry> {
    let amount = match trial.below(20) {
        0 => trial.one_of(&[511, 512, 513]),
        // Among these a program may go over from one way to find repeats to another.
        1 | 2 => trial.below(100),
        _ => trial.below(6),
    };
    let many_repeat = trial.once_in(8);
    let mut seen = BTreeSet::new();
    let mut entries = Vec::new();
    while entries.len() < amount {
        let mut entry = random_entry(trial, length);
        if trial.below(100) < amount {
            // Small numbers alone would not give so many different ones.
            entry.class = trial.random.number() as u8;
            entry.subprogram = trial.random.number() as u8;
        }
        if !may_lead {
            entry.class &= 0x3F;
        }
        if seen.insert((entry.class, entry.subprogram)) || many_repeat {
            entries.push(entry);
        }
    }
    if amount > 1 && trial.once_in(8) {
        let later = 1 + trial.below(amount - 1);
        let earlier = trial.below(later);
        repeat(&mut entries, earlier, later);
    }
    entries
}

/// Gives a later entry the type and subprogram of an earlier one.
fn repeat(entries: &mut [NewEntry], earlier: usize, later: usize) {
    entries[later].class = entries[earlier].class;
    entries[later].subprogram = entries[earlier].subprogram;
}

/// Sets a reserved bit of an entry in a directory's bytes, whose checksum is made again.
fn set_reserved(directory: &mut [u8], index: usize) {
    directory[16 + 16 * index + 3] |= 0x80;
    samples::sum_again(directory);
}

/// An image of which much is good, or all.
fn random_image(trial: &mut Trial) -> Vec<u8> {
    let length = match trial.below(40) {
        0 => trial.one_of(&[0, 1, samples::LONGEST, samples::LONGEST + 1]),
        // Candidates just out of the window and just in it, and boards of 4 and 8 MiB.
        1 => trial.one_of(&samples::EFS_BEFORE_END) - trial.below(2),
        2 => trial.one_of(&[samples::LONGEST / 4, samples::LONGEST / 2]),
        3 => samples::SHORTEST - 1,
        _ => samples::SHORTEST + trial.below(2) * 0x400,
    };
    let window = samples::window_first(length);
    let mut image = vec![0; length];
    for (place, cookie) in PLACES.iter().zip([b"$PSP", b"$PL2", b"$PL2", b"$PSP"]) {
        let may_lead = cookie == b"$PSP" || trial.once_in(2);
        let entries = random_entries(trial, length, may_lead);
        let mut bytes = samples::directory_bytes(cookie, &entries);
        if !entries.is_empty() && trial.once_in(8) {
            set_reserved(&mut bytes, trial.below(entries.len()));
        }
        if trial.once_in(3) {
            let head = trial.one_of(&[16, 16, bytes.len()]);
            trial.damage(&mut bytes[..head]);
            if trial.once_in(2) {
                samples::sum_again(&mut bytes);
            }
        }
        put(&mut image, *place, &bytes);
    }
    // The last place and the first; in an image that has none, two that would do if its window were longer.
    let places = samples::efs_places(length);
    let last = *places.last().unwrap_or(&0);
    let first = *places.first().unwrap_or(&0x2_0000);
    for efs in [last, first] {
        let mut bytes = [0; 0x24];
        bytes[..4].copy_from_slice(&[0xAA, 0x55, 0xAA, 0x55]);
        for at in [0x10, 0x14] {
            let place = match trial.below(8) {
                0 => 0,
                1 => 0x100,
                2 => length.saturating_sub(trial.below(2)),
                _ => 0x1_0000,
            } as u64;
            let pointer = match trial.below(24) {
                0..=3 => u32::MAX.into(),
                4 | 5 => 0x0100_0000 + place,
                6 => samples::window_first(samples::LONGEST) + place,
                7 => window - 1,
                8..=15 => window + place,
                _ => place,
            };
            bytes[at..at + 4].copy_from_slice(&(pointer as u32).to_le_bytes());
        }
        if trial.once_in(8) {
            trial.damage(&mut bytes);
        }
        put(&mut image, efs, &bytes);
    }
    image
}

/// Writes what fits into the image.
fn put(image: &mut [u8], place: usize, bytes: &[u8]) {
    for (to, byte) in image.iter_mut().skip(place).zip(bytes) {
        *to = *byte;
    }
}

#[test]
fn flash_images_are_read_the_same() {
    let mut trial = Trial::begin();
    for _ in 0..1500 {
        let image = random_image(&mut trial);
        for level in [1, 2, trial.one_of(&[0, 1, 2, 3, u32::MAX])] {
            trial.same("directory", three!(directory(&image, level)));
            let index = trial.one_of(&[0, 0, 1, 2, 5, 511, 512, usize::MAX]);
            trial.same("entry", three!(entry(&image, level, index)));
            trial.same("part", three!(part(&image, level, index)));
            let (class, subprogram) = (trial.one_of(&[0x40, 0x0B, 1, 9]), trial.below(3) as u8);
            trial.same("find", three!(find(&image, level, class, subprogram)));
            trial.same("find_image", three!(find_image(&image, class, subprogram)));
        }
    }
    trial.met_exactly(&[0, 1, 2, 3, 4, 5, 7, 8, 9, 14, 15, 16, 17, 18]);
    trial.met_in(&[1, 2, 3, 4, 5], &[5, 7, 14, 16, 17, 18]);
}

/// The refusal that is met in an entry of the directory of a level.
fn met_in_entry(number: u64, level: u64, index: usize) -> Refusal {
    let directory = match level {
        1 => samples::LEVEL_ONE,
        _ => samples::LEVEL_TWO,
    };
    let place = Place {
        level,
        index: Some(index as u64),
        directory: directory as u64,
    };
    Refusal {
        place: Some(place),
        ..Refusal::alone(number)
    }
}

/// Holds the three programs to refuse level one of an image for an entry. A lookup in the image is refused for it as well.
#[track_caller]
fn all_refuse(image: &[u8], number: u64, index: usize) {
    let directories = three!(directory(image, 1)).map(|answer| answer.map(|found| found.total));
    let lookups = three!(find_image(image, samples::MISSING, 0))
        .map(|answer| answer.map(|found| found.tested));
    for answer in directories.into_iter().chain(lookups) {
        assert_eq!(answer, Err(met_in_entry(number, 1, index)));
    }
}

/// An image whose level one has these bytes.
fn image_of(level_one: &[u8]) -> Vec<u8> {
    let mut image = samples::image(samples::SHORTEST, &[], &[]);
    put(&mut image, samples::LEVEL_ONE, level_one);
    image
}

/// Totals on both sides of where a program may go over from one way to find repeats to another.
const AMOUNTS: [usize; 12] = [2, 3, 8, 31, 32, 33, 63, 64, 65, 256, 511, 512];

#[test]
fn a_repeated_entry_is_refused_in_directories_of_every_size() {
    for amount in AMOUNTS {
        let good = samples::mixed_entries(amount, 0);
        for answer in three!(directory(
            &image_of(&samples::directory_bytes(b"$PSP", &good)),
            1
        )) {
            assert_eq!(answer.map(|found| found.total), Ok(amount as u64));
        }
        let last = amount - 1;
        for (earlier, later) in [
            (0, 1),
            (0, last),
            (last - 1, last),
            (amount / 2 - 1, amount / 2),
        ] {
            let mut entries = good.clone();
            repeat(&mut entries, earlier, later);
            let bytes = samples::directory_bytes(b"$PSP", &entries);
            all_refuse(&image_of(&bytes), Refusal::REPEATED, later);
            // The entry that repeats counts, not the one that it repeats: 5 comes first up to there, and 18 before the 5 of a later
            // one.
            let near = [0, earlier, later - 1, later, later + 1, last];
            for faulty in near.into_iter().filter(|index| *index < amount) {
                let mut bytes = bytes.clone();
                set_reserved(&mut bytes, faulty);
                let (number, first) = if faulty <= later {
                    (Refusal::FIELD, faulty)
                } else {
                    (Refusal::REPEATED, later)
                };
                all_refuse(&image_of(&bytes), number, first);
            }
        }
    }
}

#[test]
fn a_repeat_is_of_type_and_subprogram_both() {
    let mut entries = samples::mixed_entries(3, 0);
    for (i, (class, subprogram)) in [(1, 2), (2, 1), (1, 1)].into_iter().enumerate() {
        (entries[i].class, entries[i].subprogram) = (class, subprogram);
    }
    for amount in [3, 512] {
        let mut all = samples::mixed_entries(amount, 0);
        // Types that the mix does not have.
        for (to, from) in all.iter_mut().zip(&entries) {
            (to.class, to.subprogram) = (0x80 + from.class, from.subprogram);
        }
        for answer in three!(directory(
            &image_of(&samples::directory_bytes(b"$PSP", &all)),
            1
        )) {
            assert_eq!(answer.map(|found| found.total), Ok(amount as u64));
        }
    }
}

#[test]
fn the_two_levels_may_share_a_type_and_subprogram() {
    let mut one = samples::mixed_entries(8, 0);
    one[7] = samples::lead();
    let two = samples::mixed_entries(8, 0);
    let image = samples::image(samples::SHORTEST, &one, &two);
    for answer in three!(directory(&image, 2)) {
        assert_eq!(answer.map(|found| found.total), Ok(8));
    }
    // The first match of the walk is that of level one.
    for answer in three!(find_image(&image, two[3].class, two[3].subprogram)) {
        let found = answer.expect("both levels have it");
        assert_eq!((found.level, found.index, found.tested), (1, 3, 4));
    }
}

#[test]
fn misplaced_entries_are_told_before_repeated_ones() {
    // In level two an entry that leads is misplaced where it stands, whether it repeats or not.
    for (pairs, number, index) in [
        ([LEAD, LEAD, 1, 2], Refusal::MISPLACED, 0),
        ([1, 2, 1, LEAD], Refusal::REPEATED, 2),
        ([1, 2, LEAD, 1], Refusal::MISPLACED, 2),
        ([1, 2, 3, 3], Refusal::REPEATED, 3),
    ] {
        let mut two = samples::mixed_entries(4, 1);
        for (entry, class) in two.iter_mut().zip(pairs) {
            (entry.class, entry.subprogram) = (class, 0);
        }
        let image = samples::image(samples::SHORTEST, &[samples::lead()], &two);
        for answer in three!(directory(&image, 2)) {
            let no = met_in_entry(number, 2, index);
            assert_eq!(answer, Err(no), "types {pairs:?}");
        }
    }
}

#[test]
fn extending_by_a_repeated_entry_is_refused_between_14_and_3() {
    /// The numbers of the three programs for an entry, where every byte must stay if it is refused.
    #[track_caller]
    fn extend_gives(buffer: &[u8], entry: &NewEntry, number: u64) {
        let mut buffers = [(); 3].map(|()| buffer.to_vec());
        let [library, second, plain] = &mut buffers;
        let answers = [
            Library::extend(library, entry),
            Second::extend(second, entry),
            Plain::extend(plain, entry),
        ];
        for (answer, after) in answers.into_iter().zip(&buffers) {
            assert_eq!(answer, Err(Refusal::alone(number)));
            assert!(after == buffer, "a refused extension changed the buffer");
        }
    }
    for amount in AMOUNTS {
        let entries = samples::mixed_entries(amount, 0);
        let mut buffer = samples::directory_bytes(b"$PL2", &entries);
        let new = NewEntry {
            class: samples::MISSING,
            ..entries[0]
        };
        let lead = samples::lead();
        // Neither has room, and 512 entries have no number left.
        let full = if amount == 512 {
            Refusal::LIMITS
        } else {
            Refusal::ROOM
        };
        extend_gives(&buffer, &new, full);
        for held in [entries[0], entries[amount / 2], entries[amount - 1]] {
            // Other fields have no part in a repeat.
            let held = NewEntry {
                size: 1,
                location: 2,
                mode: 3,
                ..held
            };
            extend_gives(&buffer, &held, Refusal::REPEATED);
            extend_gives(&buffer, &NewEntry { mode: 4, ..held }, Refusal::FIELD);
            let location = 1 << 62;
            extend_gives(&buffer, &NewEntry { location, ..held }, Refusal::FIELD);
        }
        extend_gives(&buffer, &lead, Refusal::MISPLACED);
        buffer.extend([0xEE; 16]);
        extend_gives(&buffer, &entries[amount / 2], Refusal::REPEATED);
        if amount < 512 {
            let extended = [
                Library::extend(&mut buffer.clone(), &new),
                Second::extend(&mut buffer.clone(), &new),
                Plain::extend(&mut buffer.clone(), &new),
            ];
            assert_eq!(extended, [Ok(amount as u64 + 1); 3]);
        }
    }
}

/// All entries of the directory at a place, with the directory.
fn entries_of<P: Program>(image: &[u8], place: usize) -> Answer<(Directory, Vec<EntryRow>)> {
    let mut rows = Vec::new();
    let mut room = P::Room::default();
    let told = P::view_entries(image, place, &mut room, |row| rows.push(row));
    told.map(|directory| (directory, rows))
}

/// All directories of an image.
fn directories_of<P: Program>(image: &[u8]) -> Answer<Vec<Entered>> {
    let mut all = Vec::new();
    let mut room = P::Room::default();
    let told = P::directories(image, &mut room, |entered| all.push(entered));
    told.map(|()| all)
}

/// The same with the entries of each behind it, as the program lists them by itself.
fn list_of<P: Program>(image: &[u8]) -> Answer<Vec<Listed>> {
    let mut all = Vec::new();
    let mut room = P::Room::default();
    let told = P::list(image, &mut room, |listed| all.push(listed));
    told.map(|()| all)
}

#[test]
fn all_entries_and_all_directories_are_told_the_same() {
    let mut trial = Trial::begin();
    let mut at_places = Trial::begin();
    for _ in 0..1500 {
        let image = random_image(&mut trial);
        let directories = [
            directories_of::<Library>(&image),
            directories_of::<Second>(&image),
            directories_of::<Plain>(&image),
        ];
        trial.same("all directories", directories);
        let lists = [
            list_of::<Library>(&image),
            list_of::<Second>(&image),
            list_of::<Plain>(&image),
        ];
        trial.same("all directories and their entries", lists);
        let beyond = image.len() + 1;
        let place = at_places.one_of(&[0, 0x100, 0x8001, 0x1_0000, image.len(), beyond]);
        let entries = [
            entries_of::<Library>(&image, place),
            entries_of::<Second>(&image, place),
            entries_of::<Plain>(&image, place),
        ];
        at_places.same("all entries", entries);
    }
    trial.met_exactly(&[0, 1, 2, 3, 4, 5, 7, 8, 14, 15, 16, 18]);
    trial.met_in(&[1, 2, 3, 4, 5], &[5, 7, 14, 16, 18]);
    at_places.met_exactly(&[0, 1, 2, 3, 4, 5, 7, 14, 15, 18]);
    at_places.met_in(&[1, 2, 3, 4, 5], &[5, 14, 18]);
}

#[test]
fn what_is_told_at_once_is_what_the_single_calls_tell() {
    /// Holds a program's ways to each other, and gives the number of entries that they tell.
    fn held<P: Program>(image: &[u8]) -> usize {
        let mut told = 0;
        for level in [1, 2] {
            let mut rows = Vec::new();
            let by_entry = list_by_entry::<P>(image, level, |row| rows.push(row));
            if let Ok(directory) = by_entry {
                told += rows.len();
                let at_once = entries_of::<P>(image, directory.place as usize);
                assert_eq!(at_once, Ok((directory, rows)), "{} level {level}", P::NAME);
            }
        }
        if let Ok(directories) = directories_of::<P>(image) {
            let listed = directories.into_iter().flat_map(|entered| {
                let entries = entries_of::<P>(image, entered.directory.place as usize);
                let (_, rows) = entries.expect("a directory of the walk is good");
                let rows = rows.into_iter().map(Listed::Entry);
                std::iter::once(Listed::Directory(entered)).chain(rows)
            });
            assert_eq!(list_of::<P>(image), Ok(listed.collect()), "{}", P::NAME);
        }
        told
    }
    let mut trial = Trial::begin();
    let mut entries = 0;
    for _ in 0..200 {
        let image = random_image(&mut trial);
        entries += held::<Library>(&image) + held::<Second>(&image) + held::<Plain>(&image);
    }
    assert!(entries > 0, "no image had an entry, seed {}", trial.seed);
}

#[test]
fn directories_are_written_the_same() {
    let mut trial = Trial::begin();
    for _ in 0..1500 {
        let room = trial.one_of(&[0, 15, 16, 17, 47, 48, 64, 100, 16 + 512 * 16, 9000]);
        let mut buffers = [(); 3].map(|()| vec![0xEE; room]);
        let level = trial.one_of(&[0, 1, 1, 2, 2, 3]);
        let [library, second, plain] = &mut buffers;
        let started = [
            Library::start(library, level),
            Second::start(second, level),
            Plain::start(plain, level),
        ];
        trial.same("start", started);
        trial.equal("bytes after a start", &buffers);
        if room > 8000 && trial.once_in(2) {
            let amount = 511 + trial.below(2);
            let entries = samples::mixed_entries(amount, 0);
            for buffer in &mut buffers {
                put(buffer, 0, &samples::directory_bytes(b"$PL2", &entries));
            }
        }
        for _ in 0..4 {
            if trial.once_in(4) {
                let mut damaged = buffers[0].clone();
                let reach = damaged.len().min(48);
                trial.damage(&mut damaged[..reach]);
                if trial.once_in(2) && damaged.len() > 16 && damaged[8] < 3 {
                    let end = damaged.len().min(16 + 16 * usize::from(damaged[8]));
                    // A lead that may be misplaced, and an entry that repeats the one before it.
                    match (trial.below(4), end) {
                        (0, 32..) => damaged[16] = LEAD,
                        (1, 48..) => damaged.copy_within(16..18, 32),
                        _ => (),
                    }
                    samples::sum_again(&mut damaged[..end]);
                }
                buffers = [(); 3].map(|()| damaged.clone());
            }
            let mut entry = random_entry(&mut trial, room.max(2));
            match trial.below(10) {
                0 => entry.location = 1 << 62,
                1 => entry.mode = 4,
                // A directory that is full of small numbers has none of these, more often than not.
                2..=5 => entry.subprogram = trial.random.number() as u8,
                _ => (),
            }
            let [library, second, plain] = &mut buffers;
            let extended = [
                Library::extend(library, &entry),
                Second::extend(second, &entry),
                Plain::extend(plain, &entry),
            ];
            trial.same("extend", extended);
            trial.equal("bytes after an extend", &buffers);
        }
    }
    trial.met_exactly(&[0, 1, 2, 3, 4, 5, 9, 12, 14, 18]);
    trial.met_in(&[1, 2, 3, 4, 5], &[5, 14, 18]);
}

// ---- the ASPT

fn random_table(trial: &mut Trial) -> AsptTable {
    let mut table = samples::aspt();
    table.pages = trial.one_of(&[0, 1, 1, 2, u32::MAX]);
    let space = u64::from(table.pages) * 4096;
    table.base = match trial.below(6) {
        0 => trial.random.number(),
        1 => 0u64.wrapping_sub(space),
        2 => 0u64.wrapping_sub(space).wrapping_add(4096),
        _ => trial.random.number() >> 24 << 12,
    };
    for (structure, kind) in table.structures.iter_mut().zip([2, 0, 1]) {
        let far = space.saturating_sub(4) as u32;
        *structure = AsptStructure {
            kind: match trial.below(12) {
                0 => trial.one_of(&[0, 1, 2, 3, 0x100]),
                _ => kind,
            },
            id: match trial.below(8) {
                0 => trial.random.number() as u8,
                _ => u8::from(kind == 1),
            },
            registers: [(); 3].map(|()| match trial.below(12) {
                0 => far.wrapping_add(1),
                1 => trial.random.number() as u32,
                _ => trial.one_of(&[0, 4, far]),
            }),
        };
    }
    table
}

#[test]
fn aspt_tables_are_written_and_read_the_same() {
    let mut trial = Trial::begin();
    for _ in 0..6000 {
        let table = random_table(&mut trial);
        let room = trial.one_of(&[0, 111, 112, 112, 112, 120]);
        let mut buffers = [(); 3].map(|()| vec![0xEE; room]);
        let [library, second, plain] = &mut buffers;
        let written = [
            Library::aspt_write(library, &(&table).into()),
            Second::aspt_write(second, &(&table).into()),
            Plain::aspt_write(plain, &(&table).into()),
        ];
        trial.same("ASPT write", written);
        trial.equal("bytes after an ASPT write", &buffers);
        let mut bytes = buffers[0].clone();
        if trial.once_in(2) {
            trial.damage(&mut bytes);
            if trial.once_in(2) && bytes.len() >= 112 {
                let sum = bytes[..112]
                    .iter()
                    .fold(0u8, |sum, byte| sum.wrapping_add(*byte));
                bytes[9] = bytes[9].wrapping_sub(sum);
            }
        }
        let read = [
            Library::aspt_read(&bytes).map(|table| Library::told(&table)),
            Second::aspt_read(&bytes).map(|table| Second::told(&table)),
            Plain::aspt_read(&bytes).map(|table| Plain::told(&table)),
        ];
        trial.same("ASPT read", read);
    }
    trial.met_exactly(&[0, 1, 2, 3, 4, 5, 6, 7, 12]);
}

// ---- the GUID table

fn random_guid(trial: &mut Trial) -> Guid {
    let mut guid = samples::guid(trial.below(3));
    // GUIDs that differ in their last byte alone.
    guid.0[15] = trial.below(2) as u8;
    guid
}

#[test]
fn guid_tables_are_read_and_written_the_same() {
    let mut trial = Trial::begin();
    for _ in 0..2000 {
        let length = match trial.below(16) {
            0 => 70_000,
            1 => trial.one_of(&[0, 49, 50, 51]),
            _ => 50 + trial.below(200),
        };
        let fill = u8::from(trial.once_in(8));
        let mut buffers = [(); 3].map(|()| vec![fill; length]);
        let [library, second, plain] = &mut buffers;
        let started = [
            Library::guid_start(library),
            Second::guid_start(second),
            Plain::guid_start(plain),
        ];
        trial.same("GUID start", started);
        trial.equal("bytes after a GUID start", &buffers);
        for _ in 0..6 {
            if trial.once_in(6) {
                let mut damaged = buffers[0].clone();
                let from = damaged.len().saturating_sub(120);
                trial.damage(&mut damaged[from..]);
                buffers = [(); 3].map(|()| damaged.clone());
            }
            let guid = random_guid(&mut trial);
            let amount = match length {
                70_000 => trial.one_of(&[0, 30_000, 65_481, 65_499, 65_500, 65_600]),
                _ => trial.below(30),
            };
            let data = vec![7; amount];
            let [library, second, plain] = &mut buffers;
            let extended = [
                Library::guid_extend(library, &guid, &data),
                Second::guid_extend(second, &guid, &data),
                Plain::guid_extend(plain, &guid, &data),
            ];
            trial.same("GUID extend", extended);
            trial.equal("bytes after a GUID extend", &buffers);
            trial.same("GUID table", three!(guids(&buffers[0])));
            let wanted = random_guid(&mut trial);
            trial.same("GUID find", three!(guid_find(&buffers[0], &wanted)));
        }
    }
    trial.met_exactly(&[0, 1, 2, 3, 6, 8, 12, 13]);
}

// ---- the mailbox

/// The three programs' mailboxes, which are to answer the same.
struct Mailboxes(
    <Library as Program>::Mailbox,
    <Second as Program>::Mailbox,
    <Plain as Program>::Mailbox,
);

/// A call on each of the mailboxes.
macro_rules! each {
    ($mailboxes:expr, $name:ident($($given:expr),*)) => {
        [
            MailboxCalls::$name(&mut $mailboxes.0 $(, $given)*),
            MailboxCalls::$name(&mut $mailboxes.1 $(, $given)*),
            MailboxCalls::$name(&mut $mailboxes.2 $(, $given)*),
        ]
    };
}

/// A mailbox that keeps the rules more often than not.
fn random_mailboxes(trial: &mut Trial) -> Mailboxes {
    let mut callers: Vec<u32> = (0..8).collect();
    for i in (1..8).rev() {
        callers.swap(i, trial.below(i + 1));
    }
    let in_line = trial.below(5);
    let mut places = [CallerPlace::Free; 8];
    let mut line: Vec<Post> = Vec::new();
    for caller in &callers[..in_line] {
        places[*caller as usize] = CallerPlace::Waiting;
        line.push(Post {
            caller: *caller,
            command: 0x80 + trial.below(8) as u16,
            data: trial.one_of(&[0, 1, 0x401, 0xFC00, 0xFFFF]),
        });
    }
    let (caller, data) = (callers[in_line], trial.random.number() as u32 & 0xFFFF);
    let register = match trial.below(3) {
        0 => Register::Idle,
        1 => Register::Command {
            caller,
            word: 0x0080_0000 + ((trial.below(8) as u32) << 16) + data,
        },
        _ => Register::Response {
            caller,
            word: trial.random.number() as u32,
        },
    };
    if register != Register::Idle {
        places[caller as usize] = CallerPlace::Waiting;
    }
    if trial.once_in(2) {
        places[callers[7] as usize] = CallerPlace::Ready(data);
    }
    let register = damage_mailbox(trial, &mut line, register, &mut places);
    Mailboxes(
        MailboxCalls::of(&line, register, places),
        MailboxCalls::of(&line, register, places),
        MailboxCalls::of(&line, register, places),
    )
}

/// Breaks a rule, now and then.
fn damage_mailbox(
    trial: &mut Trial,
    line: &mut [Post],
    register: Register,
    places: &mut [CallerPlace; 8],
) -> Register {
    let stray = trial.one_of(&[0, 7, 8, 255]);
    match (trial.below(12), line.first_mut(), register) {
        (0, Some(post), _) => post.caller = stray,
        (1, Some(post), _) => post.command = trial.one_of(&[0x3FF, 0x400, 0xFFFF]),
        (2, _, Register::Command { word, .. }) => {
            return Register::Command {
                caller: stray,
                word,
            }
        }
        (3, _, Register::Command { caller, .. }) => {
            let word = trial.one_of(&[0x03FF_0000, 0x0400_0000, 0x8080_0000]);
            return Register::Command { caller, word };
        }
        (4, _, Register::Response { word, .. }) => {
            return Register::Response {
                caller: stray,
                word,
            }
        }
        (5, _, _) => {
            let place = trial.below(8);
            places[place] = trial.one_of(&[
                CallerPlace::Free,
                CallerPlace::Waiting,
                CallerPlace::Ready(1),
            ]);
        }
        _ => (),
    }
    register
}

#[test]
fn mailboxes_answer_the_same() {
    let mut trial = Trial::begin();
    for _ in 0..600 {
        let mut mailboxes = match trial.below(3) {
            0 => Mailboxes(
                MailboxCalls::fresh(),
                MailboxCalls::fresh(),
                MailboxCalls::fresh(),
            ),
            _ => random_mailboxes(&mut trial),
        };
        for _ in 0..30 {
            let caller = trial.below(9) as u32;
            match trial.below(6) {
                0 | 1 => {
                    let command = trial.one_of(&[
                        0x80, 0x81, 0x82, 0x83, 0x84, 0x82, 0x83, 0x84, 0x85, 0x85, 0x86, 0x3FF,
                        0x400,
                    ]);
                    let data = trial.one_of(&[0, 1, 2, 0x400, 0x401, 0x403, 0xFC00, 0xFC01]);
                    trial.same("post", each!(mailboxes, post(caller, command, data)));
                }
                2 => trial.same("load", each!(mailboxes, load())),
                3 => trial.same("turn", each!(mailboxes, turn())),
                4 => trial.same("unload", each!(mailboxes, unload())),
                _ => trial.same("take", each!(mailboxes, take(caller))),
            }
            let states = [
                mailboxes.0.firmware(),
                MailboxCalls::firmware(&mailboxes.1),
                MailboxCalls::firmware(&mailboxes.2),
            ];
            trial.equal("the firmware's state", &states);
        }
    }
    trial.met_exactly(&[0, 5, 8, 9, 10, 11]);
}
