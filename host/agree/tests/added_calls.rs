//! The calls that stand beside document 01's and have no line in the ask language (the EFS, the directory pointer, the entries
//! that repeat, all entries of a directory, all directories of an image, a firmware binary's version, that of an entry, what is
//! wrong at a place, and the entry at an index of a GUID table), set side by side: the library by its bindings, and the second
//! program. So is the place of every refusal: a line of the language has its level and index, and not where its directory begins.

use agree::board::{entry, Board, EFS, LENGTH, LEVEL_ONE, LEVEL_TWO, WINDOW};
use agree::cases;
use agree::random::Random;
use agree::subjects::directory::{tell_apart, Directory, Entry, CLASSES, LEAD, SUBPROGRAMS};
use agree::subjects::guids;
use bindings::{Place, Refusal};
use std::collections::{BTreeMap, BTreeSet};
use std::time::{SystemTime, UNIX_EPOCH};

/// How many images, and how many binaries, are tried.
const TRIALS: usize = 5_000;
/// The most bytes that a flash image may have.
const LONGEST: usize = 16_777_216;
/// Where a board has a firmware binary: behind its directories.
const BINARY: usize = 0x2_C000;
/// Where an EFS may be: how far from the end of an image.
const CANDIDATES: [usize; 6] = [
    0x06_0000, 0x0E_0000, 0x1E_0000, 0x3E_0000, 0x7E_0000, 0xFE_0000,
];

/// What a call answers, in numbers alone and in the bindings' refusals, so that answers of both programs can be compared.
type Told = bindings::Answer<Vec<u64>>;

/// What the library answers.
fn by_library<T>(answer: bindings::Answer<T>, values: impl FnOnce(T) -> Vec<u64>) -> Told {
    answer.map(values)
}

/// What the second program answers.
fn by_second<T>(
    answer: Result<T, second::refusal::Refusal>,
    values: impl FnOnce(T) -> Vec<u64>,
) -> Told {
    answer.map(values).map_err(|refusal| Refusal {
        number: refusal.number.into(),
        tested: refusal.tested,
        place: refusal.place.map(|place| Place {
            level: place.level.into(),
            index: place.index,
            directory: place.directory,
        }),
    })
}

fn efs_by_both(image: &[u8]) -> [Told; 2] {
    [
        by_library(bindings::efs(image), |efs| {
            vec![efs.place, efs.early, efs.late]
        }),
        by_second(second::flash::efs(image), |efs| {
            vec![efs.place, efs.early.into(), efs.late.into()]
        }),
    ]
}

fn pointer_by_both(image: &[u8]) -> [Told; 2] {
    [
        by_library(bindings::pointer(image), |to| {
            vec![to.field, to.value, to.place]
        }),
        by_second(second::flash::pointer(image), |to| {
            vec![to.field, to.value.into(), to.place]
        }),
    ]
}

fn repeated_by_both(image: &[u8], level: u32) -> [Told; 2] {
    [
        by_library(bindings::repeated(image, level), |repeat| {
            vec![
                repeat.index,
                repeat.earlier,
                repeat.class,
                repeat.subprogram,
            ]
        }),
        by_second(second::flash::repeated(image, level), |repeat| {
            vec![
                repeat.index,
                repeat.earlier,
                repeat.kind.into(),
                repeat.subprogram.into(),
            ]
        }),
    ]
}

fn entries_by_both(image: &[u8], place: u64) -> [Told; 2] {
    let mut words = bindings::Words::new();
    let library = bindings::view_entries(image, place as usize, &mut words);
    [
        by_library(library, |entries| {
            let directory = entries.directory;
            let mut values = vec![directory.place, directory.level, directory.total];
            for row in entries.rows() {
                let entry = row.entry;
                values.extend([entry.class, entry.subprogram, entry.size]);
                values.extend([entry.location, entry.mode]);
                values.extend(match row.part {
                    Ok(part) => [0, part.place, part.length],
                    Err(refusal) => [refusal.number, 0, 0],
                });
            }
            values
        }),
        by_second(
            second::flash::all_entries(image, place),
            |(directory, all)| {
                let mut values = directory_values(&directory);
                for one in all {
                    let entry = one.entry;
                    values.extend([entry.kind, entry.subprogram].map(u64::from));
                    values.extend([entry.size.into(), entry.location, entry.mode.into()]);
                    values.extend(match one.bytes {
                        Ok(part) => [0, part.place, part.length],
                        Err(refusal) => [refusal.number.into(), 0, 0],
                    });
                }
                values
            },
        ),
    ]
}

fn directory_values(directory: &second::flash::Directory) -> Vec<u64> {
    let level = directory.level.number();
    vec![directory.place, level.into(), directory.total.into()]
}

fn directories_by_both(image: &[u8]) -> [Told; 2] {
    [
        by_library(bindings::directories(image), |all| {
            let values = all.into_iter().flat_map(|entered| {
                let directory = entered.directory;
                let place = [directory.place, directory.level, directory.total];
                place.into_iter().chain([entered.lead])
            });
            values.collect()
        }),
        by_second(second::flash::all_directories(image), |all| {
            let values = all.into_iter().flat_map(|reached| {
                let directory = directory_values(&reached.directory);
                directory.into_iter().chain([reached.lead])
            });
            values.collect()
        }),
    ]
}

fn version_by_both(bytes: &[u8]) -> [Told; 2] {
    [
        by_library(bindings::version(bytes), |version| vec![version]),
        by_second(second::version::version(bytes), |version| {
            vec![version.into()]
        }),
    ]
}

fn entry_version_by_both(image: &[u8], level: u32, index: u64) -> [Told; 2] {
    [
        by_library(
            bindings::entry_version(image, level, index as usize),
            |version| vec![version],
        ),
        by_second(second::version::of_entry(image, level, index), |version| {
            vec![version.into()]
        }),
    ]
}

fn view_version_by_both(image: &[u8], place: u64, index: u64) -> [Told; 2] {
    let view = second::flash::View { image, place };
    let library = bindings::view_version(image, place as usize, index as usize);
    [
        by_library(library, |version| vec![version]),
        by_second(second::version::of_view(&view, index), |version| {
            vec![version.into()]
        }),
    ]
}

fn guid_entry_by_both(image: &[u8], index: usize) -> [Told; 2] {
    let values = |guid: [u8; 16], place: u64, length: u64| {
        let mut values: Vec<u64> = guid.iter().map(|byte| (*byte).into()).collect();
        values.extend([place, length]);
        values
    };
    [
        by_library(bindings::guid_entry(image, index), |entry| {
            values(entry.guid.0, entry.place, entry.length)
        }),
        by_second(second::guids::entry(image, index), |entry| {
            values(entry.guid, entry.place as u64, entry.length as u64)
        }),
    ]
}

/// The number of an answer, 0 where it was accepted.
fn number_of_answer(told: &Told) -> u64 {
    told.as_ref().err().map_or(0, |refusal| refusal.number)
}

/// The numbers that were answered, 0 for what was accepted.
#[derive(Default)]
struct Seen(BTreeSet<u64>);

impl Seen {
    /// Holds two answers to be one, and notes its number.
    fn note(&mut self, [library, second]: [Told; 2], whence: &str) {
        assert_eq!(library, second, "library and second program, {whence}");
        self.0.insert(number_of_answer(&library));
    }

    /// Every number that is due has come, and no other.
    fn hold(&self, due: &[u64]) {
        assert_eq!(self.0, due.iter().copied().collect());
    }

    /// Every number that is due has come; others may have.
    fn hold_at_least(&self, due: &[u64]) {
        let missing: Vec<&u64> = due.iter().filter(|due| !self.0.contains(due)).collect();
        assert!(missing.is_empty(), "{missing:?} did not come");
    }
}

/// A seed from the clock, printed with the name of what it is for.
fn seed_for(what: &str) -> u64 {
    let clock = SystemTime::now().duration_since(UNIX_EPOCH);
    let seed = clock.map_or(0, |since| since.as_micros() as u64);
    println!("{what}: seed {seed}");
    seed
}

/// A pointer that is absent, at a limit of what is a flash offset or physical in an image of that length or in the longest, or any.
fn pointer_value(random: &mut Random, length: usize) -> u32 {
    let any = random.number() as u32;
    let length = random.one_of(&[length, LONGEST]) as u32;
    let first_physical = length.wrapping_neg();
    random.one_of(&[
        0,
        0xFFFF_FFFF,
        1,
        length.wrapping_sub(1),
        length,
        length + 1,
        first_physical.wrapping_sub(1),
        first_physical,
        first_physical.wrapping_add(1),
        0xFFFF_FFFE,
        any,
    ])
}

/// An image's length: at a limit, of a board, any, or about where an EFS candidate comes into the window.
fn image_length(random: &mut Random) -> usize {
    match random.below(8) {
        0 => random.one_of(&[0, 1, LONGEST + 1]),
        1 | 2 => random.one_of(&[LONGEST / 4, LONGEST / 2, LONGEST]),
        3 => 1 + random.below(LONGEST as u64) as usize,
        _ => random.one_of(&CANDIDATES) + 1 - random.below(3) as usize,
    }
}

#[test]
fn both_tell_the_same_efs_and_pointer() {
    let seed = seed_for("the EFS and the pointer");
    let mut random = Random::from_seed(seed);
    let (mut efs, mut pointer) = (Seen::default(), Seen::default());
    // One buffer for all trials: an image is its last bytes, so that each candidate is in one place for all. What an earlier trial left
    // elsewhere is no EFS.
    let mut buffer = vec![0; LONGEST + 1];
    for trial in 0..TRIALS {
        let length = image_length(&mut random);
        let first = buffer.len() - length;
        // Where a window would have one that is a byte or more too long.
        let astray = random.one_of(&CANDIDATES);
        let astray = first + random.one_of(&[0, LONGEST - astray]);
        for at in CANDIDATES
            .map(|from_end| LONGEST + 1 - from_end)
            .into_iter()
            .chain([astray])
        {
            let mut bytes = random.bytes(0x24);
            if !random.once_in(3) {
                bytes[..4].copy_from_slice(&[0xAA, 0x55, 0xAA, 0x55]);
            }
            if random.once_in(4) {
                let damaged = random.below(4) as usize;
                bytes[damaged] ^= 1 << random.below(8);
            }
            for field in [0x10, 0x14] {
                let value = pointer_value(&mut random, length);
                bytes[field..field + 4].copy_from_slice(&value.to_le_bytes());
            }
            if let Some(place) = buffer.get_mut(at..at + 0x24) {
                place.copy_from_slice(&bytes);
            }
        }
        let image = &buffer[first..];
        let whence = format!("seed {seed}, trial {trial}, an image of {length} bytes");
        efs.note(efs_by_both(image), &whence);
        pointer.note(pointer_by_both(image), &whence);
    }
    efs.hold(&[0, 2, 15]);
    pointer.hold(&[0, 2, 7, 8, 15]);
}

#[test]
fn both_tell_the_same_version() {
    let seed = seed_for("the version");
    let mut random = Random::from_seed(seed);
    let mut seen = Seen::default();
    for trial in 0..TRIALS {
        // Mostly about the header's end.
        let fewer = if random.once_in(8) { 259 } else { 4 };
        let length = 258 - random.below(fewer) as usize;
        let mut bytes = random.bytes(258);
        if !random.once_in(8) {
            bytes[0x10..0x14].copy_from_slice(b"$PS1");
        }
        if random.once_in(3) {
            let damaged = 0x10 + random.below(4) as usize;
            bytes[damaged] ^= 1 << random.below(8);
        }
        let whence = format!("seed {seed}, trial {trial}, a binary of {length} bytes");
        seen.note(version_by_both(&bytes[..length]), &whence);
    }
    seen.hold(&[0, 1, 2]);
}

/// An entry whose bytes begin where a binary may, end about the end of its header, and may lie in no image at all.
fn entry_with_a_binary(random: &mut Random) -> Entry {
    let class = random.one_of(&CLASSES);
    let size = random.one_of(&[0, 255, 256, 257, 0x1000]);
    let mode = random.below(4);
    let place = BINARY as u64;
    let location = match mode {
        _ if random.once_in(8) => LENGTH as u64,
        0 => WINDOW + place,
        1 => place,
        _ => place - random.one_of(&[LEVEL_ONE, LEVEL_TWO]) as u64,
    };
    entry(class, random.one_of(&SUBPROGRAMS), size, location, mode)
}

#[test]
fn both_tell_the_same_version_of_an_entry() {
    let seed = seed_for("the version of an entry");
    let mut random = Random::from_seed(seed);
    let (mut by_level, mut by_view) = (Seen::default(), Seen::default());
    for trial in 0..TRIALS / 5 {
        let mut board = Board::new();
        for level in [1, 2] {
            let total = random.below(4) as usize + 1;
            let mut entries: Vec<Entry> = (0..total)
                .map(|_| entry_with_a_binary(&mut random))
                .collect();
            if level == 1 {
                entries.push(entry(LEAD, 2, 0, LEVEL_TWO as u64, 1));
            }
            tell_apart(&mut random, &mut entries);
            *directory_of(&mut board, level) = Directory::of(level, entries);
        }
        let mut image = board.bytes();
        let header = &mut image[BINARY..BINARY + 0x100];
        if !random.once_in(4) {
            header[0x10..0x14].copy_from_slice(b"$PS1");
        }
        header[0x60..0x64].copy_from_slice(&random.bytes(4));
        for level in 0..4 {
            for index in 0..6 {
                let whence = format!("seed {seed}, trial {trial}, level {level}, index {index}");
                by_level.note(entry_version_by_both(&image, level, index), &whence);
                let place = random.one_of(&[LEVEL_ONE, LEVEL_TWO, LENGTH, LENGTH + 1]) as u64;
                let place = place + random.one_of(&[0, 0, 0, 1, 1 << 32]);
                let whence = format!("{whence}, place {place:#x}");
                by_view.note(view_version_by_both(&image, place, index), &whence);
            }
        }
    }
    by_level.hold_at_least(&[0, 1, 2, 7, 8, 9, 14, 16, 17]);
    by_view.hold_at_least(&[0, 1, 2, 7, 8, 14, 16, 17]);
}

// ---- the entry at an index of a GUID table

/// Holds both to one answer for every index up to two behind the entries, and for indices that are far behind.
fn note_guid_entries(seen: &mut Seen, image: &[u8], whence: &str) {
    let entries = bindings::guids(image).map_or(1, |table| table.entries as usize);
    for index in (0..entries + 2).chain([1 << 16, 1 << 32, usize::MAX]) {
        let whence = format!("{whence}, index {index}");
        let answers = guid_entry_by_both(image, index);
        if bindings::guids(image).is_ok() {
            let due = if index < entries { 0 } else { Refusal::ABSENT };
            assert_eq!(number_of_answer(&answers[0]), due, "library, {whence}");
        }
        seen.note(answers, &whence);
    }
}

#[test]
fn both_give_the_same_entries_of_random_guid_tables() {
    let seed = seed_for("the entries of a GUID table");
    let mut random = Random::from_seed(seed);
    let mut seen = Seen::default();
    for trial in 0..TRIALS {
        let length = match random.below(40) {
            0 => 65_535 + 32 + random.below(4),
            1..=4 => random.one_of(&[0, 1, 32, 48, 49, 50, 51, 67, 68]),
            _ => 50 + random.below(250),
        };
        let image = guids::image(&mut random, length);
        let whence = format!("seed {seed}, trial {trial}, an image of {length} bytes");
        note_guid_entries(&mut seen, &image, &whence);
    }
    seen.hold(&[0, 1, 2, 3, 6, 8]);
}

#[test]
fn both_give_the_same_entries_of_the_largest_guid_table() {
    // As many entries as a total of 65,535 counts, each with its own number as data.
    let most = (65_535 - 18) / 20;
    let mut image = vec![0; 65_535 + 32];
    assert_eq!(bindings::guid_start(&mut image), Ok(()));
    for number in 0..most as u16 {
        let guid = bindings::Guid([number as u8; 16]);
        let data = number.to_le_bytes();
        assert!(bindings::guid_extend(&mut image, &guid, &data).is_ok());
    }
    for index in [0, 1, most / 2, most - 1] {
        let entry = bindings::guid_entry(&image, index).expect("an entry at every index below");
        let place = entry.place as usize;
        assert_eq!(image[place..place + 2], (index as u16).to_le_bytes());
        let [library, second] = guid_entry_by_both(&image, index);
        assert_eq!(library, second, "index {index}");
    }
    for index in [most, most + 1, 1 << 32, usize::MAX] {
        let answers = guid_entry_by_both(&image, index);
        assert_eq!(
            answers,
            [refused(Refusal::ABSENT), refused(Refusal::ABSENT)]
        );
    }
}

// ---- the entries that repeat

/// 512 entries of a level, no two the same; in level one the entry at 256 leads to level two.
fn all_different(level: u32) -> Vec<Entry> {
    let mut entries: Vec<Entry> = (0..512u32)
        .map(|i| entry((i % 50) as u8, (i / 50) as u8, i, 0x1000, 1))
        .collect();
    if level == 1 {
        entries[256] = entry(LEAD, 0, 0, LEVEL_TWO as u64, 1);
    }
    entries
}

/// Full directories in both levels, where some entries of a level have the type and subprogram of another: (later, earlier).
fn board_with_repeats(level: u32, pairs: &[(usize, usize)]) -> Board {
    let mut board = Board::new();
    board.one = Directory::of(1, all_different(1));
    board.two = Directory::of(2, all_different(2));
    repeat(&mut board, level, pairs);
    board
}

fn directory_of(board: &mut Board, level: u32) -> &mut Directory {
    match level {
        1 => &mut board.one,
        _ => &mut board.two,
    }
}

fn repeat(board: &mut Board, level: u32, pairs: &[(usize, usize)]) {
    let entries = &mut directory_of(board, level).entries;
    for (later, earlier) in pairs {
        let (class, subprogram) = entries[*earlier].pair();
        entries[*later].class = class;
        entries[*later].subprogram = subprogram;
    }
}

/// Both programs answer this.
fn both_answer(image: &[u8], level: u32, expected: Told, whence: &str) {
    let [library, second] = repeated_by_both(image, level);
    assert_eq!(library, expected, "library, level {level}, {whence}");
    assert_eq!(second, expected, "second program, level {level}, {whence}");
}

fn refused(number: u64) -> Told {
    Err(Refusal::alone(number))
}

/// A refusal that is met in the header of the board's directory of a level, and in an entry of it.
fn in_header(number: u64, level: u32) -> Told {
    let place = if level == 1 { LEVEL_ONE } else { LEVEL_TWO };
    met_at(number, level, None, place)
}

fn in_entry(number: u64, level: u32, index: u64) -> Told {
    let place = if level == 1 { LEVEL_ONE } else { LEVEL_TWO };
    met_at(number, level, Some(index), place)
}

fn met_at(number: u64, level: u32, index: Option<u64>, directory: usize) -> Told {
    let place = Place {
        level: level.into(),
        index,
        directory: directory as u64,
    };
    Err(Refusal {
        place: Some(place),
        ..Refusal::alone(number)
    })
}

#[test]
fn both_name_the_first_entry_that_repeats_and_the_first_that_it_repeats() {
    for level in [1, 2] {
        for (pairs, named) in [
            (&[(1, 0)][..], (1, 0)),
            (&[(511, 0)], (511, 0)),
            (&[(511, 510)], (511, 510)),
            (&[(300, 100)], (300, 100)),
            // Of several the first, and of three that are the same the first two.
            (&[(4, 0), (3, 1)], (3, 1)),
            (&[(5, 2), (9, 2)], (5, 2)),
            (&[(511, 0), (510, 1)], (510, 1)),
        ] {
            let mut board = board_with_repeats(level, pairs);
            let (later, earlier) = named;
            let (class, subprogram) = directory_of(&mut board, level).entries[earlier].pair();
            let expected = [
                later as u64,
                earlier as u64,
                class.into(),
                subprogram.into(),
            ];
            let image = board.bytes();
            let whence = format!("repeats {pairs:?} in level {level}");
            both_answer(&image, level, Ok(expected.to_vec()), &whence);
            // The other level is good, or is not reached.
            let other = if level == 1 {
                in_entry(Refusal::REPEATED, 1, later as u64)
            } else {
                refused(Refusal::ABSENT)
            };
            both_answer(&image, 3 - level, other, &whence);
        }
    }
    // In both levels.
    let mut board = board_with_repeats(1, &[(7, 6)]);
    repeat(&mut board, 2, &[(3, 2)]);
    let image = board.bytes();
    both_answer(&image, 1, Ok(vec![7, 6, 6, 0]), "repeats in both levels");
    both_answer(
        &image,
        2,
        in_entry(Refusal::REPEATED, 1, 7),
        "repeats in both levels",
    );
}

#[test]
fn both_tell_the_refusal_of_the_directory_where_it_is_not_18() {
    let nothing = board_with_repeats(1, &[]).bytes();
    for level in [1, 2] {
        both_answer(&nothing, level, refused(Refusal::ABSENT), "nothing repeats");
        let pairs = [(200, 100)];
        let repeats = |change: &dyn Fn(&mut Directory)| {
            let mut board = board_with_repeats(level, &pairs);
            change(directory_of(&mut board, level));
            board.bytes()
        };
        let named = Ok(vec![200, 100, 0, 2]);
        for (whence, expected, image) in [
            ("nothing else", named.clone(), repeats(&|_| ())),
            (
                "checksum",
                in_header(Refusal::CHECKSUM, level),
                repeats(&|one| one.wrong = 1),
            ),
            (
                "total",
                in_header(Refusal::LIMITS, level),
                repeats(&|one| one.total = 513),
            ),
            (
                "cookie",
                in_header(Refusal::SIGNATURE, level),
                repeats(&|one| one.cookie = [0; 4]),
            ),
            (
                "reserved",
                in_header(Refusal::FIELD, level),
                repeats(&|one| one.reserved = 1),
            ),
            // Entry by entry, and in an entry its reserved bits before what it repeats.
            (
                "an earlier entry",
                in_entry(Refusal::FIELD, level, 199),
                repeats(&|one| one.entries[199].reserved = 1),
            ),
            (
                "the entry itself",
                in_entry(Refusal::FIELD, level, 200),
                repeats(&|one| one.entries[200].reserved = 1),
            ),
            (
                "a later entry",
                named,
                repeats(&|one| one.entries[201].reserved = 1),
            ),
        ] {
            both_answer(&image, level, expected, whence);
        }
        // Where the total leaves the repeat out there is none.
        let fewer = repeats(&|one| {
            one.entries.truncate(200);
            one.total = 200;
        });
        let expected = refused(Refusal::ABSENT);
        both_answer(&fewer, level, expected, "a total before the repeat");
    }
    let misplaced = |place: usize| {
        let mut board = board_with_repeats(2, &[(200, 100)]);
        board.two.entries[place].class = LEAD;
        board.bytes()
    };
    both_answer(
        &misplaced(199),
        2,
        in_entry(Refusal::MISPLACED, 2, 199),
        "a lead before the repeat",
    );
    let named = Ok(vec![200, 100, 0, 2]);
    both_answer(&misplaced(201), 2, named, "a lead behind the repeat");
    let image = board_with_repeats(1, &[(1, 0)]).bytes();
    for level in [0, 3, u32::MAX] {
        both_answer(&image, level, refused(Refusal::RANGE), "no such level");
    }
    for level in [1, 2] {
        both_answer(&[], level, refused(Refusal::IMAGE), "no bytes");
        both_answer(&[0], level, refused(Refusal::SIGNATURE), "no EFS");
    }
}

/// A directory of few or of many entries, of which some repeat, and which may be broken besides. Level one mostly leads to level two.
fn random_directory(random: &mut Random, level: u32) -> Directory {
    let count = random.one_of(&[0, 1, 2, 3, 5, 8, 40, 512]);
    let mut entries: Vec<Entry> = (0..count)
        .map(|_| {
            let class = match random.one_of(&CLASSES) {
                LEAD => 0x13,
                class => class,
            };
            let subprogram = random.one_of(&SUBPROGRAMS);
            entry(class, subprogram, 0x10, 0x1000, 1)
        })
        .collect();
    if level == 1 && !random.once_in(8) {
        let place = random.below(count + 1) as usize;
        let mode = if random.once_in(12) { 3 } else { 1 };
        let lead = entry(LEAD, 0, 0, LEVEL_TWO as u64, mode);
        entries.truncate(511);
        entries.insert(place.min(entries.len()), lead);
    }
    // Most are told apart, and a few of these repeat one; of the others many entries repeat.
    if !random.once_in(3) {
        tell_apart(random, &mut entries);
    }
    let mut directory = Directory::of(level, entries);
    if random.once_in(6) {
        directory.break_one(random);
    }
    directory
}

#[test]
fn both_name_the_same_entries_of_random_boards() {
    let seed = seed_for("the entries that repeat");
    let mut random = Random::from_seed(seed);
    let mut seen = [Seen::default(), Seen::default()];
    for trial in 0..TRIALS {
        let mut board = Board::new();
        board.one = random_directory(&mut random, 1);
        board.two = random_directory(&mut random, 2);
        if random.once_in(40) {
            board.late = pointer_value(&mut random, LENGTH);
        }
        let image = board.bytes();
        for level in [1, 2] {
            let whence = format!("seed {seed}, trial {trial}, level {level}");
            seen[level as usize - 1].note(repeated_by_both(&image, level), &whence);
        }
    }
    seen[0].hold_at_least(&[0, 2, 3, 4, 5, 7, 8]);
    seen[1].hold_at_least(&[0, 2, 3, 4, 5, 7, 8, 14, 16, 18]);
}

/// A number of a recorded script.
fn number_of(word: &str) -> usize {
    let number = match word.strip_prefix("0x") {
        Some(digits) => usize::from_str_radix(digits, 16),
        None => word.parse(),
    };
    number.expect("a recorded script has numbers in these places")
}

/// Hands over every image that a recorded script asks for a directory, and where it does.
fn recorded_images(mut each: impl FnMut(&[u8], &str)) {
    let all = cases::all().expect("the cases can be read");
    for case in all.iter().filter(|case| case.name.starts_with("images/")) {
        let script = String::from_utf8(case.script.clone()).expect("a script of a board is text");
        let mut buffers: BTreeMap<String, Vec<u8>> = BTreeMap::new();
        for (number, line) in (1..).zip(script.lines()) {
            let line = line.split('#').next().unwrap_or_default();
            let words: Vec<&str> = line.split_whitespace().collect();
            match words.as_slice() {
                ["buffer", name, length, byte @ ..] => {
                    let byte = byte.first().map_or(0, |byte| number_of(byte) as u8);
                    buffers.insert(name.to_string(), vec![byte; number_of(length)]);
                }
                ["patch", name, place, digits] => {
                    let place = number_of(place);
                    let bytes = digits.as_bytes().chunks(2).map(|digits| {
                        let digits = std::str::from_utf8(digits).expect("digits are text");
                        u8::from_str_radix(digits, 16).expect("a patch has hexadecimal digits")
                    });
                    let bytes: Vec<u8> = bytes.collect();
                    let buffer = buffers.get_mut(*name).expect("a buffer is made before");
                    buffer[place..place + bytes.len()].copy_from_slice(&bytes);
                }
                ["directory", name, _] => {
                    each(
                        &buffers[*name],
                        &format!("{}.ask, line {number}", case.name),
                    );
                }
                _ => (),
            }
        }
    }
}

#[test]
fn both_name_the_same_entries_of_every_recorded_image() {
    let mut seen = Seen::default();
    let mut asked = 0;
    recorded_images(|image, whence| {
        for level in [1, 2] {
            let whence = format!("{whence}, level {level}");
            seen.note(repeated_by_both(image, level), &whence);
            asked += 1;
        }
    });
    assert!(asked > 100, "{asked} images were asked");
    seen.hold_at_least(&[0, 1, 2, 3, 4, 5, 7, 8, 14, 15, 16, 18]);
}

// ---- all entries of a directory, and all directories of an image

/// Where boards of many leads have level two: the board's own, and two more.
const LEVELS_TWO: [usize; 3] = [LEVEL_TWO, 0x3_0000, 0x3_8000];

/// An image of the board in which directories of level two begin at the places of `LEVELS_TWO`.
fn image_of_levels(one: Directory, two: &[Directory; 3]) -> Vec<u8> {
    let mut image = Board::with(|board| board.one = one);
    for (place, two) in LEVELS_TWO.iter().zip(two) {
        let bytes = two.bytes();
        image[*place..place + bytes.len()].copy_from_slice(&bytes);
    }
    image
}

/// Directories of level two with none, one and two entries.
fn small_levels_two() -> [Directory; 3] {
    [0, 1, 2].map(|total| {
        let entries = (0..total).map(|i| entry(1, i, 0x10, 0x1000, 1));
        Directory::of(2, entries.collect())
    })
}

/// Level one with a lead for each of these places, behind an entry that is none.
fn level_one_leading_to(places: &[u64]) -> Directory {
    let leads = places.iter().enumerate();
    let leads = leads.map(|(i, place)| entry(LEAD, i as u8, 0, *place, 1));
    let entries = std::iter::once(entry(1, 0, 0, 0, 1)).chain(leads);
    Directory::of(1, entries.collect())
}

/// Both programs tell these directories: place, level, total and lead of each.
#[track_caller]
fn both_tell_directories(image: &[u8], expected: &[[u64; 4]]) {
    let expected = Ok(expected.concat());
    assert_eq!(directories_by_both(image), [expected.clone(), expected]);
}

#[track_caller]
fn both_refuse_directories(image: &[u8], expected: Told) {
    assert_eq!(directories_by_both(image), [expected.clone(), expected]);
}

#[test]
fn both_tell_every_directory_and_the_entry_that_led_there() {
    let [first, second, third] = LEVELS_TWO.map(|place| place as u64);
    let one = |total| [LEVEL_ONE as u64, 1, total, 0];
    let image = |places: &[u64]| image_of_levels(level_one_leading_to(places), &small_levels_two());
    both_tell_directories(&image(&[]), &[one(1)]);
    both_tell_directories(&image(&[first]), &[one(2), [first, 2, 0, 1]]);
    both_tell_directories(
        &image(&[third, first, second]),
        &[
            one(4),
            [third, 2, 2, 1],
            [first, 2, 0, 2],
            [second, 2, 1, 3],
        ],
    );
    // Two leads to one place are two directories of the walk.
    both_tell_directories(
        &image(&[second, second]),
        &[one(3), [second, 2, 1, 1], [second, 2, 1, 2]],
    );
    // As many as there can be: a lead for each subprogram.
    let mut expected = vec![one(257)];
    expected.extend((1..=256).map(|lead| [third, 2, 2, lead]));
    both_tell_directories(&image(&[third; 256]), &expected);
}

#[test]
fn both_tell_the_first_fault_of_all_directories() {
    let [first, second, third] = LEVELS_TWO.map(|place| place as u64);
    let end = LENGTH as u64;
    let leading =
        |places: &[u64]| image_of_levels(level_one_leading_to(places), &small_levels_two());
    // Of several faults the first lead's, whichever stands behind it.
    for (places, expected) in [
        ([first, second, end + 1], in_entry(Refusal::OUTSIDE, 1, 3)),
        (
            [first, end, end + 1],
            met_at(Refusal::SHORT, 2, None, LENGTH),
        ),
        ([end + 1, end, first], in_entry(Refusal::OUTSIDE, 1, 1)),
        (
            [LEVEL_ONE as u64, first, end],
            met_at(Refusal::SIGNATURE, 2, None, LEVEL_ONE),
        ),
        ([third, 0, end], met_at(Refusal::SIGNATURE, 2, None, 0)),
    ] {
        both_refuse_directories(&leading(&places), expected);
    }
    let places = [first, second, third];
    let faults: [(&dyn Fn(&mut Directory), u64, Option<u64>); 7] = [
        (&|two| two.cookie = [0; 4], Refusal::SIGNATURE, None),
        (&|two| two.total = 513, Refusal::LIMITS, None),
        (&|two| two.wrong = 1, Refusal::CHECKSUM, None),
        (&|two| two.reserved = 1, Refusal::FIELD, None),
        (&|two| two.entries[1].reserved = 1, Refusal::FIELD, Some(1)),
        (
            &|two| two.entries[1].class = LEAD,
            Refusal::MISPLACED,
            Some(1),
        ),
        (
            &|two| two.entries[1].subprogram = 0,
            Refusal::REPEATED,
            Some(1),
        ),
    ];
    for (fault, number, index) in faults {
        let mut two = small_levels_two();
        fault(&mut two[2]);
        let image = image_of_levels(level_one_leading_to(&places), &two);
        both_refuse_directories(&image, met_at(number, 2, index, LEVELS_TWO[2]));
        // Where no entry leads there it has no part in the answer.
        let image = image_of_levels(level_one_leading_to(&places[..2]), &two);
        let expected = [
            [LEVEL_ONE as u64, 1, 3, 0],
            [first, 2, 0, 1],
            [second, 2, 1, 2],
        ];
        both_tell_directories(&image, &expected);
    }
    let mut one = level_one_leading_to(&[end + 1]);
    one.entries[0].class = LEAD;
    let repeats = image_of_levels(one, &small_levels_two());
    both_refuse_directories(&repeats, in_entry(Refusal::REPEATED, 1, 1));
    let mut one = level_one_leading_to(&[first, second]);
    one.entries[2].word = second | 3 << 62;
    let mode = image_of_levels(one, &small_levels_two());
    both_refuse_directories(&mode, in_entry(Refusal::MODE, 1, 2));
    let without_pointer = Board::with(|board| board.late = 0);
    both_refuse_directories(&without_pointer, refused(Refusal::ABSENT));
    both_refuse_directories(&[], refused(Refusal::IMAGE));
    both_refuse_directories(&[0], refused(Refusal::SIGNATURE));
}

/// An entry that leads, mostly to a level two, by any mode.
fn random_lead(random: &mut Random) -> Entry {
    let place = match random.below(40) {
        0 => random.one_of(&[LEVEL_ONE, LENGTH - 8, LENGTH, LENGTH + 1]),
        _ => random.one_of(&LEVELS_TWO),
    } as u64;
    let (mode, location) = match random.below(30) {
        0 => (3, place),
        1..=9 => (0, WINDOW + place),
        10..=19 => (2, place - LEVEL_ONE as u64),
        _ => (1, place),
    };
    entry(LEAD, random.number() as u8, 0, location, mode)
}

/// Level one with some leads in any places among entries of every kind.
fn random_level_one(random: &mut Random) -> Directory {
    let others = random.one_of(&[0, 1, 2, 5, 40]);
    let mut entries: Vec<Entry> = (0..others).map(|_| random_row(random)).collect();
    for _ in 0..random.one_of(&[0, 1, 1, 2, 2, 3, 4, 30]) {
        let place = random.below(entries.len() as u64 + 1) as usize;
        entries.insert(place, random_lead(random));
    }
    tell_apart(random, &mut entries);
    let mut one = Directory::of(1, entries);
    if random.once_in(10) {
        one.break_one(random);
    }
    one
}

/// An entry that leads nowhere: with bytes at any limit of the image, or with none.
fn random_row(random: &mut Random) -> Entry {
    let class = match random.one_of(&CLASSES) {
        LEAD => 0x13,
        class => class,
    };
    let size = random.one_of(&[0, 1, 0x100, LENGTH as u32, u32::MAX]);
    let mode = random.below(4);
    let place = random.one_of(&[0, 1, LENGTH - 0x100, LENGTH - 1, LENGTH, LENGTH + 1]) as u64;
    let location = match (mode, random.below(8)) {
        (_, 0) => random.number() >> 2,
        (0, _) => WINDOW - 1 + place,
        (2, _) => place.saturating_sub(random.one_of(&LEVELS_TWO) as u64),
        _ => place,
    };
    entry(class, random.one_of(&SUBPROGRAMS), size, location, mode)
}

fn random_level_two(random: &mut Random) -> Directory {
    let total = match random.below(40) {
        0 => 512,
        _ => random.one_of(&[0, 1, 2, 5, 40]),
    };
    let mut entries: Vec<Entry> = (0..total).map(|_| random_row(random)).collect();
    tell_apart(random, &mut entries);
    let mut two = Directory::of(2, entries);
    if random.once_in(10) {
        two.break_one(random);
    }
    two
}

/// A place where a directory may begin, or about a limit of the image.
fn random_place(random: &mut Random) -> u64 {
    let [first, second, third] = LEVELS_TWO;
    let places = [LEVEL_ONE, first, second, third, 0, LENGTH - 16, LENGTH];
    let place = random.one_of(&places) as u64;
    match random.below(8) {
        0 => random.below(LENGTH as u64 + 2),
        1 => place + random.one_of(&[1, 15, 1 << 32]),
        2 => random.one_of(&[u64::MAX, 1 << 63]),
        _ => place,
    }
}

/// The numbers that stand in the rows of an answer, where it is given.
fn part_numbers(told: &Told) -> impl Iterator<Item = u64> + '_ {
    let rows = told.iter().flat_map(|values| values[3..].chunks(8));
    rows.map(|row| row[5])
}

#[test]
fn both_tell_the_same_of_random_boards_of_many_leads() {
    let seed = seed_for("all directories and all entries");
    let mut random = Random::from_seed(seed);
    let (mut directories, mut entries) = (Seen::default(), Seen::default());
    let mut parts = BTreeSet::new();
    let mut most = 0;
    for trial in 0..TRIALS / 4 {
        let one = random_level_one(&mut random);
        let two = [(); 3].map(|()| random_level_two(&mut random));
        let mut image = image_of_levels(one, &two);
        if random.once_in(12) {
            let value = pointer_value(&mut random, LENGTH);
            image[EFS + 0x14..EFS + 0x18].copy_from_slice(&value.to_le_bytes());
        }
        if random.once_in(16) {
            // The window moves with the end, and a directory may be cut off.
            let cut = random.one_of(&[0, 1, LEVEL_ONE + 20, LENGTH - 1]);
            image.truncate(cut);
        }
        let whence = format!("seed {seed}, trial {trial}");
        let told = directories_by_both(&image);
        most = most.max(told[0].as_ref().map_or(0, |values| values.len() / 4));
        directories.note(told, &whence);
        for _ in 0..4 {
            let place = random_place(&mut random);
            let told = entries_by_both(&image, place);
            parts.extend(part_numbers(&told[0]));
            entries.note(told, &format!("{whence}, place {place:#x}"));
        }
    }
    directories.hold(&[0, 1, 2, 3, 4, 5, 7, 8, 14, 15, 16, 18]);
    entries.hold(&[0, 1, 2, 3, 4, 5, 7, 14, 15, 18]);
    assert_eq!(parts, BTreeSet::from([0, 7, 16, 17]));
    assert!(most > 8, "no image had more than {most} directories");
}

#[test]
fn both_tell_the_same_directories_and_entries_of_every_recorded_image() {
    let (mut directories, mut entries) = (Seen::default(), Seen::default());
    recorded_images(|image, whence| {
        directories.note(directories_by_both(image), whence);
        // Where a level begins, as far as it is known, and where none does.
        let pointer = bindings::pointer(image).map_or(0, |pointer| pointer.place);
        let two = bindings::view(image, 2).unwrap_or(1);
        for place in [pointer, two, image.len() as u64 / 2, image.len() as u64 + 1] {
            let whence = format!("{whence}, place {place:#x}");
            entries.note(entries_by_both(image, place), &whence);
        }
    });
    directories.hold_at_least(&[0, 1, 2, 3, 4, 5, 7, 8, 14, 15, 16, 18]);
    entries.hold_at_least(&[0, 1, 2, 3, 4, 5, 7, 15, 18]);
}

// ---- the place of every refusal, and what is wrong there

fn directory_by_both(image: &[u8], level: u32) -> [Told; 2] {
    [
        by_library(bindings::directory(image, level), |found| {
            vec![found.place, found.level, found.total]
        }),
        by_second(second::flash::directory(image, level), |found| {
            directory_values(&found)
        }),
    ]
}

/// An entry of both programs, from their calls on a level or on a view.
fn entry_of_both(
    library: bindings::Answer<bindings::Entry>,
    second: Result<second::flash::Entry, second::refusal::Refusal>,
) -> [Told; 2] {
    [
        by_library(library, |entry| {
            let pair = [entry.class, entry.subprogram];
            [&pair[..], &[entry.size, entry.location, entry.mode]].concat()
        }),
        by_second(second, |entry| {
            let pair = [entry.kind, entry.subprogram].map(u64::from);
            let others = [entry.size.into(), entry.location, entry.mode.into()];
            [&pair[..], &others].concat()
        }),
    ]
}

fn part_of_both(
    library: bindings::Answer<bindings::Part>,
    second: Result<second::flash::Part, second::refusal::Refusal>,
) -> [Told; 2] {
    [
        by_library(library, |part| vec![part.place, part.length]),
        by_second(second, |part| vec![part.place, part.length]),
    ]
}

fn find_by_both(image: &[u8], level: u32, (class, subprogram): (u8, u8)) -> [Told; 2] {
    [
        by_library(bindings::find(image, level, class, subprogram), |found| {
            vec![found.index, found.tested]
        }),
        by_second(
            second::flash::find(image, level, class, subprogram),
            |found| vec![found.index, found.tested],
        ),
    ]
}

fn find_image_by_both(image: &[u8], (class, subprogram): (u8, u8)) -> [Told; 2] {
    [
        by_library(bindings::find_image(image, class, subprogram), |found| {
            vec![found.place, found.level, found.index, found.tested]
        }),
        by_second(
            second::flash::find_image(image, class, subprogram),
            |found| {
                let level = found.level.number().into();
                vec![found.place, level, found.index, found.tested]
            },
        ),
    ]
}

fn view_by_both(image: &[u8], level: u32) -> [Told; 2] {
    [
        by_library(bindings::view(image, level), |place| vec![place]),
        by_second(second::flash::View::of(image, level), |view| {
            vec![view.place]
        }),
    ]
}

/// Extends the directory at the start of a copy of these bytes. Both leave the same bytes, too.
fn extend_by_both(bytes: &[u8], new: &Entry, mode: u32) -> [Told; 2] {
    let [mut library, mut second] = [bytes.to_vec(), bytes.to_vec()];
    let (location, size) = (new.word % (1 << 62), new.size);
    let (class, subprogram) = new.pair();
    let by_bindings = bindings::NewEntry {
        class,
        subprogram,
        size,
        location,
        mode,
    };
    let by_other = second::flash::Entry {
        kind: class,
        subprogram,
        size,
        location,
        mode,
    };
    let answers = [
        by_library(bindings::extend(&mut library, &by_bindings), |total| {
            vec![total]
        }),
        by_second(second::flash::extend(&mut second, &by_other), |total| {
            vec![total.into()]
        }),
    ];
    assert!(library == second, "the bytes differ after an extend");
    answers
}

fn wrong_by_both(image: &[u8], level: u32, index: Option<u64>, directory: u64) -> [Told; 2] {
    let place = Place {
        level: level.into(),
        index,
        directory,
    };
    // The index has no part in what is wrong in a header.
    let index = index.unwrap_or(0);
    [
        by_library(bindings::wrong(image, place), |wrong| {
            let field = [wrong.number, wrong.field, wrong.bytes];
            [&field[..], &[wrong.stands, wrong.should]].concat()
        }),
        by_second(
            second::flash::wrong(image, directory, level, index),
            |wrong| {
                let field = [wrong.number.into(), wrong.field, wrong.bytes];
                [&field[..], &[wrong.stands, wrong.should]].concat()
            },
        ),
    ]
}

/// What a refusal was met in.
#[derive(Clone, Copy, Debug, PartialEq, Eq, PartialOrd, Ord)]
enum MetIn {
    Nothing,
    Header,
    Entry,
}
use MetIn::{Entry as InEntry, Header as InHeader, Nothing};

/// What came of each call: its numbers, each with what it was met in.
#[derive(Default)]
struct Places {
    calls: BTreeMap<&'static str, BTreeSet<(MetIn, u64)>>,
    /// Of the places that were asked what is wrong there: the numbers, and how far from its directory the field begins, in an entry
    /// how far from the entry.
    fields: BTreeSet<(MetIn, u64, u64)>,
}

impl Places {
    /// Holds two answers to be one. Where they carry a place, both tell the same of what is wrong there, and of that number.
    fn note(&mut self, call: &'static str, image: &[u8], answers: [Told; 2], whence: &str) {
        let [library, second] = answers;
        assert_eq!(
            library, second,
            "library and second program, {whence}, {call}"
        );
        let no = match library {
            Ok(_) => return,
            Err(no) => no,
        };
        let met_in = match no.place {
            None => Nothing,
            Some(Place { index: None, .. }) => InHeader,
            Some(Place { index: Some(_), .. }) => InEntry,
        };
        let numbers = self.calls.entry(call).or_default();
        numbers.insert((met_in, no.number));
        if let Some(place) = no.place {
            let (level, index) = (place.level as u32, place.index);
            let [library, second] = wrong_by_both(image, level, index, place.directory);
            assert_eq!(library, second, "{whence}, {call}: what is wrong there");
            // A buffer that is extended may be none that is an image.
            if image.is_empty() {
                assert_eq!(library, refused(Refusal::IMAGE), "{whence}");
                return;
            }
            let told = library.expect("a place that is carried has something wrong");
            assert_eq!(told[0], no.number, "{whence}, {call}: another number");
            let begin = place.directory + index.map_or(0, |index| 16 + 16 * index);
            self.fields.insert((met_in, no.number, told[1] - begin));
        }
    }

    /// What came of a call is exactly this: numbers met in nothing, in a header and in an entry.
    fn hold(&self, call: &str, nothing: &[u64], header: &[u64], entry: &[u64]) {
        let due = [(Nothing, nothing), (InHeader, header), (InEntry, entry)];
        let due = due.into_iter().flat_map(|(met_in, numbers)| {
            let numbers = numbers.iter();
            numbers.map(move |number| (met_in, *number))
        });
        assert_eq!(self.calls[call], due.collect(), "{call}");
    }

    /// Every field that can be wrong has been.
    fn hold_every_field(&self) {
        let header = [(1, 0), (1, 16), (2, 0), (3, 8), (4, 4), (5, 12)];
        let entry = [(5, 2), (14, 0), (18, 0), (17, 0), (16, 8), (7, 8)];
        let header = header
            .into_iter()
            .map(|(number, at)| (InHeader, number, at));
        let entry = entry.into_iter().map(|(number, at)| (InEntry, number, at));
        assert_eq!(self.fields, header.chain(entry).collect());
    }

    /// Every call on an image.
    fn ask(
        &mut self,
        image: &[u8],
        level: u32,
        place: u64,
        index: u64,
        pair: (u8, u8),
        whence: &str,
    ) {
        let view = second::flash::View { image, place };
        let (at, i) = (place as usize, index as usize);
        let calls = [
            ("directory", directory_by_both(image, level)),
            ("repeated", repeated_by_both(image, level)),
            (
                "entry",
                entry_of_both(
                    bindings::entry(image, level, i),
                    second::flash::entry(image, level, index),
                ),
            ),
            (
                "bytes",
                part_of_both(
                    bindings::part(image, level, i),
                    second::flash::bytes(image, level, index),
                ),
            ),
            ("find", find_by_both(image, level, pair)),
            ("find-image", find_image_by_both(image, pair)),
            ("directories", directories_by_both(image)),
            ("version", entry_version_by_both(image, level, index)),
            ("view", view_by_both(image, level)),
            (
                "view-entry",
                entry_of_both(bindings::view_entry(image, at, i), view.entry(index)),
            ),
            (
                "view-bytes",
                part_of_both(bindings::view_part(image, at, i), view.bytes(index)),
            ),
            ("entries", entries_by_both(image, place)),
            ("view-version", view_version_by_both(image, place, index)),
        ];
        for (call, answers) in calls {
            self.note(call, image, answers, whence);
        }
    }
}

/// An image whose directories are often broken, and whose pointer may lead to the image's end or out of it.
fn random_faulty_image(random: &mut Random) -> Vec<u8> {
    let mut one = random_level_one(random);
    if random.once_in(8) {
        // The first lead decides of level two.
        if let Some(lead) = one.entries.iter_mut().find(|entry| entry.class == LEAD) {
            lead.word = (LENGTH as u64 + 1) | 1 << 62;
        }
    }
    if random.once_in(5) {
        one.break_one(random);
    }
    let two = [(); 3].map(|()| {
        let mut two = random_level_two(random);
        if random.once_in(3) {
            two.break_one(random);
        }
        two
    });
    let beginning = one.bytes();
    let mut image = image_of_levels(one, &two);
    let point = |image: &mut Vec<u8>, value: u32| {
        image[EFS + 0x14..EFS + 0x18].copy_from_slice(&value.to_le_bytes());
    };
    match random.below(16) {
        0 => point(&mut image, pointer_value(random, LENGTH)),
        // The header or the entries are cut off.
        1 | 2 => {
            let back = random.one_of(&[8, 16, 24, 32]).min(beginning.len());
            let place = LENGTH - back;
            image[place..].copy_from_slice(&beginning[..back]);
            point(&mut image, place as u32);
        }
        // The window moves with the end.
        3 => image.truncate(random.one_of(&[0, 1, LEVEL_ONE + 20, LENGTH - 1])),
        _ => (),
    }
    image
}

/// The numbers of a header, and of an entry by itself.
const HEADER_NUMBERS: [u64; 5] = [1, 2, 3, 4, 5];
const ENTRY_NUMBERS: [u64; 3] = [5, 14, 18];

#[test]
fn both_carry_the_same_places_on_random_boards() {
    let seed = seed_for("the places of refusals");
    let mut random = Random::from_seed(seed);
    let mut places = Places::default();
    for trial in 0..TRIALS / 4 {
        let image = random_faulty_image(&mut random);
        for level in [1, 2, 2, random.one_of(&[0, 3, u32::MAX])] {
            let place = random_place(&mut random);
            let index = random.one_of(&[0, 0, 1, 2, 5, 39, 511, 1 << 32, u64::MAX]);
            let pair = (random.one_of(&CLASSES), random.one_of(&SUBPROGRAMS));
            let whence = format!(
                "seed {seed}, trial {trial}, level {level}, place {place:#x}, index {index}"
            );
            places.ask(&image, level, place, index, pair, &whence);
        }
    }
    let of_level = [5, 7, 14, 16, 18];
    let of_bytes = [5, 7, 14, 16, 17, 18];
    for call in ["directory", "repeated", "entry", "find", "view"] {
        places.hold(call, &[2, 7, 8, 9, 15], &HEADER_NUMBERS, &of_level);
    }
    places.hold("bytes", &[2, 7, 8, 9, 15], &HEADER_NUMBERS, &of_bytes);
    // The bytes of an entry are too few for a version, or lack its mark.
    places.hold("version", &[1, 2, 7, 8, 9, 15], &HEADER_NUMBERS, &of_bytes);
    for call in ["find-image", "directories"] {
        places.hold(call, &[2, 7, 8, 15], &HEADER_NUMBERS, &of_level);
    }
    places.hold("view-entry", &[7, 8, 15], &HEADER_NUMBERS, &ENTRY_NUMBERS);
    places.hold("entries", &[7, 15], &HEADER_NUMBERS, &ENTRY_NUMBERS);
    places.hold("view-bytes", &[7, 8, 15], &HEADER_NUMBERS, &of_bytes);
    let nothing = [1, 2, 7, 8, 15];
    places.hold("view-version", &nothing, &HEADER_NUMBERS, &of_bytes);
    places.hold_every_field();
}

#[test]
fn both_carry_the_same_places_of_a_buffer_that_is_extended() {
    let seed = seed_for("the places of an extend");
    let mut random = Random::from_seed(seed);
    let mut places = Places::default();
    for trial in 0..TRIALS {
        let level = random.one_of(&[1, 2]);
        let total = random.one_of(&[0, 1, 2, 5, 512]);
        let mut entries: Vec<Entry> = (0..total).map(|_| random_row(&mut random)).collect();
        tell_apart(&mut random, &mut entries);
        let mut directory = Directory::of(level, entries);
        if random.once_in(2) {
            directory.break_one(&mut random);
        }
        let mut bytes = directory.bytes();
        match random.below(8) {
            0 => bytes.truncate(random.below(bytes.len() as u64 + 1) as usize),
            _ => bytes.resize(bytes.len() + random.one_of(&[0, 15, 16, 17, 32]), 0xEE),
        }
        let new = entry(
            random.one_of(&CLASSES),
            random.one_of(&SUBPROGRAMS),
            random.number() as u32,
            random.number() >> 2,
            0,
        );
        let mode = random.one_of(&[0, 1, 2, 3, 3, 4, u32::MAX]);
        let whence = format!("seed {seed}, trial {trial}");
        let answers = extend_by_both(&bytes, &new, mode);
        places.note("extend", &bytes, answers, &whence);
    }
    let new_entry = [3, 5, 12, 14, 18];
    places.hold("extend", &new_entry, &HEADER_NUMBERS, &ENTRY_NUMBERS);
}

#[test]
fn both_carry_the_same_places_on_every_recorded_image() {
    let mut places = Places::default();
    recorded_images(|image, whence| {
        let pointer = bindings::pointer(image).map_or(0, |pointer| pointer.place);
        let two = bindings::view(image, 2).unwrap_or(1);
        for (level, place) in [(1, pointer), (2, two), (3, image.len() as u64 + 1)] {
            for index in 0..4 {
                let whence = format!("{whence}, level {level}, place {place:#x}, index {index}");
                places.ask(image, level, place, index, (0x99, 0x99), &whence);
            }
        }
    });
    // A recorded image for each number of each kind.
    let due = [
        (InHeader, &HEADER_NUMBERS[..]),
        (InEntry, &[5, 7, 14, 16, 18]),
        (Nothing, &[2, 7, 8, 9, 15]),
    ];
    for (met_in, numbers) in due {
        for number in numbers {
            let seen = places.calls["directory"].contains(&(met_in, *number));
            assert!(seen, "{number}, met in {met_in:?}, did not come");
        }
    }
}

/// Both programs tell this of a place: number, field, bytes, what stands there and what should.
#[track_caller]
fn both_tell_wrong(image: &[u8], (level, index, place): (u32, Option<u64>, usize), due: [u64; 5]) {
    let expected = Ok(due.to_vec());
    let told = wrong_by_both(image, level, index, place as u64);
    assert_eq!(told, [expected.clone(), expected]);
}

#[test]
fn both_tell_what_is_wrong_in_a_header() {
    for (level, place, cookie) in [(1, LEVEL_ONE, b"$PSP"), (2, LEVEL_TWO, b"$PL2")] {
        let right = u64::from(u32::from_le_bytes(*cookie));
        let at = place as u64;
        let changed = |change: &dyn Fn(&mut Directory)| {
            Board::with(|board| change(directory_of(board, level)))
        };
        let header = (level, None, place);
        let image = changed(&|one| one.cookie = *b"$BHD");
        both_tell_wrong(&image, header, [2, at, 4, 0x4448_4224, right]);
        // By the cookie, which is neither, level one's should stand there.
        let by_cookie = (0, None, place);
        both_tell_wrong(&image, by_cookie, [2, at, 4, 0x4448_4224, 0x5053_5024]);
        for total in [513, u32::MAX] {
            let image = changed(&|one| one.total = total);
            both_tell_wrong(&image, header, [3, at + 8, 4, total.into(), 512]);
        }
        let image = changed(&|one| one.reserved = 0x8000_0000);
        both_tell_wrong(&image, header, [5, at + 12, 4, 0x8000_0000, 0]);
        let good = Board::with(|_| ());
        let sum = &good[place + 4..place + 8];
        let sum = u32::from_le_bytes([sum[0], sum[1], sum[2], sum[3]]);
        let image = changed(&|one| one.wrong = 1);
        let stands = u64::from(sum ^ 1);
        both_tell_wrong(&image, header, [4, at + 4, 4, stands, sum.into()]);
        // Of a header that is cut, and of entries that are.
        for there in [0, 1, 15] {
            let image = &good[..place + there];
            let short = [1, at, 16, there as u64, 16];
            both_tell_wrong(image, header, short);
            both_tell_wrong(image, by_cookie, short);
        }
        let size = if level == 1 { 5 * 16 } else { 4 * 16 };
        for there in [0, 1, size - 1] {
            let image = &good[..place + 16 + there];
            let short = [1, at + 16, size as u64, there as u64, size as u64];
            both_tell_wrong(image, header, short);
            both_tell_wrong(image, by_cookie, short);
        }
        let whole = &good[..place + 16 + size];
        let nothing = wrong_by_both(whole, level, Some(512), at);
        assert_eq!(nothing, [refused(8), refused(8)]);
    }
}

#[test]
fn both_tell_what_is_wrong_in_an_entry() {
    for (level, place) in [(1, LEVEL_ONE), (2, LEVEL_TWO)] {
        let changed = |change: &dyn Fn(&mut Vec<Entry>)| {
            Board::with(|board| change(&mut directory_of(board, level).entries))
        };
        let asked = |index| (level, Some(index), place);
        let at = |index: u64| place as u64 + 16 + 16 * index;
        for flags in [1, 0x8000, 0xFFFF] {
            let image = changed(&|entries| entries[3].reserved = flags);
            both_tell_wrong(&image, asked(3), [5, at(3) + 2, 2, flags.into(), 0]);
            // Whichever entry is asked for.
            both_tell_wrong(&image, asked(0), [5, at(3) + 2, 2, flags.into(), 0]);
        }
        let image = changed(&|entries| {
            entries[2] = entry(0x77, 7, 0, 0, 1);
            entries[1] = entry(0x77, 7, 1, 1, 1);
        });
        both_tell_wrong(&image, asked(2), [18, at(2), 1, 0x77, 1]);
        let image = changed(&|entries| entries[0] = entry(0x0B, 7, 0, 0, 3));
        both_tell_wrong(&image, asked(0), [17, at(0), 1, 0x0B, 0x0B]);
        let image = changed(&|entries| entries[0] = entry(0x77, 7, 0, 0, 3));
        both_tell_wrong(&image, asked(0), [16, at(0) + 8, 8, 3, 2]);
        let end = LENGTH as u64;
        for (size, location, mode) in [
            (0, end + 1, 1),
            (1, end, 1),
            (0x100, end - 0xFF, 1),
            (u32::MAX, 0, 1),
            (0, WINDOW - 1, 0),
            (0, 1 << 32, 0),
            (2, 0xFFFF_FFFF, 0),
            (0, end - place as u64 + 1, 2),
            (0, (1 << 62) - 1, 2),
        ] {
            let image = changed(&|entries| entries[0] = entry(0x77, 7, size, location, mode));
            both_tell_wrong(&image, asked(0), [7, at(0) + 8, 8, location, end]);
        }
        for (size, location, mode) in [
            (0, end, 1),
            (0x100, end - 0x100, 1),
            (1, 0xFFFF_FFFF, 0),
            (0, WINDOW, 0),
            (0, end - place as u64, 2),
        ] {
            let image = changed(&|entries| entries[0] = entry(0x77, 7, size, location, mode));
            let nothing = wrong_by_both(&image, level, Some(0), place as u64);
            assert_eq!(nothing, [refused(8), refused(8)], "{location:#x}");
        }
    }
    let misplaced = Board::with(|board| board.two.entries[1].class = LEAD);
    let at = LEVEL_TWO as u64 + 16 + 16;
    both_tell_wrong(&misplaced, (2, Some(1), LEVEL_TWO), [14, at, 1, 0x40, 1]);
}

#[test]
fn both_tell_the_same_of_places_that_no_refusal_carried() {
    let seed = seed_for("what is wrong at any place");
    let mut random = Random::from_seed(seed);
    let mut seen = Seen::default();
    for trial in 0..TRIALS / 4 {
        let image = random_faulty_image(&mut random);
        for _ in 0..8 {
            let place = random_place(&mut random);
            let level = random.one_of(&[0, 0, 1, 1, 2, 2, 3, u32::MAX]);
            let index = random.one_of(&[0, 1, 2, 5, 39, 511, 512, 1 << 32, u64::MAX]);
            let whence = format!(
                "seed {seed}, trial {trial}, place {place:#x}, level {level}, index {index}"
            );
            let answers = wrong_by_both(&image, level, Some(index), place);
            let alone = answers[0].as_ref().err().map(|no| no.place.is_none());
            assert_ne!(alone, Some(false), "a place is carried, {whence}");
            seen.note(answers, &whence);
        }
    }
    seen.hold(&[0, 7, 8, 9, 15]);
}
