//! Random calls that write directories, with a digest around each: what is refused must change nothing.

use super::damage::scatter;
use super::directory::{
    free_pair, repair, tell_apart, Directory, Entry, Pair, CLASSES, SUBPROGRAMS,
};
use super::draft::Draft;
use super::words::{hex, number};
use super::{Script, Subject};
use crate::random::Random;
use std::collections::BTreeSet;

pub const SUBJECT: Subject = Subject {
    name: "build",
    script,
};

/// The bytes of a directory with as many entries as it may have.
const LARGEST: u64 = 16 + 16 * 512;

fn script(random: &mut Random, calls: u64) -> Script {
    let mut draft = Draft::default();
    while draft.len() < calls {
        let (mut there, broken) = prepare(random, &mut draft);
        let calls = match broken {
            // They all meet the same.
            true => 1 + random.below(3),
            false => 2 + random.below(10),
        };
        for _ in 0..calls {
            draft.line("digest a");
            let call = match random.once_in(12) {
                // Over what is there, which may be a directory.
                true => format!("start a {}", level(random)),
                false => extend(random, &mut there),
            };
            draft.ask(random, call);
        }
        draft.line("digest a");
        draft.line("show a 0 16");
    }
    draft.script()
}

/// A buffer with a directory in it, started or given; mostly a good one. Gives the types and subprograms of its entries, and whether
/// something of it was broken.
fn prepare(random: &mut Random, draft: &mut Draft) -> (BTreeSet<Pair>, bool) {
    let entries = match random.below(7) {
        0 => 508 + random.below(6),
        1 => random.below(40),
        // Extends that pass 359 and 718 words, where the checksum is folded.
        2 => random.one_of(&[43, 44, 45, 88, 89, 90]),
        _ => random.below(5),
    };
    let room = match random.below(10) {
        0 => random.below(40),
        _ => 16 * (entries + random.below(8)) + random.one_of(&[15, 16, 16, 17, 31, 32]),
    };
    let room = room.min(LARGEST + 16);
    let filled = random.one_of(&[0, 0, 0xFF, 0xEE]);
    draft.line(format!("buffer a {} {filled}", number(random, room)));
    if random.once_in(2) {
        let call = format!("start a {}", level(random));
        draft.line("digest a");
        draft.ask(random, call);
        return (BTreeSet::new(), false);
    }
    let good = directory(random, entries);
    let mut directory = good.clone();
    match random.below(6) {
        0 if entries > 1 => directory.break_check(random),
        0 | 1 => directory.break_one(random),
        2 => {
            directory.break_one(random);
            directory.break_one(random);
        }
        _ => {}
    }
    let mut bytes = directory.bytes();
    let scattered = random.once_in(8);
    if scattered {
        scatter(random, &mut bytes);
        if random.once_in(2) {
            repair(&mut bytes);
        }
    }
    // Where the buffer is too short, so is what lies in it.
    bytes.truncate(room as usize);
    draft.line(format!("patch a 0 {}", hex(random, &bytes)));
    let there = directory.entries.iter().map(Entry::pair).collect();
    (there, scattered || directory != good)
}

/// A directory of either level with so many entries.
fn directory(random: &mut Random, entries: u64) -> Directory {
    let level = 1 + random.below(2) as u32;
    let full = random.once_in(4);
    let entry = |_| Entry {
        // 0x40 may stand in level one alone.
        class: random.one_of(&CLASSES) & if level == 1 { 0xFF } else { 0xBF },
        subprogram: random.one_of(&SUBPROGRAMS),
        reserved: 0,
        size: if full {
            u32::MAX
        } else {
            random.number() as u32
        },
        word: if full { u64::MAX } else { random.number() },
    };
    let mut entries: Vec<Entry> = (0..entries).map(entry).collect();
    tell_apart(random, &mut entries);
    Directory::of(level, entries)
}

fn level(random: &mut Random) -> String {
    let level = match random.below(8) {
        0 => random.one_of(&[0, 3, 256, 0xFFFF_FFFF, 0x1_0000_0001]),
        1..=4 => 1,
        _ => 2,
    };
    number(random, level)
}

/// A call that adds an entry, mostly one that may be added. It counts as being there from then on, also where it is refused.
fn extend(random: &mut Random, there: &mut BTreeSet<Pair>) -> String {
    let location = match random.below(6) {
        0 => random.one_of(&[1 << 62, (1 << 62) - 1, (1 << 62) + 1, u64::MAX, 1 << 63]),
        _ => random.number() >> (2 + random.below(62)),
    };
    let mode = match random.below(12) {
        0 => random.one_of(&[4, 5, 256, 0xFFFF_FFFF]),
        _ => random.below(4),
    };
    let (class, subprogram) = match there.len() as u64 {
        amount if amount > 0 && random.once_in(8) => {
            let pair = there.iter().nth(random.below(amount) as usize);
            *pair.expect("there are so many")
        }
        _ => {
            let wanted = (random.one_of(&CLASSES), random.one_of(&SUBPROGRAMS));
            free_pair(wanted, there)
        }
    };
    there.insert((class, subprogram));
    let size = random.number() as u32;
    let values = [
        u64::from(class),
        u64::from(subprogram),
        u64::from(size),
        location,
        mode,
    ];
    let words = values.map(|value| number(random, value));
    format!("extend a {}", words.join(" "))
}
