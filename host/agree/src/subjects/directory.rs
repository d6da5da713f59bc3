//! Directories for random images: right ones, and what breaks them. The checksum is this file's own.

use crate::random::Random;
use std::collections::BTreeSet;

/// The type that leads to level two, and the type that holds a value.
pub const LEAD: u8 = 0x40;
pub const VALUE: u8 = 0x0B;

/// Types and subprograms that entries have and lookups ask for: few, so that they meet. Two types differ in their highest bit alone.
pub const CLASSES: [u8; 9] = [0x00, 0x01, 0x02, 0x08, VALUE, 0x12, LEAD, 0x82, 0xFF];
pub const SUBPROGRAMS: [u8; 4] = [0, 0, 1, 0xFF];

/// A type and a subprogram.
pub type Pair = (u8, u8);

/// An entry.
#[derive(Clone, Debug, PartialEq, Eq)]
pub struct Entry {
    pub class: u8,
    pub subprogram: u8,
    pub reserved: u16,
    pub size: u32,
    /// The location in the low 62 bits, the mode in the top two.
    pub word: u64,
}

impl Entry {
    pub fn pair(&self) -> Pair {
        (self.class, self.subprogram)
    }

    fn set_pair(&mut self, (class, subprogram): Pair) {
        self.class = class;
        self.subprogram = subprogram;
    }

    pub fn bytes(&self) -> Vec<u8> {
        let mut bytes = vec![self.class, self.subprogram];
        bytes.extend(self.reserved.to_le_bytes());
        bytes.extend(self.size.to_le_bytes());
        bytes.extend(self.word.to_le_bytes());
        bytes
    }
}

/// A pair that is not taken: of the type wanted while it has a subprogram left, which only a lead of the largest directories lacks.
pub fn free_pair((class, subprogram): Pair, taken: &BTreeSet<Pair>) -> Pair {
    // No other type becomes a lead, which level two may not have.
    let types = (0..=255)
        .map(|step| class.wrapping_add(step))
        .filter(|other| *other == class || *other != LEAD);
    let pairs = types.flat_map(|class| {
        let subprograms = (0..=255).map(move |step| subprogram.wrapping_add(step));
        subprograms.map(move |subprogram| (class, subprogram))
    });
    let mut free = pairs.filter(|pair| !taken.contains(pair));
    free.next().expect("no directory has so many entries")
}

/// Makes entries differ in type and subprogram, mostly. Then two are the same in some directories. A few are left as they fell, and of
/// their entries many repeat.
pub fn tell_apart(random: &mut Random, entries: &mut [Entry]) {
    if random.once_in(30) {
        return;
    }
    let mut taken = BTreeSet::new();
    for entry in entries.iter_mut() {
        entry.set_pair(free_pair(entry.pair(), &taken));
        taken.insert(entry.pair());
    }
    if random.once_in(24) {
        repeat_one(random, entries);
    }
}

/// Gives an entry the type and subprogram of an earlier one, where there are two: often the first, the last, or neighbours.
fn repeat_one(random: &mut Random, entries: &mut [Entry]) {
    if entries.len() < 2 {
        return;
    }
    let last = entries.len() as u64 - 1;
    let later = match random.below(3) {
        0 => last,
        _ => 1 + random.below(last),
    };
    let earlier = match random.below(3) {
        0 => 0,
        1 => later - 1,
        _ => random.below(later),
    };
    let pair = entries[earlier as usize].pair();
    let entry = &mut entries[later as usize];
    entry.set_pair(pair);
    // Reserved bits of the same entry come before it.
    entry.reserved |= u16::from(random.once_in(8));
}

/// A directory, its header field by field.
#[derive(Clone, Debug, PartialEq, Eq)]
pub struct Directory {
    pub cookie: [u8; 4],
    pub total: u32,
    pub reserved: u32,
    pub entries: Vec<Entry>,
    /// Added to the right checksum, bit by bit; 0 leaves it right.
    pub wrong: u32,
}

impl Directory {
    /// A directory of a level that keeps to the rules, if its entries do.
    pub fn of(level: u32, entries: Vec<Entry>) -> Directory {
        Directory {
            cookie: cookie(level),
            total: entries.len() as u32,
            reserved: 0,
            entries,
            wrong: 0,
        }
    }

    /// All its bytes, with the checksum that its total asks for.
    pub fn bytes(&self) -> Vec<u8> {
        let mut summed = self.total.to_le_bytes().to_vec();
        summed.extend(self.reserved.to_le_bytes());
        summed.extend(self.entries.iter().flat_map(Entry::bytes));
        let mut counted = summed.clone();
        // Where the total says more or fewer entries than there are, zero bytes are taken to follow.
        counted.resize(8 + 16 * self.total.min(1024) as usize, 0);
        let sum = checksum(&counted) ^ self.wrong;
        [&self.cookie[..], &sum.to_le_bytes(), &summed].concat()
    }

    /// Breaks one thing. The checksum stays right, but where it is what breaks.
    pub fn break_one(&mut self, random: &mut Random) {
        let last = self.entries.len() as u64;
        let entry = match last {
            0 => None,
            _ => Some(random.below(last) as usize),
        };
        match (random.below(11), entry) {
            (0, _) => {
                let other = cookie(3 - level_of(&self.cookie));
                let strange = [b'$', b'B', b'H', b'D'];
                self.cookie = random.one_of(&[other, other, strange, [0; 4]]);
            }
            (1, _) => {
                let total = self.total;
                let near = [total.wrapping_sub(1), total.wrapping_add(1)];
                self.total = random.one_of(&[near[0], near[1], 512, 513, 0xFFFF, u32::MAX]);
            }
            (2, _) => self.wrong = 1 << random.below(32),
            (3, _) => self.reserved = 1 << random.below(32),
            (4, Some(at)) => self.entries[at].reserved = 1 << random.below(16),
            (5 | 6, Some(at)) => {
                self.entries[at].class = LEAD;
                self.entries[at].reserved |= u16::from(random.once_in(4));
            }
            (7 | 8, Some(_)) => self.zero_a_half(random),
            (9, Some(_)) if last > 1 => repeat_one(random, &mut self.entries),
            _ => self.wrong = random.number() as u32,
        }
    }

    /// Breaks one of the checks that come behind the directory's length, each as often as another. There are two entries or more.
    pub fn break_check(&mut self, random: &mut Random) {
        let at = random.below(self.entries.len() as u64) as usize;
        match random.below(7) {
            0 => {
                let other = cookie(3 - level_of(&self.cookie));
                self.cookie = random.one_of(&[other, *b"$BHD", [0; 4]]);
            }
            1 => self.total = random.one_of(&[513, 0xFFFF, u32::MAX]),
            2 => self.wrong = 1 << random.below(32),
            3 => self.reserved = 1 << random.below(32),
            4 => self.entries[at].reserved = 1 << random.below(16),
            5 => {
                // In level one it is another that leads somewhere.
                self.entries[at].class = LEAD;
                self.entries[at].reserved |= u16::from(random.once_in(4));
            }
            _ => repeat_one(random, &mut self.entries),
        }
    }

    /// Makes a half of the right checksum 65,535, and once in two times writes 0 in its place, which is never right.
    fn zero_a_half(&mut self, random: &mut Random) {
        let high = random.once_in(2);
        let count = self.entries.len();
        if let Some(entry) = self.entries.last_mut() {
            // The last 16-bit word counts once in either half.
            entry.word &= 0x0000_FFFF_FFFF_FFFF;
            self.total = count as u32;
            let bytes = self.bytes();
            let sum = checksum(&bytes[8..]);
            let half = if high { sum >> 16 } else { sum & 0xFFFF };
            if let Some(entry) = self.entries.last_mut() {
                entry.word |= u64::from(65_535 - half) << 48;
            }
        }
        if random.once_in(2) {
            self.wrong = if high { 0xFFFF_0000 } else { 0x0000_FFFF };
        }
    }
}

/// Gives the bytes of a directory the checksum that their total asks for, if it has a sense.
pub fn repair(bytes: &mut [u8]) {
    if bytes.len() < 16 {
        return;
    }
    let total = u32::from_le_bytes([bytes[8], bytes[9], bytes[10], bytes[11]]);
    let end = 16 + 16 * total.min(1024) as usize;
    let sum = checksum(&bytes[8..end.min(bytes.len())]);
    bytes[4..8].copy_from_slice(&sum.to_le_bytes());
}

/// The cookie of a level.
pub fn cookie(level: u32) -> [u8; 4] {
    match level {
        1 => *b"$PSP",
        _ => *b"$PL2",
    }
}

fn level_of(cookie: &[u8; 4]) -> u32 {
    match cookie {
        b"$PSP" => 1,
        _ => 2,
    }
}

/// Fletcher's 32-bit sum: the second half adds up what the first half is after each word.
pub fn checksum(bytes: &[u8]) -> u32 {
    let (mut sum, mut sums) = (0u32, 0u32);
    for pair in bytes.chunks_exact(2) {
        let word = u16::from_le_bytes([pair[0], pair[1]]);
        sum = (sum + u32::from(word)) % 65_535;
        sums = (sums + sum) % 65_535;
    }
    let written = |half: u32| if half == 0 { 65_535 } else { half };
    written(sums) << 16 | written(sum)
}

#[cfg(test)]
mod tests {
    use super::*;

    fn entry() -> Entry {
        entry_of(1, 0)
    }

    fn entry_of(class: u8, subprogram: u8) -> Entry {
        Entry {
            class,
            subprogram,
            reserved: 0,
            size: 0x100,
            word: 0x4000_0000_0000_1000,
        }
    }

    #[test]
    fn the_checksum_has_values_m1_and_m2() {
        let sum = |directory: &Directory| directory.bytes()[4..8].to_vec();
        let empty = Directory::of(1, Vec::new());
        assert_eq!(sum(&empty), 0xFFFF_FFFFu32.to_le_bytes());
        let one = Directory::of(2, vec![entry()]);
        assert_eq!(sum(&one), 0x8614_5102u32.to_le_bytes());
        assert_eq!(one.bytes()[..4], *b"$PL2");
        assert_eq!(one.bytes().len(), 32);
    }

    #[test]
    fn a_repaired_directory_has_the_right_checksum() {
        let mut directory = Directory::of(1, vec![entry(), entry()]);
        let good = directory.bytes();
        directory.wrong = 0x8000_0001;
        let mut bytes = directory.bytes();
        assert_ne!(bytes, good);
        repair(&mut bytes);
        assert_eq!(bytes, good);
    }

    /// How many entries have the type and subprogram of an earlier one.
    fn repeats(entries: &[Entry]) -> usize {
        let different: BTreeSet<Pair> = entries.iter().map(Entry::pair).collect();
        entries.len() - different.len()
    }

    #[test]
    fn entries_mostly_differ_and_seldom_one_repeats_and_more_seldom_many() {
        for amount in [5, 60] {
            let (mut none, mut one, mut many) = (0, 0, 0);
            for seed in 0..400 {
                let mut entries = vec![entry(); amount];
                tell_apart(&mut Random::from_seed(seed), &mut entries);
                match repeats(&entries) {
                    0 => none += 1,
                    1 => one += 1,
                    _ => many += 1,
                }
            }
            assert!(none > 320, "{none} of 400 directories have no repeat");
            assert!(one > 8, "{one} have one");
            assert!(many > 5, "{many} have many");
        }
    }

    #[test]
    fn a_directory_of_leads_keeps_as_many_of_them_as_there_are_subprograms() {
        let mut entries = vec![entry_of(LEAD, 7); 512];
        let seed = (0..).find(|seed| {
            tell_apart(&mut Random::from_seed(*seed), &mut entries);
            repeats(&entries) == 0
        });
        assert!(seed.is_some());
        let leads = entries.iter().filter(|entry| entry.class == LEAD).count();
        assert_eq!(leads, 256);
    }

    #[test]
    fn what_is_not_a_lead_does_not_become_one() {
        // All of 0x3F are taken, and the type above it is the lead's.
        let taken: BTreeSet<Pair> = (0..=255).map(|subprogram| (0x3F, subprogram)).collect();
        assert_eq!(free_pair((0x3F, 9), &taken), (0x41, 9));
        assert_eq!(free_pair((LEAD, 9), &taken), (LEAD, 9));
        assert_eq!(free_pair((2, 9), &taken), (2, 9));
    }

    #[test]
    fn an_entry_is_made_to_repeat_first_and_last_and_any_other() {
        let mut seen = BTreeSet::new();
        for seed in 0..400 {
            let mut entries: Vec<Entry> =
                (0..4).map(|subprogram| entry_of(1, subprogram)).collect();
            repeat_one(&mut Random::from_seed(seed), &mut entries);
            assert_eq!(repeats(&entries), 1, "seed {seed}");
            let later = (0..4).find(|k| usize::from(entries[*k].subprogram) != *k);
            let later = later.expect("one entry has changed");
            seen.insert((entries[later].subprogram, later));
        }
        // Every earlier with every later.
        assert_eq!(seen.len(), 6, "{seen:?}");
        repeat_one(&mut Random::from_seed(1), &mut [entry()]);
        repeat_one(&mut Random::from_seed(1), &mut []);
    }

    #[test]
    fn a_half_can_be_made_65535() {
        let mut halves = [0; 2];
        for seed in 0..40 {
            let mut directory = Directory::of(1, vec![entry(), entry()]);
            directory.zero_a_half(&mut Random::from_seed(seed));
            directory.wrong = 0;
            let sum = checksum(&directory.bytes()[8..]);
            halves[0] += u32::from(sum & 0xFFFF == 0xFFFF);
            halves[1] += u32::from(sum >> 16 == 0xFFFF);
        }
        assert!(halves.iter().all(|count| *count > 10), "{halves:?}");
        assert_eq!(halves.iter().sum::<u32>(), 40);
    }

    #[test]
    fn every_check_is_broken_and_nothing_beside_it() {
        let good = Directory::of(2, vec![entry_of(1, 0), entry_of(1, 1), entry_of(2, 0)]);
        let mut amounts = [0; 7];
        for seed in 0..350 {
            let mut bad = good.clone();
            bad.break_check(&mut Random::from_seed(seed));
            let reserved = bad.entries.iter().any(|entry| entry.reserved != 0);
            let broken = [
                bad.cookie != good.cookie,
                bad.total > 512,
                bad.wrong != 0,
                bad.reserved != 0,
                reserved,
                bad.entries.iter().any(|entry| entry.class == LEAD),
                repeats(&bad.entries) > 0,
            ];
            for (amount, broken) in amounts.iter_mut().zip(broken) {
                *amount += u32::from(broken);
            }
            // An entry that is a lead, or repeats, may have reserved bits as well.
            let together = broken.iter().filter(|broken| **broken).count();
            assert!(together == 1 || (together == 2 && broken[4] && (broken[5] || broken[6])));
        }
        assert!(amounts.iter().all(|amount| *amount > 25), "{amounts:?}");
    }

    #[test]
    fn what_is_broken_differs() {
        for seed in 0..200 {
            let good = Directory::of(2, vec![entry_of(1, 0), entry_of(1, 1)]);
            let mut bad = good.clone();
            bad.break_one(&mut Random::from_seed(seed));
            assert_ne!(good, bad, "seed {seed}");
        }
    }
}
