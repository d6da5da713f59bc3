//! Random GUID tables, good ones and broken ones, looked up and extended with a digest around.

use super::damage::scatter;
use super::draft::Draft;
use super::words::{hex, near, number};
use super::{Script, Subject};
use crate::random::Random;

pub const SUBJECT: Subject = Subject {
    name: "guids",
    script,
};

/// The sixteen bytes that end a table.
const FOOTER: [u8; 16] = [
    0xDE, 0x82, 0xB5, 0x96, 0xB2, 0x1F, 0xF7, 0x45, 0xBA, 0xEA, 0xA3, 0x66, 0xC5, 0x5A, 0x08, 0x2D,
];

/// What an image has behind its table.
const BEHIND: u64 = 32;

/// The largest total.
const MOST: u64 = 65_535;

/// An entry: its data, the length that it claims, and which of a few GUIDs it has.
#[derive(Clone, Debug, PartialEq, Eq)]
struct Entry {
    data: Vec<u8>,
    length: u16,
    guid: u8,
}

/// The bytes that end an image: entries, the nearest to the footer first, then the total and the footer.
#[derive(Clone, Debug, PartialEq, Eq)]
struct Table {
    entries: Vec<Entry>,
    total: u16,
    footer: [u8; 16],
}

fn script(random: &mut Random, calls: u64) -> Script {
    let mut draft = Draft::default();
    while draft.len() < calls {
        let length = match random.below(60) {
            0 => MOST + BEHIND + random.below(4),
            1 => MOST + BEHIND - random.below(200),
            2..=9 => random.one_of(&[0, 1, 32, 48, 49, 50, 51, 67, 68]),
            _ => 50 + random.below(250),
        };
        let filled = random.one_of(&[0, 0, 0, 0, 0, 1, 0xFF]);
        draft.line(format!("buffer a {} {filled}", number(random, length)));
        let table = match random.below(3) {
            0 => start(random, &mut draft),
            _ => given(random, &mut draft, length),
        };
        for _ in 0..2 + random.below(8) {
            ask(random, &mut draft, &table, length);
        }
    }
    draft.script()
}

/// A table is started.
fn start(random: &mut Random, draft: &mut Draft) -> Table {
    draft.line("digest a");
    draft.ask(random, "guid-start a");
    draft.line("digest a");
    Table::of(Vec::new())
}

/// A table is put into the buffer, mostly a good one.
fn given(random: &mut Random, draft: &mut Draft, length: u64) -> Table {
    let (table, bytes) = table_for(random, length);
    let place = length.saturating_sub(BEHIND) as usize - bytes.len();
    draft.line(format!("patch a {place} {}", hex(random, &bytes)));
    table
}

/// A table for an image, mostly a good one, and its bytes, of which those that do not fit are cut off in front.
fn table_for(random: &mut Random, length: u64) -> (Table, Vec<u8>) {
    let mut table = Table::random(random, length);
    for _ in 0..random.one_of(&[0, 0, 0, 1, 1, 2]) {
        table.break_one(random, length);
    }
    let mut bytes = table.bytes();
    if random.once_in(8) {
        scatter(random, &mut bytes);
    }
    let room = length.saturating_sub(BEHIND) as usize;
    let cut = bytes.len().saturating_sub(room);
    (table, bytes.split_off(cut))
}

/// An image that ends with a table, mostly a good one.
pub fn image(random: &mut Random, length: u64) -> Vec<u8> {
    let mut image = vec![0; length as usize];
    let (_, bytes) = table_for(random, length);
    let end = length.saturating_sub(BEHIND) as usize;
    image[end - bytes.len()..end].copy_from_slice(&bytes);
    image
}

/// One call on a table.
fn ask(random: &mut Random, draft: &mut Draft, table: &Table, length: u64) {
    match random.below(8) {
        0 => draft.ask(random, "guids a"),
        1..=4 => {
            let which = sought(random, table);
            let call = format!("guid-find a {}", guid_word(random, which));
            draft.ask(random, call);
        }
        _ => {
            let data = data_for(random, table, length);
            let guid = sought(random, table);
            let guid = guid_word(random, guid);
            let call = format!("guid-extend a {guid} {}", hex(random, &data));
            draft.line("digest a");
            draft.ask(random, call);
            draft.line("digest a");
            draft.line("guids a");
        }
    }
}

/// Data to be added: mostly little, or so much that the table is just full, or just too full.
fn data_for(random: &mut Random, table: &Table, length: u64) -> Vec<u8> {
    let used = table.bytes().len() as u64 + BEHIND + 18;
    let left = length.saturating_sub(used);
    let amount = match random.below(4) {
        0 if left < 300 || random.once_in(4) => near(random, left).min(MOST + 9),
        1 if random.once_in(40) => random.one_of(&[MOST - 36, MOST - 35, MOST - 17, MOST + 1]),
        _ => random.below(20),
    };
    match random.once_in(4) {
        // Data that is zero leaves a place that looks as if it were not used.
        true => vec![0; amount as usize],
        false => random.bytes(amount as usize),
    }
}

/// One of a few GUIDs, mostly one that the table has.
fn sought(random: &mut Random, table: &Table) -> u8 {
    match table.entries.len() as u64 {
        amount if amount > 0 && random.once_in(2) => {
            table.entries[random.below(amount) as usize].guid
        }
        _ => random.below(8) as u8,
    }
}

/// The sixteen bytes of one of a few GUIDs, some of which differ in one byte alone.
fn guid_bytes(which: u8) -> [u8; 16] {
    let mut bytes = [0; 16];
    match which {
        0 => bytes = FOOTER,
        1 => {}
        2 => bytes[0] = 1,
        3 => bytes[15] = 1,
        4 => bytes[7] = 0x80,
        _ => bytes.fill(which),
    }
    bytes
}

/// One of the few GUIDs as a word of the language; once in a while one that is none.
fn guid_word(random: &mut Random, which: u8) -> String {
    let bytes = guid_bytes(which);
    let [a, b, c, d, e, f, g, h, ..] = bytes;
    let group = |random: &mut Random, bytes: &[u8]| hex(random, bytes);
    let groups = [
        group(random, &[d, c, b, a]),
        group(random, &[f, e]),
        group(random, &[h, g]),
        group(random, &bytes[8..10]),
        group(random, &bytes[10..]),
    ];
    match random.below(60) {
        0 => groups.concat(),
        1 => groups.join("-") + "0",
        2 => groups[1..].join("-"),
        3 => groups.join(":"),
        _ => groups.join("-"),
    }
}

impl Entry {
    fn random(random: &mut Random, most: u64) -> Entry {
        let amount = random.below(most + 1) as usize;
        Entry {
            data: random.bytes(amount),
            length: 18 + amount as u16,
            guid: random.below(7) as u8,
        }
    }

    fn bytes(&self) -> Vec<u8> {
        let guid = guid_bytes(self.guid);
        [&self.data[..], &self.length.to_le_bytes(), &guid].concat()
    }
}

impl Table {
    /// A good table with these entries.
    fn of(entries: Vec<Entry>) -> Table {
        let used: usize = entries.iter().map(|entry| entry.data.len() + 18).sum();
        Table {
            entries,
            total: 18 + used as u16,
            footer: FOOTER,
        }
    }

    /// A good table that fits into an image, if any does.
    fn random(random: &mut Random, length: u64) -> Table {
        let mut left = length.saturating_sub(BEHIND + 18).min(MOST - 18);
        let mut entries = Vec::new();
        for _ in 0..random.below(6) {
            if left >= 18 {
                let most = match random.below(4) {
                    0 => left - 18,
                    _ => (left - 18).min(24),
                };
                let entry = Entry::random(random, most.min(600));
                left -= 18 + entry.data.len() as u64;
                entries.push(entry);
            }
        }
        if random.once_in(4) && (18..800).contains(&left) {
            // One that fills the image to its start.
            let mut last = Entry::random(random, 0);
            last.data = random.bytes(left as usize - 18);
            last.length = left as u16;
            entries.push(last);
        }
        Table::of(entries)
    }

    /// Breaks one thing.
    fn break_one(&mut self, random: &mut Random, length: u64) {
        let amount = self.entries.len() as u64;
        match random.below(6) {
            0 => self.footer[random.below(16) as usize] ^= 1 << random.below(8),
            1 => {
                let most = length.saturating_sub(BEHIND) as u16;
                let edges = [0, 17, 18, 19, 35, 36, most, most.wrapping_add(1), 0xFFFF];
                self.total = random.one_of(&edges);
            }
            2 => self.total = self.total.wrapping_add(random.one_of(&[1, 17, 18, 22])),
            3 => self.total = self.total.wrapping_sub(random.one_of(&[1, 17, 18])),
            _ if amount > 0 => {
                let entry = &mut self.entries[random.below(amount) as usize];
                let other = [0, 17, 18, entry.length.wrapping_add(1), 0xFFFF];
                entry.length = random.one_of(&other);
            }
            _ => self.total = random.number() as u16,
        }
    }

    /// All its bytes.
    fn bytes(&self) -> Vec<u8> {
        let mut bytes: Vec<u8> = self.entries.iter().rev().flat_map(Entry::bytes).collect();
        bytes.extend(self.total.to_le_bytes());
        bytes.extend(self.footer);
        bytes
    }
}

#[cfg(test)]
mod tests {
    use super::*;

    #[test]
    fn a_good_table_has_as_many_bytes_as_it_says_and_fits() {
        for seed in 0..200 {
            let length = 50 + seed;
            let table = Table::random(&mut Random::from_seed(seed), length);
            let bytes = table.bytes();
            assert_eq!(bytes.len(), usize::from(table.total));
            assert!(bytes.len() as u64 + BEHIND <= length, "seed {seed}");
        }
    }
}
