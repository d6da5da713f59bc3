//! Random ASPT tables, good ones and broken ones, read and written with a digest around.

use super::damage::scatter;
use super::draft::Draft;
use super::words::{hex, number};
use super::{Script, Subject};
use crate::random::Random;

pub const SUBJECT: Subject = Subject {
    name: "aspt",
    script,
};

/// A structure as its twenty bytes have it.
#[derive(Clone, Debug, PartialEq, Eq)]
struct Structure {
    kind: u16,
    length: u16,
    /// The ID byte in type 1, and what is reserved.
    middle: [u8; 4],
    registers: [u32; 3],
}

/// A table as its 112 bytes have it.
#[derive(Clone, Debug, PartialEq, Eq)]
struct Table {
    signature: [u8; 4],
    length: u32,
    revision: u8,
    /// Added to the right checksum; 0 leaves it right.
    wrong: u8,
    oem: Vec<u8>,
    oem_table: Vec<u8>,
    /// OEM revision, creator, creator revision.
    numbers: [u32; 3],
    base: u64,
    pages: u32,
    count: u32,
    structures: [Structure; 3],
}

fn script(random: &mut Random, calls: u64) -> Script {
    let mut draft = Draft::default();
    while draft.len() < calls {
        let length = match random.below(4) {
            0 => random.one_of(&[0, 111, 112, 113]),
            _ => 112 + random.below(40),
        };
        let filled = random.one_of(&[0, 0, 0xFF, 0x5A]);
        draft.line(format!("buffer a {} {filled}", number(random, length)));
        for _ in 0..2 + random.below(6) {
            match random.once_in(2) {
                true => read(random, &mut draft, length),
                false => write(random, &mut draft),
            }
        }
    }
    draft.script()
}

/// A table is put into the buffer and read.
fn read(random: &mut Random, draft: &mut Draft, length: u64) {
    let mut table = Table::random(random);
    for _ in 0..random.one_of(&[0, 0, 1, 1, 1, 2]) {
        table.break_one(random);
    }
    let mut bytes = table.bytes();
    if random.once_in(4) {
        scatter(random, &mut bytes);
        if !random.once_in(4) {
            // With the right sum, what is checked behind it comes to be seen.
            balance(&mut bytes, 0);
        }
    }
    bytes.truncate(length as usize);
    draft.line(format!("patch a 0 {}", hex(random, &bytes)));
    draft.ask(random, "aspt-read a");
    if length > 112 && random.once_in(4) {
        // What lies behind the table has no part in it.
        draft.line("patch a 112 77");
        draft.line("aspt-read a");
    }
}

/// A table is written over what lies in the buffer, and read back.
fn write(random: &mut Random, draft: &mut Draft) {
    let mut table = Table::random(random);
    for _ in 0..random.one_of(&[0, 0, 1, 1, 1, 2]) {
        table.break_one(random);
    }
    draft.line("digest a");
    let call = write_call(random, &table);
    draft.ask(random, call);
    draft.line("digest a");
    draft.ask(random, "aspt-read a");
}

/// The call that writes a table: what the writer sets by itself is no part of it.
fn write_call(random: &mut Random, table: &Table) -> String {
    let mut words = vec![hex(random, &table.oem), hex(random, &table.oem_table)];
    let [oem_revision, creator, creator_revision] = table.numbers.map(u64::from);
    let pages = u64::from(table.pages);
    for value in [oem_revision, creator, creator_revision, table.base, pages] {
        words.push(number(random, value));
    }
    for structure in &table.structures {
        words.push(structure.word(random));
    }
    format!("aspt-write a {}", words.join(" "))
}

impl Structure {
    /// A good structure of a type, for a register space of so many bytes.
    fn of(random: &mut Random, kind: u16, space: u64) -> Structure {
        let last = space.saturating_sub(4).min(u64::from(u32::MAX));
        let register = |random: &mut Random| match random.below(4) {
            0 => last as u32,
            1 => last.min(8) as u32,
            _ => random.below(last + 1) as u32,
        };
        let mut registers = [0, 1, 2].map(|_| register(random));
        if kind == 2 {
            registers[1..].fill(0);
        }
        Structure {
            kind,
            length: 20,
            middle: [u8::from(kind == 1), 0, 0, 0],
            registers,
        }
    }

    fn bytes(&self) -> Vec<u8> {
        let mut bytes = self.kind.to_le_bytes().to_vec();
        bytes.extend(self.length.to_le_bytes());
        bytes.extend(self.middle);
        bytes.extend(self.registers.iter().flat_map(|r| r.to_le_bytes()));
        bytes
    }

    /// The structure as a word of the language; once in a while of a form that it does not have.
    fn word(&self, random: &mut Random) -> String {
        let lacks = match self.kind {
            0 => [true, false, false, false],
            2 => [true, false, true, true],
            _ => [false; 4],
        };
        let [a, b, c] = self.registers;
        let values = [u32::from(self.middle[0]), a, b, c];
        let mut fields = vec![number(random, u64::from(self.kind))];
        for (value, lacks) in values.iter().zip(lacks) {
            let wrong = random.once_in(200);
            fields.push(match lacks != wrong {
                true => "-".to_string(),
                false => number(random, u64::from(*value)),
            });
        }
        if random.once_in(100) {
            fields.swap_remove(1);
        }
        fields.join(":")
    }

    /// Breaks one thing of a structure.
    fn break_one(&mut self, random: &mut Random, space: u64) {
        let any = random.below(4) as usize;
        match random.below(6) {
            0 => self.length = random.one_of(&[0, 16, 19, 21, 0x1400, 0xFFFF]),
            1 | 2 => self.kind = random.one_of(&[0, 1, 2, 3, 9, 0x100, 0x101, 0xFFFF]),
            3 => self.middle[any] = random.one_of(&[0, 1, 2, 0x80, 0xFF]),
            _ => {
                let first = space.saturating_sub(3) as u32;
                let beyond = [first, first.wrapping_add(2), u32::MAX - 3, u32::MAX];
                self.registers[any % 3] = random.one_of(&beyond);
            }
        }
    }
}

impl Table {
    /// A table that keeps to the rules, often on the edge of one.
    fn random(random: &mut Random) -> Table {
        let pages = match random.below(6) {
            0 => random.one_of(&[2, 0x10_0000, 0xF_FFFF, u32::MAX]),
            1 => random.number() as u32 | 1,
            _ => 1,
        };
        let space = 4096 * u64::from(pages);
        let last = 0u64.wrapping_sub(space);
        let base = match random.below(4) {
            0 => last,
            1 => last - 4096,
            _ => random.below(last / 4096 + 1) * 4096,
        };
        let orders = [
            [0, 1, 2],
            [0, 2, 1],
            [1, 0, 2],
            [1, 2, 0],
            [2, 0, 1],
            [2, 1, 0],
        ];
        let order = random.one_of(&orders);
        Table {
            signature: *b"ASPT",
            length: 112,
            revision: 2,
            wrong: 0,
            oem: random.bytes(6),
            oem_table: random.bytes(8),
            numbers: [0, 1, 2].map(|_| random.number() as u32),
            base,
            pages,
            count: 3,
            structures: order.map(|kind| Structure::of(random, kind, space)),
        }
    }

    /// Breaks one thing. The checksum stays right, but where it is what breaks.
    fn break_one(&mut self, random: &mut Random) {
        let space = 4096 * u64::from(self.pages);
        match random.below(14) {
            0 => self.signature[random.below(4) as usize] ^= 0x20,
            1 => self.length = random.one_of(&[0, 111, 113, 0x7000, 0x170]),
            2 => self.revision = random.one_of(&[0, 1, 3, 0x82]),
            3 => self.wrong = 1 + random.below(255) as u8,
            4 => self.base |= random.one_of(&[1, 0x800, 0xFFF]),
            5 => self.base = 0u64.wrapping_sub(space).wrapping_add(4096),
            6 => self.pages = random.one_of(&[0, 1, u32::MAX]),
            7 => self.count = random.one_of(&[0, 2, 4, 0x300, 0x103]),
            _ => {
                let at = random.below(3) as usize;
                self.structures[at].break_one(random, space);
            }
        }
    }

    /// All its bytes, which add up to 0 where the checksum is right.
    fn bytes(&self) -> Vec<u8> {
        let mut bytes = self.signature.to_vec();
        bytes.extend(self.length.to_le_bytes());
        bytes.extend([self.revision, 0]);
        bytes.extend(&self.oem);
        bytes.extend(&self.oem_table);
        bytes.extend(self.numbers.iter().flat_map(|n| n.to_le_bytes()));
        bytes.extend(self.base.to_le_bytes());
        bytes.extend(self.pages.to_le_bytes());
        bytes.extend(self.count.to_le_bytes());
        bytes.extend(self.structures.iter().flat_map(Structure::bytes));
        balance(&mut bytes, self.wrong);
        bytes
    }
}

/// Sets the checksum so that all bytes add up to 0, or to what is added to it.
fn balance(bytes: &mut [u8], wrong: u8) {
    bytes[9] = 0;
    let sum = bytes.iter().fold(0u8, |sum, byte| sum.wrapping_add(*byte));
    bytes[9] = 0u8.wrapping_sub(sum).wrapping_add(wrong);
}

#[cfg(test)]
mod tests {
    use super::*;

    #[test]
    fn a_table_has_112_bytes_that_add_up_to_0() {
        for seed in 0..50 {
            let bytes = Table::random(&mut Random::from_seed(seed)).bytes();
            assert_eq!(bytes.len(), 112);
            let sum: u32 = bytes.iter().map(|byte| u32::from(*byte)).sum();
            assert_eq!(sum % 256, 0);
            assert_eq!(bytes[52 + 2], 20);
        }
    }

    #[test]
    fn what_is_broken_mostly_differs() {
        let differs = |seed: u64| {
            let good = Table::random(&mut Random::from_seed(seed));
            let mut bad = good.clone();
            bad.break_one(&mut Random::from_seed(seed));
            good != bad
        };
        assert!((0..100).filter(|seed| differs(*seed)).count() > 80);
    }
}
