//! Random calls on buffers: mostly good ones on a few small buffers, some just beyond a limit.

use super::words::{hex, near, number};
use super::{Script, Subject};
use crate::random::Random;
use std::collections::BTreeMap;

pub const SUBJECT: Subject = Subject {
    name: "buffers",
    script,
};

/// The most bytes that a random buffer has. Larger ones cost time and show nothing more; the cases have the true limit.
const MOST_BYTES: u64 = 200;

/// The limit of the language.
const LIMIT: u64 = 67_108_864;

const NAMES: [&str; 6] = ["a", "B", "image_1", "0", "_", "Zz9"];

/// Files that lie beside the cases, with their lengths, and some that do not.
const FILES: [(&str, Option<u64>); 5] = [
    ("data/greeting.txt", Some(14)),
    ("data/empty.bin", Some(0)),
    ("./data/../data/all-bytes.bin", Some(256)),
    ("data/there-is-none.bin", None),
    ("data", None),
];

/// The lengths of the buffers that there are, so that most calls can be good ones.
type Lengths = BTreeMap<&'static str, u64>;

fn script(random: &mut Random, calls: u64) -> Script {
    let mut lengths = Lengths::new();
    let mut lines: Script = Vec::new();
    for _ in 0..calls {
        lines.push((call(random, &mut lengths) + "\n").into_bytes());
    }
    for name in NAMES {
        lines.push(format!("digest {name}\n").into_bytes());
    }
    lines
}

/// One call, and what it does to the lengths.
pub fn call(random: &mut Random, lengths: &mut Lengths) -> String {
    let name = random.pick(&NAMES);
    let length = lengths.get(name).copied();
    match random.below(16) {
        0 | 1 => buffer(random, name, lengths),
        2 => {
            let (path, length) = FILES[random.below(FILES.len() as u64) as usize];
            set(lengths, name, length);
            format!("file {name} {path}")
        }
        3 | 4 => {
            let from = random.pick(&NAMES);
            let length = lengths.get(from).copied();
            set(lengths, name, length);
            format!("copy {name} {from}")
        }
        5..=9 => {
            let offset = near(random, length.unwrap_or(0));
            let left = length.unwrap_or(0).saturating_sub(offset);
            let amount = near(random, left).min(MOST_BYTES) as usize;
            let bytes = random.bytes(amount);
            let offset = number(random, offset);
            format!("patch {name} {offset} {}", hex(random, &bytes))
        }
        10..=13 => {
            let offset = near(random, length.unwrap_or(0));
            let left = length.unwrap_or(0).saturating_sub(offset);
            let length = near(random, left);
            let offset = number(random, offset);
            format!("show {name} {offset} {}", number(random, length))
        }
        _ => format!("digest {name}"),
    }
}

/// A call that makes a buffer, sometimes one byte or one length too large.
fn buffer(random: &mut Random, name: &'static str, lengths: &mut Lengths) -> String {
    let length = match random.below(12) {
        0 => LIMIT + 1 + random.below(3),
        1 => u64::MAX - random.below(3),
        _ => random.below(MOST_BYTES),
    };
    let byte = random.pick(&[&None, &Some(0), &Some(255), &Some(256), &Some(0x5a)]);
    if length <= LIMIT && *byte != Some(256) {
        set(lengths, name, Some(length));
    }
    let made = format!("buffer {name} {}", number(random, length));
    match byte {
        Some(byte) => format!("{made} {}", number(random, *byte)),
        None => made,
    }
}

/// Notes the length of a buffer that was made anew; a call that fails changes none.
fn set(lengths: &mut Lengths, name: &'static str, length: Option<u64>) {
    if let Some(length) = length {
        lengths.insert(name, length);
    }
}
