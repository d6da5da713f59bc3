//! Random lines: calls on buffers in every dress that the language allows, and broken in every place.

use super::{buffers, Script, Subject};
use crate::random::Random;
use std::collections::BTreeMap;

pub const SUBJECT: Subject = Subject {
    name: "lines",
    script,
};

/// Words that stand where they may not: near misses of numbers, bytes, names and calls.
const STRANGE_WORDS: [&[u8]; 22] = [
    b"+1",
    b"-1",
    b"0X1f",
    b"0x",
    b"x",
    b"1_000",
    b"1.0",
    b"0x1g",
    b"18446744073709551616",
    b"0x10000000000000000",
    b"18446744073709551615",
    b"-",
    b"--",
    b"abc",
    b"0xab",
    b"a-b",
    b"a.b",
    b"caf\xc3\xa9",
    b"\xff\xfe",
    b"BUFFER",
    b"buffers",
    b"nothing",
];

/// Bytes that are no part of any word, or part it, or end it.
const STRANGE_BYTES: [u8; 14] = [
    0, b'\t', 0x0b, 0x0c, b'\r', 0x1b, b' ', b'#', b'"', b'\\', 0x7f, 0x80, 0xa0, 0xff,
];

fn script(random: &mut Random, calls: u64) -> Script {
    let mut lengths = BTreeMap::new();
    let mut lines: Script = Vec::new();
    for _ in 0..calls {
        let call = buffers::call(random, &mut lengths);
        let mut words: Vec<Vec<u8>> = call.split(' ').map(|word| word.into()).collect();
        if random.once_in(5) {
            break_words(random, &mut words);
        }
        let mut line = dressed(random, &words);
        if random.once_in(10) {
            break_bytes(random, &mut line);
        }
        line.extend_from_slice(match random.below(12) {
            0 => b"\r\r\n",
            1..=3 => b"\r\n",
            _ => b"\n",
        });
        lines.push(line);
    }
    // The last line may lack its line end, and may have half of one.
    lines.push(
        random
            .pick(&[&b"digest a"[..], b"digest a\r", b"", b"\r", b"# end", b" "])
            .to_vec(),
    );
    lines
}

/// Words as a line: parted by spaces and tabs, and perhaps a comment after them.
fn dressed(random: &mut Random, words: &[Vec<u8>]) -> Vec<u8> {
    let mut line = Vec::new();
    line.extend_from_slice(random.pick(&[&b""[..], b"", b"", b" ", b"\t", b" \t "]));
    for (place, word) in words.iter().enumerate() {
        if place > 0 {
            line.extend_from_slice(random.pick(&[&b" "[..], b" ", b" ", b"\t", b"  ", b"\t "]));
        }
        line.extend_from_slice(word);
    }
    line.extend_from_slice(random.pick(&[
        &b""[..],
        b"",
        b"",
        b" ",
        b"\t",
        b" # why",
        b"#",
        b"#\xff\r#",
    ]));
    line
}

/// A call with one of its words broken.
pub fn broken(random: &mut Random, call: &str) -> Vec<u8> {
    let mut words: Vec<Vec<u8>> = call.split(' ').map(|word| word.into()).collect();
    break_words(random, &mut words);
    words.join(&b' ')
}

/// Changes one word: leaves it out, says it twice, puts another in its place.
fn break_words(random: &mut Random, words: &mut Vec<Vec<u8>>) {
    let place = random.below(words.len() as u64) as usize;
    match random.below(6) {
        0 => drop(words.remove(place)),
        1 => words.insert(place, words[place].clone()),
        2 => words.push(random.pick(&STRANGE_WORDS).to_vec()),
        3 => words.clear(),
        // A word of parts loses one, or has one more.
        4 if words[place].len() > 1 => {
            let at = random.below(words[place].len() as u64) as usize;
            words[place][at] = random.one_of(b":,-x0");
        }
        _ => words[place] = random.pick(&STRANGE_WORDS).to_vec(),
    }
}

/// Changes one byte of a line: another in its place, one more, or one less.
fn break_bytes(random: &mut Random, line: &mut Vec<u8>) {
    let place = random.below(line.len() as u64 + 1) as usize;
    let strange = STRANGE_BYTES[random.below(STRANGE_BYTES.len() as u64) as usize];
    match random.below(3) {
        0 if place < line.len() => line[place] = strange,
        1 if place < line.len() => drop(line.remove(place)),
        _ => line.insert(place, strange),
    }
}
