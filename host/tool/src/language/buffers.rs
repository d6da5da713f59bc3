//! The lent bytes: buffers by name, made, filled, copied, changed and shown.

use super::call::Call;
use super::told::as_hex;
use super::State;
use crate::arguments::call::CallForm;
use crate::arguments::lines::{hex, name, BadLine};
use crate::arguments::numbers::{number, number8};
use crate::arguments::quoted::quoted;
use crate::system::opening::{open, Opened};
use std::collections::BTreeMap;
use std::ffi::OsStr;
use std::io::Read;
use std::ops::Range;
use std::os::unix::ffi::OsStrExt;

/// The most bytes that a buffer may have.
const MOST_BYTES: u64 = 67_108_864;

pub static CALLS: [Call; 6] = [
    Call {
        form: CallForm::new(
            "buffer",
            "NAME LENGTH [BYTE]",
            "a new buffer, every byte BYTE, or 0 where none is given",
        ),
        answer: buffer,
    },
    Call {
        form: CallForm::new("file", "NAME PATH", "a new buffer with the bytes of a file"),
        answer: file,
    },
    Call {
        form: CallForm::new(
            "copy",
            "NAME FROM",
            "a new buffer with the bytes of another",
        ),
        answer: copy,
    },
    Call {
        form: CallForm::new(
            "patch",
            "NAME OFFSET HEX",
            "write bytes over those of a buffer",
        ),
        answer: patch,
    },
    Call {
        form: CallForm::new(
            "show",
            "NAME OFFSET LENGTH",
            "the bytes of a part of a buffer",
        ),
        answer: show,
    },
    Call {
        form: CallForm::new(
            "digest",
            "NAME",
            "the length and the FNV-1a hash of a buffer",
        ),
        answer: digest,
    },
];

/// The buffers by name.
#[derive(Default)]
pub struct Buffers {
    by_name: BTreeMap<String, Vec<u8>>,
}

impl Buffers {
    /// The bytes of a buffer that there is.
    pub fn lent(&self, role: &str, word: &[u8]) -> Result<&[u8], BadLine> {
        let buffer = self.by_name.get(&name(role, word)?);
        buffer.map(Vec::as_slice).ok_or_else(|| missing(word))
    }

    /// The bytes of a buffer that there is, to be changed.
    pub fn lent_to_change(&mut self, role: &str, word: &[u8]) -> Result<&mut [u8], BadLine> {
        let buffer = self.by_name.get_mut(&name(role, word)?);
        buffer.map(Vec::as_mut_slice).ok_or_else(|| missing(word))
    }

    /// Puts new bytes in the place of any of that name.
    fn keep(&mut self, name: String, bytes: Vec<u8>) -> String {
        let answer = format!("ok length={}", bytes.len());
        self.by_name.insert(name, bytes);
        answer
    }
}

/// The bad line for a name that no buffer has.
fn missing(word: &[u8]) -> BadLine {
    BadLine::new(format!(
        "there is no buffer {}; make it first, by `buffer`, `file` or `copy`",
        quoted(word)
    ))
}

fn buffer(state: &mut State, words: &[&[u8]]) -> Result<String, BadLine> {
    let name = name("NAME", words[0])?;
    let length = number("LENGTH", words[1], MOST_BYTES)?;
    let byte = match words.get(2) {
        Some(word) => number8("BYTE", word)?,
        None => 0,
    };
    let mut bytes = room_for(length as usize)?;
    bytes.resize(length as usize, byte);
    Ok(state.buffers.keep(name, bytes))
}

fn file(state: &mut State, words: &[&[u8]]) -> Result<String, BadLine> {
    let name = name("NAME", words[0])?;
    let mut bytes = Vec::new();
    open(OsStr::from_bytes(words[1]))
        .and_then(Opened::no_pipe)
        .and_then(|file| {
            // Room for the whole file at once, so that no more memory than that is ever touched.
            bytes.reserve_exact(file.length().min(MOST_BYTES) as usize + 1);
            file.take(MOST_BYTES + 1).read_to_end(&mut bytes)
        })
        .map_err(|error| {
            BadLine::new(format!(
                "the file {} cannot be read ({error}); a path has no space, and starts in the \
                 folder that the program was started in",
                quoted(words[1])
            ))
        })?;
    if bytes.len() as u64 > MOST_BYTES {
        return Err(BadLine::new(format!(
            "the file {} is too long; a buffer has at most {MOST_BYTES} bytes",
            quoted(words[1])
        )));
    }
    Ok(state.buffers.keep(name, bytes))
}

fn copy(state: &mut State, words: &[&[u8]]) -> Result<String, BadLine> {
    let name = name("NAME", words[0])?;
    let from = state.buffers.lent("FROM", words[1])?;
    let mut bytes = room_for(from.len())?;
    bytes.extend_from_slice(from);
    Ok(state.buffers.keep(name, bytes))
}

fn patch(state: &mut State, words: &[&[u8]]) -> Result<String, BadLine> {
    let buffer = state.buffers.lent_to_change("NAME", words[0])?;
    let offset = number("OFFSET", words[1], u64::MAX)?;
    let bytes = hex("HEX", words[2])?;
    let part = part_of(buffer.len(), offset, bytes.len() as u64)?;
    buffer[part].copy_from_slice(&bytes);
    Ok(String::from("ok"))
}

fn show(state: &mut State, words: &[&[u8]]) -> Result<String, BadLine> {
    let buffer = state.buffers.lent("NAME", words[0])?;
    let offset = number("OFFSET", words[1], u64::MAX)?;
    let length = number("LENGTH", words[2], u64::MAX)?;
    let part = part_of(buffer.len(), offset, length)?;
    Ok(format!("bytes {}", as_hex(&buffer[part])))
}

fn digest(state: &mut State, words: &[&[u8]]) -> Result<String, BadLine> {
    let buffer = state.buffers.lent("NAME", words[0])?;
    Ok(format!(
        "digest length={} fnv=0x{:016x}",
        buffer.len(),
        fnv_1a(buffer)
    ))
}

/// An empty vector with room for `length` bytes, or a bad line where the machine has no memory for them.
fn room_for(length: usize) -> Result<Vec<u8>, BadLine> {
    let mut bytes = Vec::new();
    bytes.try_reserve_exact(length).map_err(|_| {
        BadLine::new(format!(
            "there is no memory for {length} bytes more; use fewer or smaller buffers"
        ))
    })?;
    Ok(bytes)
}

/// The part of a buffer of `whole` bytes that starts at `offset` and has `length` bytes.
fn part_of(whole: usize, offset: u64, length: u64) -> Result<Range<usize>, BadLine> {
    let end = offset
        .checked_add(length)
        .filter(|end| *end <= whole as u64);
    match end {
        Some(end) => Ok(offset as usize..end as usize),
        None => Err(BadLine::new(format!(
            "{length} bytes from {offset} on do not lie in the buffer, which has {whole}; \
             ask for bytes that do"
        ))),
    }
}

/// The hash FNV-1a of 64 bits.
fn fnv_1a(bytes: &[u8]) -> u64 {
    bytes.iter().fold(0xcbf2_9ce4_8422_2325, |hash, &byte| {
        (hash ^ u64::from(byte)).wrapping_mul(0x0000_0100_0000_01b3)
    })
}

#[cfg(test)]
mod tests {
    use super::*;

    #[test]
    fn the_hash_has_its_published_values() {
        assert_eq!(fnv_1a(b""), 0xcbf2_9ce4_8422_2325);
        assert_eq!(fnv_1a(b"a"), 0xaf63_dc4c_8601_ec8c);
        assert_eq!(fnv_1a(b"foobar"), 0x8594_4171_f739_67e8);
    }

    #[test]
    fn a_part_may_end_at_the_buffers_end_and_no_later() {
        assert_eq!(part_of(4, 1, 3), Ok(1..4));
        assert_eq!(part_of(4, 4, 0), Ok(4..4));
        for (offset, length) in [(1, 4), (5, 0), (u64::MAX, 1), (1, u64::MAX), (u64::MAX, 0)] {
            assert!(part_of(4, offset, length).is_err());
        }
    }
}
