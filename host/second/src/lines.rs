//! Lines of the ask language: their words, and the numbers, bytes, GUIDs and names in them.
//!
//! A line is bytes: noise that is no text must be answered too.

use crate::guids::Guid;
use std::mem::size_of;

/// A line that is no call: the reason, in plain words.
#[derive(Clone, Debug, PartialEq, Eq)]
pub struct BadLine(pub String);

/// A bad line, for that reason.
pub fn bad<T>(reason: impl Into<String>) -> Result<T, BadLine> {
    Err(BadLine(reason.into()))
}

/// How much of a word a reason repeats.
const QUOTED: usize = 40;

/// A word as a reason repeats it: cut where it is long, and nothing but printable ASCII.
pub fn quoted(word: &[u8]) -> String {
    match word.get(..QUOTED) {
        Some(start) if word.len() > QUOTED => format!("'{}...'", start.escape_ascii()),
        _ => format!("'{}'", word.escape_ascii()),
    }
}

/// The line without its line end. A carriage return goes with a line end, and only with one.
pub fn without_line_end(line: &[u8]) -> &[u8] {
    match line.strip_suffix(b"\n") {
        Some(line) => line.strip_suffix(b"\r").unwrap_or(line),
        None => line,
    }
}

/// The line up to its comment.
fn without_comment(line: &[u8]) -> &[u8] {
    let comment = line.iter().position(|byte| *byte == b'#');
    &line[..comment.unwrap_or(line.len())]
}

/// The words of one line, read one after the other.
pub struct Words<'a> {
    words: std::vec::IntoIter<&'a [u8]>,
}

impl<'a> Words<'a> {
    /// The words of a line that has lost its line end; they are parted by spaces and tabs alone.
    pub fn of(line: &'a [u8]) -> Words<'a> {
        let words: Vec<&[u8]> = without_comment(line)
            .split(|byte| *byte == b' ' || *byte == b'\t')
            .filter(|word| !word.is_empty())
            .collect();
        Words {
            words: words.into_iter(),
        }
    }

    /// The next word, if there is one.
    pub fn next_if_any(&mut self) -> Option<&'a [u8]> {
        self.words.next()
    }

    /// The next word, which `what` names.
    pub fn word(&mut self, what: &str) -> Result<&'a [u8], BadLine> {
        match self.words.next() {
            Some(word) => Ok(word),
            None => bad(format!("too few words; {} is missing", what)),
        }
    }

    /// There is no word more.
    pub fn end(&mut self) -> Result<(), BadLine> {
        match self.words.next() {
            Some(word) => bad(format!(
                "too many words; take away {} and what follows",
                quoted(word)
            )),
            None => Ok(()),
        }
    }

    /// The next word, a number of the width of `T`.
    pub fn number<T: TryFrom<u64>>(&mut self, what: &str) -> Result<T, BadLine> {
        number(self.word(what)?, what)
    }

    /// The next word, bytes.
    pub fn hex(&mut self, what: &str) -> Result<Vec<u8>, BadLine> {
        hex(self.word(what)?, what)
    }

    /// The next word, exactly `N` bytes.
    pub fn hex_of<const N: usize>(&mut self, what: &str) -> Result<[u8; N], BadLine> {
        let bytes = self.hex(what)?;
        let given = bytes.len();
        match <[u8; N]>::try_from(bytes) {
            Ok(bytes) => Ok(bytes),
            Err(_) => bad(format!("{} is {} bytes, not {}", what, N, given)),
        }
    }

    /// The next word, a GUID.
    pub fn guid(&mut self) -> Result<Guid, BadLine> {
        guid(self.word("GUID")?)
    }

    /// The next word, a buffer's name.
    pub fn name(&mut self, what: &str) -> Result<&'a [u8], BadLine> {
        let word = self.word(what)?;
        if word.iter().all(|c| c.is_ascii_alphanumeric() || *c == b'_') {
            Ok(word)
        } else {
            bad(format!(
                "{} is no name; use letters, digits and _",
                quoted(word)
            ))
        }
    }
}

/// The value of a digit in that radix.
fn digit(byte: u8, radix: u32) -> Option<u64> {
    char::from(byte).to_digit(radix).map(u64::from)
}

/// A number of the width of `T`: decimal digits, or hexadecimal digits after `0x`.
pub fn number<T: TryFrom<u64>>(word: &[u8], what: &str) -> Result<T, BadLine> {
    let (digits, radix) = match word.strip_prefix(b"0x") {
        Some(digits) => (digits, 16),
        None => (word, 10),
    };
    if digits.is_empty() || digits.iter().any(|byte| digit(*byte, radix).is_none()) {
        return bad(format!(
            "{} {} is no number; use decimal digits, or hexadecimal ones after 0x",
            what,
            quoted(word)
        ));
    }
    // None as soon as the value passes 64 bits, however many digits follow
    let value = digits.iter().try_fold(0u64, |value, byte| {
        value
            .checked_mul(u64::from(radix))?
            .checked_add(digit(*byte, radix)?)
    });
    match value.and_then(|value| T::try_from(value).ok()) {
        Some(value) => Ok(value),
        None => bad(format!(
            "{} {} is too large; it has {} bits",
            what,
            quoted(word),
            8 * size_of::<T>()
        )),
    }
}

/// The bytes of an even number of hexadecimal digits, if it is that.
fn digit_pairs(digits: &[u8]) -> Option<Vec<u8>> {
    if digits.len() % 2 != 0 {
        return None;
    }
    digits
        .chunks_exact(2)
        .map(|pair| Some((digit(pair[0], 16)? * 16 + digit(pair[1], 16)?) as u8))
        .collect()
}

/// Bytes: an even number of hexadecimal digits, or `-` for none.
pub fn hex(word: &[u8], what: &str) -> Result<Vec<u8>, BadLine> {
    if word == b"-" {
        return Ok(Vec::new());
    }
    match digit_pairs(word) {
        Some(bytes) => Ok(bytes),
        None => bad(format!(
            "{} {} is no even number of hexadecimal digits; write - for no bytes",
            what,
            quoted(word)
        )),
    }
}

/// A GUID of 8-4-4-4-12 digits, as its bytes in an image: the first three fields little-endian.
pub fn guid(word: &[u8]) -> Result<Guid, BadLine> {
    match guid_bytes(word) {
        Some(guid) => Ok(guid),
        None => bad(format!(
            "{} is no GUID; write 8-4-4-4-12 hexadecimal digits",
            quoted(word)
        )),
    }
}

fn guid_bytes(word: &[u8]) -> Option<Guid> {
    let fields: Vec<&[u8]> = word.split(|byte| *byte == b'-').collect();
    let lengths: Vec<usize> = fields.iter().map(|field| field.len()).collect();
    if lengths != [8, 4, 4, 4, 12] {
        return None;
    }
    let mut bytes = Vec::new();
    for (k, field) in fields.into_iter().enumerate() {
        let mut field = digit_pairs(field)?;
        if k < 3 {
            field.reverse();
        }
        bytes.append(&mut field);
    }
    Guid::try_from(bytes).ok()
}

/// Bytes as answers show them: lower-case digits, `-` for none.
pub fn shown(bytes: &[u8]) -> String {
    if bytes.is_empty() {
        return "-".to_string();
    }
    let digit = |value: u8| char::from(b"0123456789abcdef"[usize::from(value)]);
    bytes
        .iter()
        .flat_map(|byte| [digit(byte >> 4), digit(byte & 15)])
        .collect()
}

#[cfg(test)]
mod tests;
