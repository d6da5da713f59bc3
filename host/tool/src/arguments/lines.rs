//! A line of a script: its words, the bytes or the name that a word stands for, and the reason that a line is wrong.

use crate::arguments::quoted::quoted;

/// A line that is no call. Nothing was changed by it.
#[derive(Debug, PartialEq, Eq)]
pub struct BadLine {
    /// What is wrong and what to write, in plain words on one line.
    pub reason: String,
}

impl BadLine {
    pub fn new(reason: impl Into<String>) -> BadLine {
        BadLine {
            reason: reason.into(),
        }
    }
}

impl From<String> for BadLine {
    fn from(reason: String) -> BadLine {
        BadLine::new(reason)
    }
}

/// The words of a line: what is left without its line end and its comment, parted by spaces and tabs.
pub fn words_of(line: &[u8]) -> Vec<&[u8]> {
    let line = match line.strip_suffix(b"\n") {
        // A carriage return is dropped before a line end, and nowhere else.
        Some(ended) => ended.strip_suffix(b"\r").unwrap_or(ended),
        None => line,
    };
    let comment = line.iter().position(|&byte| byte == b'#');
    line[..comment.unwrap_or(line.len())]
        .split(|byte| matches!(byte, b' ' | b'\t'))
        .filter(|word| !word.is_empty())
        .collect()
}

/// The bytes of a HEX word.
pub fn hex(role: &str, word: &[u8]) -> Result<Vec<u8>, BadLine> {
    if word == b"-" {
        return Ok(Vec::new());
    }
    let digit = |byte: u8| char::from(byte).to_digit(16);
    let byte = |pair: &[u8]| u8::try_from(digit(pair[0])? * 16 + digit(pair[1])?).ok();
    let bytes = match word.len() % 2 {
        0 => word.chunks(2).map(byte).collect(),
        _ => None,
    };
    bytes.ok_or_else(|| {
        BadLine::new(format!(
            "{role} is {}, which is no bytes; write an even number of hexadecimal digits, \
             or - for none",
            quoted(word)
        ))
    })
}

/// A NAME.
pub fn name(role: &str, word: &[u8]) -> Result<String, BadLine> {
    match std::str::from_utf8(word) {
        Ok(text) if text.bytes().all(|b| b.is_ascii_alphanumeric() || b == b'_') => {
            Ok(text.to_string())
        }
        _ => Err(BadLine::new(format!(
            "{role} is {}, which is no name; write letters, digits and _ alone",
            quoted(word)
        ))),
    }
}

#[cfg(test)]
mod tests {
    use super::*;

    #[test]
    fn words_are_parted_by_spaces_and_tabs_alone() {
        assert_eq!(words_of(b" a\t\tb  c \r\n"), [b"a", b"b", b"c"]);
        assert_eq!(words_of(b"a\x0bb\xa0c\n"), [b"a\x0bb\xa0c"]);
        assert_eq!(words_of(b"a b#c d\n"), [b"a", b"b"]);
    }

    #[test]
    fn one_carriage_return_is_dropped_before_a_line_end_alone() {
        assert_eq!(words_of(b"a\r\n"), [b"a"]);
        assert_eq!(words_of(b"a\r\r\n"), [b"a\r"]);
        assert_eq!(words_of(b"a\r"), [b"a\r"]);
    }

    #[test]
    fn bytes_are_read() {
        assert_eq!(hex("HEX", b"-"), Ok(vec![]));
        assert_eq!(hex("HEX", b"00aAFf"), Ok(vec![0, 0xaa, 0xff]));
        for word in ["0", "0x00", "0g", "--", "\u{e9}"] {
            assert!(hex("HEX", word.as_bytes()).is_err(), "{word}");
        }
    }

    #[test]
    fn names_are_letters_digits_and_underscores() {
        assert_eq!(name("NAME", b"Board_7"), Ok(String::from("Board_7")));
        for word in [&b"a-b"[..], b"a.b", b"\xc3\xa9", b"\xff"] {
            assert!(name("NAME", word).is_err());
        }
    }
}
