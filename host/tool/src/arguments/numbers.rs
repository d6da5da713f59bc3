//! Numbers as people write them: decimal digits, or 0x and hexadecimal digits.

use crate::arguments::quoted::quoted;

/// A number from 0 to `most`. `role` is what the word is called where it is wrong.
pub fn number(role: &str, word: &[u8], most: u64) -> Result<u64, String> {
    let (digits, base) = match word.strip_prefix(b"0x") {
        Some(digits) => (digits, 16),
        None => (word, 10),
    };
    if digits.is_empty() || !digits.iter().all(|&byte| is_digit(byte, base)) {
        return Err(format!(
            "{role} is {}, which is no number; write decimal digits, or 0x and hexadecimal digits",
            quoted(word)
        ));
    }
    let value = digits.iter().try_fold(0u64, |value, &byte| {
        let digit = char::from(byte).to_digit(base)?;
        value
            .checked_mul(u64::from(base))?
            .checked_add(u64::from(digit))
    });
    value.filter(|value| *value <= most).ok_or_else(|| {
        format!(
            "{role} is {}, which is too large; write at most {most}",
            quoted(word)
        )
    })
}

/// A number of 8 bits.
pub fn number8(role: &str, word: &[u8]) -> Result<u8, String> {
    Ok(number(role, word, u64::from(u8::MAX))? as u8)
}

/// A number of 16 bits.
pub fn number16(role: &str, word: &[u8]) -> Result<u16, String> {
    Ok(number(role, word, u64::from(u16::MAX))? as u16)
}

/// A number of 32 bits.
pub fn number32(role: &str, word: &[u8]) -> Result<u32, String> {
    Ok(number(role, word, u64::from(u32::MAX))? as u32)
}

fn is_digit(byte: u8, base: u32) -> bool {
    char::from(byte).is_digit(base)
}

#[cfg(test)]
mod tests {
    use super::*;

    #[test]
    fn numbers_up_to_their_limit() {
        let most = u64::MAX;
        for (word, value) in [
            ("0", 0),
            ("007", 7),
            ("0x0", 0),
            ("0x00fF", 255),
            ("18446744073709551615", most),
            ("0xffffffffffffffff", most),
            ("0x00000000000000000000000000000001", 1),
        ] {
            assert_eq!(number("OFFSET", word.as_bytes(), most), Ok(value), "{word}");
        }
        assert_eq!(number8("BYTE", b"255"), Ok(255));
        assert!(number8("BYTE", b"256").is_err());
        assert_eq!(number16("DATA", b"0xffff"), Ok(65_535));
        assert!(number16("DATA", b"0x10000").is_err());
        assert_eq!(number32("LEVEL", b"4294967295"), Ok(u32::MAX));
        assert!(number32("LEVEL", b"4294967296").is_err());
        for word in [
            "",
            "0x",
            "x",
            "0X1",
            "+1",
            "-1",
            "1_0",
            "f",
            "0xg",
            "18446744073709551616",
            "0x10000000000000000",
        ] {
            assert!(number("OFFSET", word.as_bytes(), most).is_err(), "{word}");
        }
    }
}
