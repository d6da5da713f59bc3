//! How an answer of the language is told.

use crate::shown::digits::hexadecimal;
use bindings::Answer;

/// The line that tells what the library answered.
pub fn told<T>(answer: Answer<T>, given: impl FnOnce(T) -> String) -> String {
    match answer {
        Ok(value) => given(value),
        Err(refusal) => refusal.to_string(),
    }
}

/// Bytes as an answer tells them: a HEX word.
pub fn as_hex(bytes: &[u8]) -> String {
    match bytes.is_empty() {
        true => String::from("-"),
        false => hexadecimal(bytes),
    }
}

#[cfg(test)]
mod tests {
    use super::*;

    #[test]
    fn bytes_are_told_as_a_hex_word() {
        assert_eq!(as_hex(&[]), "-");
        assert_eq!(as_hex(&[0, 0xaa, 0x0f]), "00aa0f");
    }
}
