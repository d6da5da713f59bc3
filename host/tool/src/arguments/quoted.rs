//! A word of the user as messages quote it.

/// The word in quotes: on one line, in characters that any terminal has, and cut where it is long.
pub fn quoted(word: &[u8]) -> String {
    const MOST: usize = 40;
    let start = &word[..word.len().min(MOST)];
    let rest = if word.len() > MOST { "..." } else { "" };
    format!("'{}{rest}'", start.escape_ascii())
}

#[cfg(test)]
mod tests {
    use super::*;

    #[test]
    fn a_quoted_word_is_one_short_line_of_plain_characters() {
        assert_eq!(quoted(b"a b"), "'a b'");
        assert_eq!(quoted(b"\xff\n"), "'\\xff\\n'");
        assert_eq!(quoted(&[b'x'; 41]), format!("'{}...'", "x".repeat(40)));
    }
}
