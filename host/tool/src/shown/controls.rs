//! The characters that are obeyed in place of being shown: what a terminal, an editor or a spreadsheet does with them is not what
//! stands there. Programs are told each of them by its number.

/// Whether a character is obeyed: one of Unicode's control characters (C0, U+007F and C1), a line or paragraph separator, or a
/// control of the direction of writing.
pub fn is_obeyed(character: char) -> bool {
    character.is_control()
        || matches!(
            character,
            '\u{61c}'
                | '\u{200e}'
                | '\u{200f}'
                | '\u{2028}'..='\u{202e}'
                | '\u{2066}'..='\u{2069}'
        )
}

/// The escape that tells it: a backslash, a `u` and its number in four hexadecimal digits, which are enough for all of them.
pub fn escape(character: char) -> String {
    format!("\\u{:04x}", u32::from(character))
}

#[cfg(test)]
mod tests {
    use super::*;

    #[test]
    fn what_is_obeyed_is_told_from_what_is_shown() {
        for obeyed in [
            '\0', '\t', '\n', '\r', '\u{1b}', '\u{1f}', '\u{7f}', '\u{80}', '\u{9b}', '\u{9f}',
            '\u{61c}', '\u{200e}', '\u{200f}', '\u{2028}', '\u{2029}', '\u{202a}', '\u{202e}',
            '\u{2066}', '\u{2069}',
        ] {
            assert!(is_obeyed(obeyed), "{obeyed:?}");
            let escape = escape(obeyed);
            assert_eq!(escape.len(), 6, "{escape}");
            assert!(escape.chars().all(|shown| !is_obeyed(shown)), "{escape}");
        }
        for shown in [
            ' ',
            '~',
            '"',
            '\\',
            '\u{a0}',
            'é',
            '\u{61b}',
            '\u{200d}',
            '\u{2027}',
            '\u{202f}',
            '\u{2065}',
            '\u{206a}',
            '\u{fffd}',
            '\u{1f600}',
        ] {
            assert!(!is_obeyed(shown), "{shown:?}");
        }
    }
}
