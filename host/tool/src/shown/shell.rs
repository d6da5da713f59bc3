//! Words as a shell takes them, for command lines that people are shown and can start as they stand.

use crate::shown::controls::is_obeyed;
use std::ffi::OsStr;
use std::os::unix::ffi::OsStrExt;

/// A file's name as one word of a command line. One that begins with a hyphen is named from its folder on, so that it is no option;
/// `-` alone is standard input, and stays.
pub fn file_word(name: &OsStr) -> String {
    match name.as_bytes() {
        b"-" => String::from("-"),
        [b'-', ..] => word(&[b"./", name.as_bytes()].concat()),
        bytes => word(bytes),
    }
}

/// A word in the quotes that it needs: none, or single ones, or, where it has bytes that cannot be shown, those in which a shell
/// reads escapes.
fn word(bytes: &[u8]) -> String {
    let is_plain = |byte: &u8| byte.is_ascii_alphanumeric() || b"-_./+:@%,".contains(byte);
    match std::str::from_utf8(bytes) {
        Ok(text) if !text.is_empty() && bytes.iter().all(is_plain) => text.to_string(),
        Ok(text) if !text.contains(is_obeyed) => format!("'{}'", text.replace('\'', "'\\''")),
        _ => format!("$'{}'", bytes.iter().map(escaped).collect::<String>()),
    }
}

/// A byte between `$'` and `'`.
fn escaped(byte: &u8) -> String {
    match byte {
        b'\'' | b'\\' => format!("\\{}", char::from(*byte)),
        b' '..=b'~' => char::from(*byte).to_string(),
        _ => format!("\\x{byte:02x}"),
    }
}

#[cfg(test)]
mod tests {
    use super::*;

    #[test]
    fn a_name_has_the_quotes_that_it_needs() {
        for (name, due) in [
            (&b"board.rom"[..], "board.rom"),
            (b"a/b_c-1.rom", "a/b_c-1.rom"),
            (b"-", "-"),
            (b"--all", "./--all"),
            (b"- x", "'./- x'"),
            (b"", "''"),
            (b"my board.rom", "'my board.rom'"),
            (b"$(reboot)", "'$(reboot)'"),
            (b"it's", "'it'\\''s'"),
            (b"~", "'~'"),
            ("\u{e9}.rom".as_bytes(), "'\u{e9}.rom'"),
            (b"a\nb'c\\", "$'a\\x0ab\\'c\\\\'"),
            (b"\xff1", "$'\\xff1'"),
            ("\u{9b}".as_bytes(), "$'\\xc2\\x9b'"),
        ] {
            assert_eq!(file_word(OsStr::from_bytes(name)), due);
        }
    }
}
