//! What every answer for programs begins with: the number of its form, and the file that was asked about.

use crate::shown::digits::hexadecimal;
use crate::shown::json::{Fields, Json};
use std::ffi::OsStr;
use std::os::unix::ffi::OsStrExt;

/// The number of the form of answers for programs: it rises where a field goes away or means something else.
pub const FORMAT: u64 = 2;

/// The fields that an answer for programs begins with: the number of its form, and the file's name.
pub fn first_fields(name: &OsStr) -> Fields {
    let (text, bytes) = name_for_programs(name);
    vec![
        ("format", Json::Number(FORMAT)),
        ("file", Json::Text(text)),
        ("file_bytes", Json::or_null(bytes, Json::Text)),
    ]
}

/// A file's name as programs are told it: its text, and, where that is not the name itself, the name's bytes in hexadecimal
/// digits.
pub fn name_for_programs(name: &OsStr) -> (String, Option<String>) {
    let bytes = match name.to_str() {
        Some(_) => None,
        None => Some(hexadecimal(name.as_bytes())),
    };
    (name.to_string_lossy().into_owned(), bytes)
}

#[cfg(test)]
mod tests {
    use super::*;

    #[test]
    fn a_name_that_is_no_text_is_told_byte_by_byte_as_well() {
        let fields = |name: &[u8]| Json::Object(first_fields(OsStr::from_bytes(name))).to_string();
        assert_eq!(
            fields(b"a.rom"),
            "{\"format\": 2, \"file\": \"a.rom\", \"file_bytes\": null}"
        );
        assert_eq!(
            fields(b"\xe9.rom"),
            "{\"format\": 2, \"file\": \"\u{fffd}.rom\", \"file_bytes\": \"e92e726f6d\"}"
        );
    }
}
