//! One form for each thing that several commands print for people, so that one search finds it in all output.

use bindings::Part;
use std::fmt::Display;

/// So many of something: `1 entry`, `5 entries`.
pub fn counted(amount: u64, one: &str, more: &str) -> String {
    match amount {
        1 => format!("1 {one}"),
        _ => format!("{amount} {more}"),
    }
}

/// How many entries something has.
pub fn entries(amount: u64) -> String {
    counted(amount, "entry", "entries")
}

/// How many bytes something has.
pub fn bytes(amount: u64) -> String {
    counted(amount, "byte", "bytes")
}

/// A field that holds a number of bytes: `0xc00 (3072 bytes)`.
pub fn size(size: u64) -> String {
    format!("{size:#x} ({})", bytes(size))
}

/// How many entries a lookup tested.
pub fn tested(amount: u64) -> String {
    format!("{} tested", entries(amount))
}

/// A directory, by its level: `level 2`.
pub fn level(level: impl Display) -> String {
    format!("level {level}")
}

/// A directory, by its level and where it begins: `level 2 at 0x28000`.
pub fn directory(level: impl Display, place: u64) -> String {
    format!("{} at {place:#x}", self::level(level))
}

/// An entry, by its index and what stands above for its directory: `entry 0 of level 2`.
pub fn entry(index: impl Display, directory: &str) -> String {
    format!("entry {index} of {directory}")
}

/// What stands before the entries of a directory: `header of level 2 at 0x28000`.
pub fn header(directory: &str) -> String {
    format!("header of {directory}")
}

/// Where a part of the image lies: its first and its last byte.
pub fn range(part: Part) -> String {
    let Part { place, length } = part;
    match length {
        0 => format!("none, at {place:#x}"),
        _ => format!("{place:#x} to {:#x}", place + (length - 1)),
    }
}

/// The same, where it is to be said of what.
pub fn range_of_image(part: Part) -> String {
    format!("{} of the image", range(part))
}

/// A line of a file, before what is said of it: `"board.txt", line 3`.
pub fn line(file: &str, line: impl Display) -> String {
    format!("{file}, line {line}")
}

#[cfg(test)]
mod tests {
    use super::*;

    #[test]
    fn one_is_told_as_one() {
        assert_eq!(
            [0, 1, 2].map(entries),
            ["0 entries", "1 entry", "2 entries"]
        );
        assert_eq!(tested(1), "1 entry tested");
        assert_eq!(
            [0, 1, 256].map(size),
            ["0x0 (0 bytes)", "0x1 (1 byte)", "0x100 (256 bytes)"]
        );
    }

    #[test]
    fn bytes_are_shown_from_the_first_to_the_last() {
        let at = |place, length| range_of_image(Part { place, length });
        assert_eq!(at(0x1000, 0x100), "0x1000 to 0x10ff of the image");
        assert_eq!(at(0, 1), "0x0 to 0x0 of the image");
        assert_eq!(at(7, 0), "none, at 0x7 of the image");
    }
}
