//! The names that people give to entry types and address modes, and entry types as people write them.

use crate::arguments::numbers;
use crate::arguments::quoted::quoted;
use std::ffi::OsStr;
use std::os::unix::ffi::OsStrExt;
use strsim::damerau_levenshtein;

/// A type of entry that source 001 names.
pub struct EntryType {
    pub code: u8,
    /// What people write for it.
    pub name: &'static str,
    /// What is shown for it.
    pub words: &'static str,
}

const fn named(code: u8, name: &'static str, words: &'static str) -> EntryType {
    EntryType { code, name, words }
}

/// The types that source 001 names, rising.
pub static ENTRY_TYPES: &[EntryType] = &[
    named(0x00, "amd-public-key", "AMD public key"),
    named(0x01, "boot-loader", "boot loader"),
    named(0x02, "secure-os", "secure OS"),
    named(0x03, "recovery-boot-loader", "recovery boot loader"),
    named(0x08, "smu-firmware", "SMU firmware"),
    named(0x09, "debug-unlock-key", "debug unlock key"),
    named(0x0B, "soft-fuse-chain", "soft fuse chain"),
    named(0x0C, "trustlets", "trustlets"),
    named(0x12, "smu-firmware-2", "SMU firmware, section 2"),
    named(0x13, "debug-unlock-image", "debug unlock image"),
    named(0x21, "wrapped-ikek", "wrapped iKEK"),
    named(0x22, "token-unlock", "token unlock data"),
    named(0x24, "security-policy", "security policy"),
    named(0x25, "mp2-firmware", "MP2 firmware"),
    named(0x28, "system-driver", "system driver"),
    named(0x30, "agesa-0", "AGESA binary 0"),
    named(0x31, "agesa-1", "AGESA binary 1"),
    named(0x32, "agesa-2", "AGESA binary 2"),
    named(0x33, "agesa-3", "AGESA binary 3"),
    named(0x34, "agesa-4", "AGESA binary 4"),
    named(0x35, "agesa-5", "AGESA binary 5"),
    named(0x36, "agesa-6", "AGESA binary 6"),
    named(0x37, "agesa-7", "AGESA binary 7"),
    named(0x3A, "whitelist", "whitelist"),
    named(0x40, "level-two", "level 2 directory"),
    named(0x52, "oem-application", "OEM application"),
];

/// The entry type of a code, where source 001 names it.
pub fn entry_type(code: u64) -> Option<&'static EntryType> {
    ENTRY_TYPES
        .iter()
        .find(|known| u64::from(known.code) == code)
}

/// What is shown for an entry type: its words, or that it has none.
pub fn entry_type_words(code: u64) -> &'static str {
    entry_type(code).map_or("unnamed type", |known| known.words)
}

/// An entry type with its number before its words: `0x01 boot loader`.
pub fn numbered_type(code: u64) -> String {
    format!("{code:#04x} {}", entry_type_words(code))
}

/// A TYPE as people write it: a number of 8 bits, or a name of [`ENTRY_TYPES`]. The error says what to write.
pub fn read_entry_type(word: &OsStr) -> Result<u8, String> {
    if let Some(known) = ENTRY_TYPES.iter().find(|known| word == known.name) {
        return Ok(known.code);
    }
    match word.as_bytes().first() {
        Some(byte) if byte.is_ascii_digit() => numbers::number8("TYPE", word.as_bytes()),
        _ => Err(no_entry_type(word)),
    }
}

/// What is said of a word that is no TYPE: the name that was meant, where one is near, else all of them.
fn no_entry_type(word: &OsStr) -> String {
    let given = quoted(word.as_bytes());
    match meant_by(word) {
        Some(meant) => format!("there is no type {given}; did you mean '{}'?", meant.name),
        None => {
            let names: Vec<&str> = ENTRY_TYPES.iter().map(|known| known.name).collect();
            format!(
                "there is no type {given}; write a number, or one of these names: {}",
                names.join(", ")
            )
        }
    }
}

/// The type whose name a word misses by little, the nearest where there are several: of three letters at most one is left out,
/// added, changed or swapped with the one beside it. Capital letters are no miss.
fn meant_by(word: &OsStr) -> Option<&'static EntryType> {
    let word = word.to_str()?.to_lowercase();
    let most = word.chars().count() / 3;
    let near = ENTRY_TYPES
        .iter()
        .map(|known| (damerau_levenshtein(&word, known.name), known))
        .filter(|(misses, _)| *misses <= most);
    near.min_by_key(|(misses, _)| *misses)
        .map(|(_, known)| known)
}

/// The names of the entry types with their codes, as a help shows them: in columns, and with a line before them.
pub fn list_of_types() -> String {
    const ACROSS: usize = 3;
    let mut text = String::from("The names of entry types:\n");
    for row in ENTRY_TYPES.chunks(ACROSS) {
        let cells: Vec<String> = row
            .iter()
            .map(|known| format!("{:#04x} {:<20}", known.code, known.name))
            .collect();
        text.push_str(&format!("  {}\n", cells.join("  ").trim_end()));
    }
    text
}

/// What people write for the address modes 0 to 3.
const ADDRESS_MODES: [&str; 4] = ["physical", "image", "directory", "partition"];

/// A MODE as people write it: a name of [`ADDRESS_MODES`], or a number. The error says what to write.
pub fn read_address_mode(word: &[u8]) -> Result<u32, String> {
    if let Some(mode) = ADDRESS_MODES
        .iter()
        .position(|name| name.as_bytes() == word)
    {
        return Ok(mode as u32);
    }
    match word.first() {
        Some(byte) if byte.is_ascii_digit() => numbers::number32("MODE", word),
        _ => Err(format!(
            "MODE is {}, which is no address mode; write {}, or its number 0 to 3",
            quoted(word),
            ADDRESS_MODES.join(", ")
        )),
    }
}

/// An address mode with its number, and how an entry of it counts its location: `mode 1: from image start`.
pub fn address_mode_words(mode: u64) -> String {
    let counted = match mode {
        0 => "physical address",
        1 => "from image start",
        2 => "from directory start",
        _ => "from partition start",
    };
    format!("mode {mode}: {counted}")
}

#[cfg(test)]
mod tests {
    use super::*;

    #[test]
    fn types_rise_and_no_name_stands_twice() {
        for pair in ENTRY_TYPES.windows(2) {
            assert!(pair[0].code < pair[1].code, "{}", pair[1].name);
        }
        let mut names: Vec<&str> = ENTRY_TYPES.iter().map(|known| known.name).collect();
        names.sort_unstable();
        names.dedup();
        assert_eq!(names.len(), ENTRY_TYPES.len());
    }

    #[test]
    fn a_type_is_read_as_a_name_or_a_number() {
        for known in ENTRY_TYPES {
            assert_eq!(read_entry_type(OsStr::new(known.name)), Ok(known.code));
        }
        for (word, code) in [("0", 0), ("0x1", 1), ("255", 255), ("0x40", 0x40)] {
            assert_eq!(read_entry_type(OsStr::new(word)), Ok(code));
        }
        for word in ["256", "0x100", "0x", "1a"] {
            let message = read_entry_type(OsStr::new(word)).unwrap_err();
            assert!(message.starts_with("TYPE is "), "{message}");
            assert!(message.contains("; write "), "{message}");
        }
    }

    #[test]
    fn a_near_miss_of_a_name_is_told_the_name_that_was_meant() {
        for (word, meant) in [
            ("boot-lader", "boot-loader"),
            ("bootloader", "boot-loader"),
            ("boot_loader", "boot-loader"),
            ("Boot-Loader", "boot-loader"),
            ("boot-laoder", "boot-loader"),
            ("recovery-bootloader", "recovery-boot-loader"),
            ("secureos", "secure-os"),
            ("smu-firmwre-2", "smu-firmware-2"),
            ("trustlet", "trustlets"),
        ] {
            let message = read_entry_type(OsStr::new(word)).unwrap_err();
            let due = format!("there is no type '{word}'; did you mean '{meant}'?");
            assert_eq!(message, due);
        }
        for word in ["", "-1", "boot", "firmware", "os", "level-three", "\u{e9}"] {
            let message = read_entry_type(OsStr::new(word)).unwrap_err();
            let due = "; write a number, or one of these names: amd-public-key, ";
            assert!(message.contains(due), "{word}: {message}");
        }
    }

    #[test]
    fn a_mode_is_read_as_a_name_or_a_number() {
        for (mode, name) in (0..).zip(ADDRESS_MODES) {
            assert_eq!(read_address_mode(name.as_bytes()), Ok(mode));
            assert_eq!(read_address_mode(mode.to_string().as_bytes()), Ok(mode));
        }
        assert_eq!(read_address_mode(b"0x4"), Ok(4));
        for word in [&b"flash"[..], b"", b"Image", b"1x", b"4294967296"] {
            let message = read_address_mode(word).unwrap_err();
            assert!(message.starts_with("MODE is "), "{message}");
            assert!(message.contains("; write "), "{message}");
        }
    }

    #[test]
    fn the_list_has_every_type() {
        let list = list_of_types();
        for known in ENTRY_TYPES {
            assert!(list.contains(&format!("{:#04x} {}", known.code, known.name)));
        }
    }

    #[test]
    fn types_and_modes_without_a_name_are_shown_as_such() {
        assert_eq!(entry_type_words(0x01), "boot loader");
        assert_eq!(entry_type_words(0x04), "unnamed type");
        assert_eq!(entry_type_words(0x101), "unnamed type");
        assert_eq!(numbered_type(0x01), "0x01 boot loader");
        assert_eq!(numbered_type(0x5A), "0x5a unnamed type");
        assert_eq!(
            [0, 1, 2, 3].map(address_mode_words),
            [
                "mode 0: physical address",
                "mode 1: from image start",
                "mode 2: from directory start",
                "mode 3: from partition start",
            ]
        );
    }
}
