//! Files with the bytes that a command asks the library about: read once, and lent as they are.

use crate::system::ending::Ending;
use crate::system::messages::say;
use crate::system::opening::{open, Opened};
use std::ffi::OsStr;
use std::io::{self, Read};

/// The most bytes that a file may have. No image of a flash or a guest is longer, and a device without end is not read for ever.
pub const MOST: u64 = 64 << 20;

/// Reads a file, or standard input where the name is `-`. The error is the message to show; the status is then 3.
pub fn read(name: &OsStr) -> Result<Vec<u8>, String> {
    match read_up_to(name, MOST + 1) {
        Ok(bytes) if bytes.len() as u64 > MOST => Err(format!(
            "{} has more than {MOST} bytes, and no image is as long. \
             Name the image itself, or cut it out of this file.",
            shown_name(name)
        )),
        Ok(bytes) => Ok(bytes),
        Err(error) => Err(format!(
            "{} cannot be read: {error}. Name a file that is there and can be read, \
             or - for standard input.",
            shown_name(name)
        )),
    }
}

/// Reads a file and asks about its bytes. One that cannot be read is told, and ends the run.
pub fn asked(name: &OsStr, ask: impl FnOnce(&[u8]) -> Ending) -> Ending {
    match read(name) {
        Ok(bytes) => ask(&bytes),
        Err(message) => {
            say(&message);
            Ending::NotReadOrWritten
        }
    }
}

/// At most so many bytes of a file, or of standard input where the name is `-`.
pub fn read_up_to(name: &OsStr, most: u64) -> io::Result<Vec<u8>> {
    let mut bytes = Vec::new();
    if name == "-" {
        io::stdin().lock().take(most).read_to_end(&mut bytes)?;
        return Ok(bytes);
    }
    let opened = open(name)?;
    // Room for the whole file at once, where the system tells its length.
    bytes.reserve_exact(opened.length().min(most) as usize + 1);
    match opened {
        // The system's own file fills room that nobody has cleared; what reads through ours would have it cleared first.
        Opened::File(file) => file.take(most).read_to_end(&mut bytes)?,
        pipe => pipe.take(most).read_to_end(&mut bytes)?,
    };
    Ok(bytes)
}

/// The name of a file that is read, as a message shows it; `-` is standard input.
pub fn shown_name(name: &OsStr) -> String {
    match name == "-" {
        true => String::from("standard input"),
        false => quoted_name(name),
    }
}

/// A file's name in quotes. Whatever it has in it, it stays on its line and changes nothing of the terminal.
pub fn quoted_name(name: &OsStr) -> String {
    format!("{name:?}")
}

#[cfg(test)]
mod tests {
    use super::*;

    #[test]
    fn a_file_that_cannot_be_read_is_told_with_what_to_do() {
        for name in ["there/is/no/such.rom", "/"] {
            let message = read(OsStr::new(name)).unwrap_err();
            let begins = format!("{name:?} cannot be read: ");
            assert!(message.starts_with(&begins), "{message}");
            assert!(message.contains("Name a file"), "{message}");
        }
    }

    #[test]
    fn a_file_without_end_is_not_read_for_ever() {
        let message = read(OsStr::new("/dev/zero")).unwrap_err();
        assert!(
            message.contains("has more than 67108864 bytes"),
            "{message}"
        );
    }

    #[test]
    fn a_file_is_read_whole() {
        assert_eq!(read(OsStr::new("/dev/null")), Ok(Vec::new()));
        let own = std::env::current_exe().unwrap();
        let bytes = read(own.as_os_str()).unwrap();
        assert_eq!(bytes.len() as u64, std::fs::metadata(&own).unwrap().len());
    }
}
