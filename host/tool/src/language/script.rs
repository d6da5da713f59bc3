//! A script of calls, read a line at a time: from a file or from standard input.

use crate::system::opening::open;
use std::ffi::OsStr;
use std::io::{self, BufRead, BufReader, Read};

/// The most bytes that a line may have: twice as many as it takes to write over the largest buffer.
const LONGEST_LINE: u64 = 1 << 28;

/// Why a script was not gone through to its end.
pub enum Stopped {
    /// It could not be read.
    Reading(io::Error),
    /// What was to be written of a line could not be.
    Writing(io::Error),
}

/// Goes through the lines of a file, or of standard input where the name is `-`: each is given with its number and its end, before
/// the next one is read.
pub fn each_line(
    name: &OsStr,
    each: impl FnMut(u64, &[u8]) -> io::Result<()>,
) -> Result<(), Stopped> {
    if name == "-" {
        return each_line_of(&mut io::stdin().lock(), each);
    }
    let file = open(name).map_err(Stopped::Reading)?;
    each_line_of(&mut BufReader::new(file), each)
}

/// The same of any lines.
pub fn each_line_of(
    lines: &mut dyn BufRead,
    mut each: impl FnMut(u64, &[u8]) -> io::Result<()>,
) -> Result<(), Stopped> {
    let mut line = Vec::new();
    for number in 1u64.. {
        line.clear();
        if read_line(lines, &mut line, LONGEST_LINE).map_err(Stopped::Reading)? == 0 {
            break;
        }
        each(number, &line).map_err(Stopped::Writing)?;
    }
    Ok(())
}

/// Reads a line with its end, and tells its length, which is 0 where there is no line more. A longer one than `most` bytes
/// is an error: it is not kept, and a device without end is not read for ever.
fn read_line(lines: &mut dyn BufRead, line: &mut Vec<u8>, most: u64) -> io::Result<usize> {
    let read = Read::take(lines, most + 1).read_until(b'\n', line)?;
    if read as u64 > most {
        let text = format!("a line has more than {most} bytes, which no call needs");
        return Err(io::Error::new(io::ErrorKind::InvalidData, text));
    }
    Ok(read)
}

#[cfg(test)]
mod tests {
    use super::*;

    #[test]
    fn a_line_may_be_as_long_as_the_limit_and_no_longer() {
        let read = |lines: &[u8]| {
            let mut line = Vec::new();
            let read = read_line(&mut &lines[..], &mut line, 4);
            read.map(|_| line).map_err(|error| error.to_string())
        };
        assert_eq!(read(b""), Ok(Vec::new()));
        assert_eq!(read(b"abc\nd"), Ok(b"abc\n".to_vec()));
        assert_eq!(read(b"abcd"), Ok(b"abcd".to_vec()));
        for lines in [&b"abcd\n"[..], b"abcde", b"abcdefgh\n"] {
            let message = read(lines).unwrap_err();
            assert!(message.starts_with("a line has more than 4 bytes"));
        }
    }

    #[test]
    fn lines_are_numbered_and_a_fault_of_theirs_stops() {
        let mut seen = Vec::new();
        let through = each_line_of(&mut &b"a\r\n\nb"[..], |number, line| {
            seen.push((number, line.to_vec()));
            Ok(())
        });
        assert!(through.is_ok());
        let expected = [(1, &b"a\r\n"[..]), (2, b"\n"), (3, b"b")];
        assert_eq!(seen, expected.map(|(number, line)| (number, line.to_vec())));
        let stopped = each_line_of(&mut &b"a\nb\n"[..], |_, _| {
            Err(io::Error::from(io::ErrorKind::BrokenPipe))
        });
        assert!(matches!(stopped, Err(Stopped::Writing(_))));
        let unread = each_line(OsStr::new("there/is/no/such.ask"), |_, _| Ok(()));
        assert!(matches!(unread, Err(Stopped::Reading(_))));
    }
}
