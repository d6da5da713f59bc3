//! The named buffers: the bytes that are lent to the calls.

use crate::lines::{bad, quoted, BadLine};
use std::collections::HashMap;
use std::ffi::OsStr;
use std::fs::{self, File};
use std::io::{self, Read};
use std::ops::Range;
use std::os::unix::ffi::OsStrExt;
use std::os::unix::fs::FileTypeExt;

/// The longest buffer.
pub const LONGEST: u64 = 67_108_864;

/// All buffers by their names.
#[derive(Default)]
pub struct Buffers {
    by_name: HashMap<Vec<u8>, Vec<u8>>,
}

impl Buffers {
    /// The buffer's bytes, to be read.
    pub fn lent(&self, name: &[u8]) -> Result<&[u8], BadLine> {
        match self.by_name.get(name) {
            Some(bytes) => Ok(bytes),
            None => unknown(name),
        }
    }

    /// The buffer's bytes, to be written.
    pub fn lent_to_write(&mut self, name: &[u8]) -> Result<&mut [u8], BadLine> {
        match self.by_name.get_mut(name) {
            Some(bytes) => Ok(bytes),
            None => unknown(name),
        }
    }

    /// A buffer with these bytes, in the place of any of that name. Gives its length.
    fn set(&mut self, name: &[u8], bytes: Vec<u8>) -> usize {
        let length = bytes.len();
        self.by_name.insert(name.to_vec(), bytes);
        length
    }

    /// A new buffer of equal bytes.
    pub fn make(&mut self, name: &[u8], length: u64, byte: u8) -> Result<usize, BadLine> {
        if length > LONGEST {
            return bad(format!(
                "LENGTH {} is too large; at most {}",
                length, LONGEST
            ));
        }
        Ok(self.set(name, vec![byte; length as usize]))
    }

    /// A new buffer with a file's bytes.
    pub fn read_file(&mut self, name: &[u8], path: &[u8]) -> Result<usize, BadLine> {
        match file_bytes(path) {
            Ok(bytes) if bytes.len() as u64 > LONGEST => bad(format!(
                "the file {} is too long; at most {} bytes",
                quoted(path),
                LONGEST
            )),
            Ok(bytes) => Ok(self.set(name, bytes)),
            Err(error) => bad(format!(
                "the file {} cannot be read ({}); give the path of a file that can",
                quoted(path),
                error.kind()
            )),
        }
    }

    /// A new buffer with the bytes of another, or of itself.
    pub fn copy(&mut self, name: &[u8], from: &[u8]) -> Result<usize, BadLine> {
        let bytes = self.lent(from)?.to_vec();
        Ok(self.set(name, bytes))
    }

    /// Writes the bytes over the buffer's from the offset on.
    pub fn patch(&mut self, name: &[u8], offset: u64, bytes: &[u8]) -> Result<(), BadLine> {
        let buffer = self.lent_to_write(name)?;
        let place = range_in(buffer, offset, bytes.len() as u64)?;
        buffer[place].copy_from_slice(bytes);
        Ok(())
    }

    /// The buffer's bytes from the offset on, so many.
    pub fn part(&self, name: &[u8], offset: u64, length: u64) -> Result<&[u8], BadLine> {
        let buffer = self.lent(name)?;
        let place = range_in(buffer, offset, length)?;
        Ok(&buffer[place])
    }
}

fn unknown<T>(name: &[u8]) -> Result<T, BadLine> {
    bad(format!(
        "no buffer is named {}; make one with buffer or file",
        quoted(name)
    ))
}

/// The file's bytes; of a file that is too long, one byte more than a buffer may have.
fn file_bytes(path: &[u8]) -> io::Result<Vec<u8>> {
    let path = OsStr::from_bytes(path);
    // A pipe that nobody writes to would be waited for without end.
    if fs::metadata(path)?.file_type().is_fifo() {
        return Err(io::ErrorKind::Unsupported.into());
    }
    let mut bytes = Vec::new();
    File::open(path)?
        .take(LONGEST + 1)
        .read_to_end(&mut bytes)?;
    Ok(bytes)
}

/// The range from the offset on, so long, where it lies in the buffer. An empty one may lie at the
/// buffer's end, and not behind it.
fn range_in(buffer: &[u8], offset: u64, length: u64) -> Result<Range<usize>, BadLine> {
    match offset.checked_add(length) {
        Some(end) if end <= buffer.len() as u64 => Ok(offset as usize..end as usize),
        _ => bad(format!(
            "{} bytes at {} do not lie in the buffer; it has {}",
            length,
            offset,
            buffer.len()
        )),
    }
}

/// FNV-1a, 64 bits.
pub fn digest(bytes: &[u8]) -> u64 {
    bytes.iter().fold(0xCBF2_9CE4_8422_2325, |hash, byte| {
        (hash ^ u64::from(*byte)).wrapping_mul(0x0000_0100_0000_01B3)
    })
}

#[cfg(test)]
mod tests;
