//! Standard output, for commands that write all they have at once.

use crate::system::ending::Ending;
use std::io::Write;

/// Prints a text on standard output.
pub fn print(text: &str) -> Ending {
    write(text.as_bytes())
}

/// Writes bytes to standard output.
pub fn write(bytes: &[u8]) -> Ending {
    let mut out = std::io::stdout().lock();
    match out.write_all(bytes).and_then(|()| out.flush()) {
        Ok(()) => Ending::Done,
        Err(error) => Ending::of_unwritten(&error),
    }
}
