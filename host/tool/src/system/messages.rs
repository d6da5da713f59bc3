//! What the tool says to people beside its answers.

use std::io::Write;

/// Writes a message to standard error, after the program's name: messages are made without it, since programs are told them too.
/// Where standard error cannot be written nobody can be told, and the status tells what happened.
pub fn say(message: &str) {
    // In one piece, so that no other program writes into the line.
    let line = format!("kpalumere: {message}\n");
    drop(std::io::stderr().write_all(line.as_bytes()));
}
