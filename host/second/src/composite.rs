//! Words that are made of parts: an ASPT structure, and a mailbox's line, register and places.

use crate::aspt::Structure;
use crate::lines::{bad, number, quoted, BadLine};
use crate::mailbox::{Post, Register, CALLERS};

/// Most posts in a mailbox's line.
const LONGEST_LINE: usize = 8;

/// The parts of a word between colons, where there are `N`; `form` says what the word should be.
fn fields<'a, const N: usize>(word: &'a [u8], form: &str) -> Result<[&'a [u8]; N], BadLine> {
    let fields: Vec<&[u8]> = word.split(|byte| *byte == b':').collect();
    match <[&[u8]; N]>::try_from(fields) {
        Ok(fields) => Ok(fields),
        Err(_) => bad(format!("{} is not of the form {}", quoted(word), form)),
    }
}

/// The parts of a word between commas; `-` is none.
fn listed(word: &[u8]) -> Vec<&[u8]> {
    if word == b"-" {
        return Vec::new();
    }
    word.split(|byte| *byte == b',').collect()
}

/// A field of a structure: a number where the type has the field, else `-` and no more.
fn field<T: TryFrom<u64> + Default>(word: &[u8], what: &str, has: bool) -> Result<T, BadLine> {
    match (has, word) {
        (true, _) => number(word, what),
        (false, b"-") => Ok(T::default()),
        (false, _) => bad(format!(
            "{} {} is a field that the structure's type lacks; write -",
            what,
            quoted(word)
        )),
    }
}

/// A structure of an ASPT to be written: `TYPE:ID:A:B:C`. A type that there is not has all fields.
pub fn structure(word: &[u8]) -> Result<Structure, BadLine> {
    let [kind, id, a, b, c] = fields(word, "TYPE:ID:A:B:C")?;
    let kind: u16 = number(kind, "TYPE")?;
    let has_id = kind != 0 && kind != 2;
    let has_three = kind != 2;
    Ok(Structure {
        kind,
        id: field(id, "ID", has_id)?,
        registers: [
            field(a, "A", true)?,
            field(b, "B", has_three)?,
            field(c, "C", has_three)?,
        ],
    })
}

/// A structure of an ASPT that was read.
pub fn shown_structure(structure: &Structure) -> String {
    let [a, b, c] = structure.registers;
    match structure.kind {
        0 => format!("0:-:{:#x}:{:#x}:{:#x}", a, b, c),
        2 => format!("2:-:{:#x}:-:-", a),
        kind => format!("{}:{:#x}:{:#x}:{:#x}:{:#x}", kind, structure.id, a, b, c),
    }
}

/// A mailbox's line: posts `CALLER:COMMAND:DATA`, oldest first, at most eight.
pub fn line(word: &[u8]) -> Result<Vec<Post>, BadLine> {
    let posts = listed(word);
    if posts.len() > LONGEST_LINE {
        return bad(format!("LINE has {} posts; at most eight", posts.len()));
    }
    posts.into_iter().map(post).collect()
}

fn post(word: &[u8]) -> Result<Post, BadLine> {
    let [caller, command, data] = fields(word, "CALLER:COMMAND:DATA")?;
    Ok(Post {
        caller: number(caller, "CALLER")?,
        command: number(command, "COMMAND")?,
        data: number(data, "DATA")?,
    })
}

/// A mailbox's register: `idle`, `command:CALLER:WORD` or `response:CALLER:WORD`.
pub fn register(word: &[u8]) -> Result<Register, BadLine> {
    const FORM: &str = "idle, command:CALLER:WORD or response:CALLER:WORD";
    if word == b"idle" {
        return Ok(Register::Idle);
    }
    let [phase, caller, value] = fields(word, FORM)?;
    let caller = number(caller, "CALLER")?;
    let value = number(value, "WORD")?;
    match phase {
        b"command" => Ok(Register::Command {
            caller,
            word: value,
        }),
        b"response" => Ok(Register::Response {
            caller,
            word: value,
        }),
        _ => bad(format!("{} is not of the form {}", quoted(word), FORM)),
    }
}

/// The words in a mailbox's places: `CALLER:WORD`, each caller once and from 0 to 7.
pub fn places(word: &[u8]) -> Result<[Option<u32>; CALLERS], BadLine> {
    let mut ready = [None; CALLERS];
    for place in listed(word) {
        let [caller, value] = fields(place, "CALLER:WORD")?;
        let caller: u32 = number(caller, "CALLER")?;
        let value: u32 = number(value, "WORD")?;
        match ready.get_mut(caller as usize) {
            None => return bad(format!("caller {} has no place; use 0 to 7", caller)),
            Some(Some(_)) => return bad(format!("caller {} is in PLACES twice", caller)),
            Some(free) => *free = Some(value),
        }
    }
    Ok(ready)
}

#[cfg(test)]
mod tests;
