//! The calls on the mailbox as they are written, by `ask` and by `mailbox` alike, and what their words stand for.

use crate::arguments::call::CallForm;
use crate::arguments::lines::BadLine;
use crate::arguments::numbers::{number, number16, number32};
use crate::arguments::quoted::quoted;
use bindings::{CallerPlace, Mailbox, Post, Register};

pub const FRESH: CallForm = CallForm::new("mailbox", "", "a fresh mailbox");
pub const DESCRIBED: CallForm = CallForm::new(
    "mailbox-of",
    "LINE REGISTER PLACES",
    "the mailbox described, also one that breaks the rules",
);
pub const POST: CallForm = CallForm::new(
    "post",
    "CALLER COMMAND DATA",
    "a caller's post joins the line",
);
pub const LOAD: CallForm = CallForm::new("load", "", "the oldest post enters an idle register");
pub const TURN: CallForm =
    CallForm::new("turn", "", "a command in the register becomes its response");
pub const UNLOAD: CallForm = CallForm::new("unload", "", "a response goes to its caller's place");
pub const TAKE: CallForm = CallForm::new("take", "CALLER", "a caller takes its word");
pub const FIRMWARE: CallForm = CallForm::new(
    "firmware",
    "",
    "the state of the firmware behind the mailbox",
);

/// All of them, in the order in which the help shows them.
pub const FORMS: [CallForm; 8] = [FRESH, DESCRIBED, POST, LOAD, TURN, UNLOAD, TAKE, FIRMWARE];

/// The caller, the command and the data of a `post`, by the words after its name.
pub fn asked_post(words: &[&[u8]]) -> Result<(u32, u32, u16), BadLine> {
    let caller = asked_caller(words)?;
    let command = number32("COMMAND", words[1])?;
    let data = number16("DATA", words[2])?;
    Ok((caller, command, data))
}

/// The caller of a `post` or a `take`, by the words after its name.
pub fn asked_caller(words: &[&[u8]]) -> Result<u32, BadLine> {
    Ok(number32("CALLER", words[0])?)
}

/// A mailbox as `mailbox-of` describes it.
pub struct Description {
    pub line: Vec<Post>,
    pub register: Register,
    pub places: [CallerPlace; 8],
}

impl Description {
    /// The mailbox described, before fresh firmware.
    pub fn mailbox(&self) -> Mailbox {
        Mailbox::of(&self.line, self.register, self.places)
    }
}

/// What a `mailbox-of` describes, by the words after its name.
pub fn description(words: &[&[u8]]) -> Result<Description, BadLine> {
    let line = line(words[0])?;
    let register = register(words[1])?;
    let ready = ready(words[2])?;
    let places = places(&line, register, &ready);
    Ok(Description {
        line,
        register,
        places,
    })
}

/// The items of a word: none for `-`, else those that commas part.
fn items(word: &[u8]) -> Vec<&[u8]> {
    match word {
        b"-" => Vec::new(),
        _ => word.split(|&byte| byte == b',').collect(),
    }
}

/// The fields of an item, as many as there must be.
fn fields<'a, const AMOUNT: usize>(
    item: &'a [u8],
    form: &str,
) -> Result<[&'a [u8]; AMOUNT], BadLine> {
    let fields: Vec<&[u8]> = item.split(|&byte| byte == b':').collect();
    <[&[u8]; AMOUNT]>::try_from(fields).map_err(|_| {
        let item = quoted(item);
        BadLine::new(format!("{item} is not of the form {form}"))
    })
}

/// A caller in a mailbox that need not keep the rules.
fn any_caller(word: &[u8]) -> Result<u32, BadLine> {
    Ok(number("CALLER", word, u64::from(u8::MAX))? as u32)
}

/// The posts that LINE stands for.
fn line(word: &[u8]) -> Result<Vec<Post>, BadLine> {
    let items = items(word);
    if items.len() > 8 {
        return Err(BadLine::new(format!(
            "LINE has {} posts; write at most eight",
            items.len()
        )));
    }
    let post = |item: &&[u8]| {
        let [caller, command, data] = fields(item, "CALLER:COMMAND:DATA")?;
        Ok(Post {
            caller: any_caller(caller)?,
            command: number16("COMMAND", command)?,
            data: number16("DATA", data)?,
        })
    };
    items.iter().map(post).collect()
}

/// The register that REGISTER stands for.
fn register(word: &[u8]) -> Result<Register, BadLine> {
    if word == b"idle" {
        return Ok(Register::Idle);
    }
    let form = "idle, command:CALLER:WORD or response:CALLER:WORD";
    let [phase, caller, word] = fields(word, form)?;
    let caller = any_caller(caller)?;
    let word = number32("WORD", word)?;
    match phase {
        b"command" => Ok(Register::Command { caller, word }),
        b"response" => Ok(Register::Response { caller, word }),
        _ => Err(BadLine::new(format!(
            "REGISTER begins with {}; write {form}",
            quoted(phase)
        ))),
    }
}

/// The words that PLACES says are delivered, by caller.
fn ready(word: &[u8]) -> Result<[Option<u32>; 8], BadLine> {
    let mut ready = [None; 8];
    for item in items(word) {
        let [caller, word] = fields(item, "CALLER:WORD")?;
        let caller = number("CALLER", caller, 7)?;
        let word = number32("WORD", word)?;
        if ready[caller as usize].replace(word).is_some() {
            return Err(BadLine::new(format!(
                "PLACES has caller {caller} twice; write each caller once"
            )));
        }
    }
    Ok(ready)
}

/// Every caller's place: a delivered word; else waiting where the caller stands in line or register; else free.
fn places(line: &[Post], register: Register, ready: &[Option<u32>; 8]) -> [CallerPlace; 8] {
    let waits = |of: u32| {
        let registered = match register {
            Register::Idle => false,
            Register::Command { caller, .. } | Register::Response { caller, .. } => caller == of,
        };
        registered || line.iter().any(|post| post.caller == of)
    };
    [0, 1, 2, 3, 4, 5, 6, 7].map(|caller: u32| match ready[caller as usize] {
        Some(word) => CallerPlace::Ready(word),
        None if waits(caller) => CallerPlace::Waiting,
        None => CallerPlace::Free,
    })
}

#[cfg(test)]
mod tests {
    use super::*;

    #[test]
    fn every_caller_that_waits_is_marked() {
        let line = line(b"1:0:0,9:0:0").unwrap();
        let ready = ready(b"0:5,1:6").unwrap();
        let found = places(&line, register(b"response:7:0").unwrap(), &ready);
        let mut expected = [CallerPlace::Free; 8];
        expected[0] = CallerPlace::Ready(5);
        expected[1] = CallerPlace::Ready(6);
        expected[7] = CallerPlace::Waiting;
        assert_eq!(found, expected);
    }
}
