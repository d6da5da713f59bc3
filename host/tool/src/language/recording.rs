//! A recording, played: the calls of each mailbox in it, each with the library's answer.

use super::recorded;
use crate::arguments::lines::{words_of, BadLine};
use crate::arguments::mailbox_calls::{asked_caller, asked_post, description, Description, FORMS};
use crate::arguments::quoted::quoted;
use bindings::{Answer, CallerPlace, Firmware, Mailbox, Refusal, Register};
use std::collections::BTreeMap;

/// A recording, as far as it has been played.
pub struct Recording {
    /// The mailboxes, one after another. The first begins with the recording.
    pub parts: Vec<Part>,
    /// The lines that are no calls on the mailbox.
    pub wrong: Vec<WrongLine>,
}

/// A line that was left out.
#[derive(Debug, PartialEq, Eq)]
pub struct WrongLine {
    pub line: u64,
    pub reason: String,
}

/// One mailbox, with all that was asked of it.
pub struct Part {
    /// The line that made it, and whether that line described it; none for the one that the recording begins with.
    pub made: Option<Made>,
    /// What each caller asked, in order.
    pub callers: BTreeMap<u32, Vec<Row>>,
    /// What load, turn and unload did.
    pub steps: [Step; 3],
    mailbox: Mailbox,
}

/// How a mailbox came into the recording.
#[derive(Clone, Copy, Debug, PartialEq, Eq)]
pub struct Made {
    pub line: u64,
    pub described: bool,
}

/// Something that a caller asked, on a line.
#[derive(Debug, PartialEq, Eq)]
pub struct Row {
    pub line: u64,
    pub asked: Asked,
    pub answer: Told,
}

#[derive(Debug, PartialEq, Eq)]
pub enum Asked {
    Post {
        command: u32,
        data: u16,
    },
    Take,
    /// A response that stood in a mailbox when it was described. Its post is not known.
    Response,
}

/// What a caller was answered.
#[derive(Debug, PartialEq, Eq)]
pub enum Told {
    Refused(u64),
    /// The post was accepted, or was there from the start. Its word is not taken.
    Untaken,
    Taken {
        line: u64,
        word: u64,
    },
}

/// What came of something that a caller asked, by the end of the recording.
#[derive(Clone, Copy, Debug, PartialEq, Eq)]
pub enum Outcome {
    Refused(u64),
    Taken {
        line: u64,
        word: u64,
    },
    /// The word that lies ready for its caller.
    NotTaken(u64),
    NotAnswered,
    /// The number with which a take is refused, where the mailbox breaks its rules.
    OutOfReach(u64),
}

/// The names of the steps, in the order in which a part has them.
pub const STEPS: [&str; 3] = ["load", "turn", "unload"];

/// How often load, turn or unload was asked for and acted, and where it was refused, with the number.
#[derive(Default)]
pub struct Step {
    pub asked: u64,
    pub acted: u64,
    pub refused: Vec<(u64, u64)>,
}

impl Recording {
    /// A recording of which no line is played yet.
    pub fn new() -> Recording {
        Recording {
            parts: vec![Part::of(None, Mailbox::fresh())],
            wrong: Vec::new(),
        }
    }

    /// Plays the lines of a recording.
    pub fn play(bytes: &[u8]) -> Recording {
        let mut recording = Recording::new();
        for (line, text) in (1u64..).zip(bytes.split_inclusive(|&byte| byte == b'\n')) {
            let words = words_of(text);
            if words.is_empty() {
                continue;
            }
            let (call, _) = recorded::parted(&words);
            if let Err(bad) = recording.play_line(line, call) {
                let reason = bad.reason;
                recording.wrong.push(WrongLine { line, reason });
            }
        }
        recording
    }

    /// The mailboxes of which there is something to show.
    pub fn touched(&self) -> impl Iterator<Item = &Part> {
        self.parts.iter().filter(|part| !part.untouched())
    }

    /// Whether any call was refused.
    pub fn refused(&self) -> bool {
        self.parts.iter().any(Part::refused)
    }

    /// Plays the next line, by its number and its words. One that is no call on the mailbox changes nothing.
    pub fn play_line(&mut self, line: u64, words: &[&[u8]]) -> Result<(), BadLine> {
        let no_call = || BadLine::new("it has no call");
        let (name, words) = words.split_first().ok_or_else(no_call)?;
        let call = FORMS
            .iter()
            .find(|call| call.name.as_bytes() == *name)
            .ok_or_else(|| {
                let name = quoted(name);
                BadLine::new(format!(
                    "{name} is not a call on the mailbox; `kpalumere mailbox --help` lists them"
                ))
            })?;
        call.expect_words(words.len())?;
        match call.name {
            "mailbox" => self.parts.push(Part::fresh(line)),
            "mailbox-of" => self.parts.push(Part::described(line, &description(words)?)),
            name => self.part().play(line, name, words)?,
        }
        Ok(())
    }

    /// The mailbox that calls are made on.
    fn part(&mut self) -> &mut Part {
        self.parts.last_mut().expect("a recording begins with one")
    }
}

impl Part {
    fn of(made: Option<Made>, mailbox: Mailbox) -> Part {
        Part {
            made,
            callers: BTreeMap::new(),
            steps: Default::default(),
            mailbox,
        }
    }

    fn fresh(line: u64) -> Part {
        let described = false;
        Part::of(Some(Made { line, described }), Mailbox::fresh())
    }

    /// The mailbox described, with the posts and responses that stand in it as if they had been asked for on that line.
    fn described(line: u64, description: &Description) -> Part {
        let described = true;
        let mut part = Part::of(Some(Made { line, described }), description.mailbox());
        let mut found = |caller: u32, asked: Asked| {
            let answer = Told::Untaken;
            part.add(
                caller,
                Row {
                    line,
                    asked,
                    answer,
                },
            );
        };
        for (caller, place) in (0..).zip(description.places) {
            if let CallerPlace::Ready(_) = place {
                found(caller, Asked::Response);
            }
        }
        match description.register {
            Register::Idle => (),
            Register::Command { caller, word } => {
                let (command, data) = (word >> 16, word as u16);
                found(caller, Asked::Post { command, data });
            }
            Register::Response { caller, .. } => found(caller, Asked::Response),
        }
        for post in &description.line {
            let (command, data) = (u32::from(post.command), post.data);
            found(post.caller, Asked::Post { command, data });
        }
        part
    }

    /// Makes a call on the mailbox and keeps what was asked and answered.
    fn play(&mut self, line: u64, name: &str, words: &[&[u8]]) -> Result<(), BadLine> {
        match name {
            "post" => {
                let (caller, command, data) = asked_post(words)?;
                let answer = self.mailbox.post(caller, command, data);
                self.posted(line, caller, Asked::Post { command, data }, answer);
            }
            "take" => {
                let caller = asked_caller(words)?;
                let answer = self.mailbox.take(caller);
                self.took(line, caller, answer);
            }
            "load" => self.steps[0].played(line, self.mailbox.load()),
            "turn" => self.steps[1].played(line, self.mailbox.turn()),
            "unload" => self.steps[2].played(line, self.mailbox.unload()),
            // The state of the firmware is told at the end.
            "firmware" => (),
            other => {
                return Err(BadLine::new(format!(
                    "a recording cannot have {other}; ask for it with `kpalumere ask`"
                )))
            }
        }
        Ok(())
    }

    fn posted(&mut self, line: u64, caller: u32, asked: Asked, answer: Answer<()>) {
        let answer = match answer {
            Ok(()) => Told::Untaken,
            Err(refusal) => Told::Refused(refusal.number),
        };
        self.add(
            caller,
            Row {
                line,
                asked,
                answer,
            },
        );
    }

    /// A word that was taken stands beside the post that it answers: the caller's one post that was not taken.
    fn took(&mut self, line: u64, caller: u32, answer: Answer<u64>) {
        let told = match answer {
            Ok(word) => Told::Taken { line, word },
            Err(refusal) => Told::Refused(refusal.number),
        };
        let rows = self.callers.entry(caller).or_default();
        let untaken = rows.iter_mut().find(|row| row.answer == Told::Untaken);
        match (&told, untaken) {
            (Told::Taken { .. }, Some(post)) => post.answer = told,
            _ => rows.push(Row {
                line,
                asked: Asked::Take,
                answer: told,
            }),
        }
    }

    fn add(&mut self, caller: u32, row: Row) {
        self.callers.entry(caller).or_default().push(row);
    }

    /// What came of something that a caller asked. Where nothing was taken, the library tells by what it would answer to a take.
    pub fn outcome(&self, caller: u32, row: &Row) -> Outcome {
        match row.answer {
            Told::Refused(number) => Outcome::Refused(number),
            Told::Taken { line, word } => Outcome::Taken { line, word },
            Told::Untaken => match self.take_at_the_end(caller) {
                Ok(word) => Outcome::NotTaken(word),
                Err(refusal) if refusal.is(Refusal::EARLY) => Outcome::NotAnswered,
                Err(refusal) => Outcome::OutOfReach(refusal.number),
            },
        }
    }

    /// What a take by this caller would be answered at the end. The mailbox stays as it is.
    fn take_at_the_end(&self, caller: u32) -> Answer<u64> {
        self.mailbox.clone().take(caller)
    }

    /// The state of the firmware at the end.
    pub fn firmware(&self) -> Firmware {
        self.mailbox.firmware()
    }

    /// Whether there is nothing to show: no line made the mailbox, and nothing was asked of it.
    fn untouched(&self) -> bool {
        let asked = self.steps.iter().any(|step| step.asked > 0);
        self.made.is_none() && self.callers.is_empty() && !asked
    }

    fn refused(&self) -> bool {
        let mut rows = self.callers.values().flatten();
        rows.any(|row| matches!(row.answer, Told::Refused(_)))
            || self.steps.iter().any(|step| !step.refused.is_empty())
    }
}

impl Step {
    fn played(&mut self, line: u64, answer: Answer<bool>) {
        self.asked += 1;
        match answer {
            Ok(acted) => self.acted += u64::from(acted),
            Err(refusal) => self.refused.push((line, refusal.number)),
        }
    }
}

#[cfg(test)]
mod tests {
    use super::*;

    fn played(script: &str) -> Recording {
        Recording::play(script.as_bytes())
    }

    fn post(line: u64, command: u32, answer: Told) -> Row {
        let asked = Asked::Post { command, data: 0 };
        Row {
            line,
            asked,
            answer,
        }
    }

    #[test]
    fn each_caller_has_what_it_asked_and_was_answered() {
        let recording = played(
            "post 1 0x81 0 # a question\npost 2 0x80 0\nload\nturn\nunload\ntake 2\nload\nturn\nunload\ntake 1\n\
             post 1 0x86 0\ntake 9\n",
        );
        let callers = &recording.parts[0].callers;
        let word = 0x8081_0001;
        let expected = [
            post(1, 0x81, Told::Taken { line: 10, word }),
            post(11, 0x86, Told::Untaken),
        ];
        assert_eq!(callers[&1], expected);
        let refused = |line, number| Row {
            line,
            asked: Asked::Take,
            answer: Told::Refused(number),
        };
        assert_eq!(
            callers[&2],
            [post(2, 0x80, Told::Untaken), refused(6, Refusal::EARLY)]
        );
        assert_eq!(callers[&9], [refused(12, Refusal::RANGE)]);
        let steps = &recording.parts[0].steps;
        assert!(steps.iter().all(|step| (step.asked, step.acted) == (2, 2)));
        let at_the_end = [1, 2].map(|caller| recording.parts[0].take_at_the_end(caller));
        assert_eq!(at_the_end[0].unwrap_err().number, Refusal::EARLY);
        assert_eq!(at_the_end[1], Ok(0x8080_0000));
    }

    #[test]
    fn every_mailbox_has_a_part_of_its_own() {
        let recording = played("post 1 0x80 0\nload\nturn\nmailbox\ntake 1\nmailbox-of - idle -\n");
        let made: Vec<Option<Made>> = recording.parts.iter().map(|part| part.made).collect();
        let at = |line, described| Some(Made { line, described });
        assert_eq!(made, [None, at(4, false), at(6, true)]);
        let on = |part: &Part| part.firmware().interface;
        let interfaces: Vec<bool> = recording.parts.iter().map(on).collect();
        assert_eq!(interfaces, [false, true, true]);
        assert!(played("mailbox\n").parts[0].untouched());
        assert!(!recording.parts[0].untouched());
    }

    #[test]
    fn what_stands_in_a_mailbox_that_is_described_is_shown() {
        let recording = played("mailbox-of 0:0x81:0 response:3:5 7:6\nunload\ntake 3\ntake 7\n");
        let callers = &recording.parts[1].callers;
        assert_eq!(callers[&0], [post(1, 0x81, Told::Untaken)]);
        let response = |line, word| Row {
            line: 1,
            asked: Asked::Response,
            answer: Told::Taken { line, word },
        };
        assert_eq!(callers[&3], [response(3, 5)]);
        assert_eq!(callers[&7], [response(4, 6)]);
        let recording = played("mailbox-of - command:2:0x04000000 -\nload\n");
        let part = &recording.parts[1];
        assert_eq!(part.callers[&2], [post(1, 0x400, Told::Untaken)]);
        assert_eq!(part.steps[0].refused, [(2, Refusal::FIELD)]);
        assert_eq!(part.take_at_the_end(2).unwrap_err().number, Refusal::FIELD);
    }

    #[test]
    fn every_call_on_the_mailbox_can_be_played() {
        for call in &FORMS {
            let words = match call.words {
                "LINE REGISTER PLACES" => String::from("- idle -"),
                words => "0 ".repeat(words.split_whitespace().count()),
            };
            let recording = played(&format!("{} {words}\n", call.name));
            assert_eq!(recording.wrong, [], "{}", call.name);
        }
    }

    #[test]
    fn an_answer_that_somebody_saw_is_left_out() {
        let with_answers = played("post 1 0x81 0 => refused 10\nload => no # so it was\nturn\n");
        let part = &with_answers.parts[0];
        assert_eq!(with_answers.wrong, []);
        assert_eq!(part.callers[&1], [post(1, 0x81, Told::Untaken)]);
        assert_eq!(part.steps[0].acted, 1);
        assert_eq!(played("=> ok\n").wrong[0].reason, "it has no call");
    }

    #[test]
    fn lines_that_are_no_calls_are_left_out() {
        let recording = played("post 1 0x81\n\n# post\nask\npost 1 0x81 0x10000\nmailbox-of - - -\nmailbox 1\nshow a 0 1");
        let lines: Vec<u64> = recording.wrong.iter().map(|wrong| wrong.line).collect();
        assert_eq!(lines, [1, 4, 5, 6, 7, 8]);
        assert_eq!(recording.parts.len(), 1);
        assert!(recording.parts[0].untouched());
        let reason = &recording.wrong[0].reason;
        assert!(reason.contains("write `post CALLER COMMAND DATA`"));
    }
}
