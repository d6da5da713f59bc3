//! A script while it is made: lines as they are, and calls of which some are broken.

use super::lines::broken;
use super::Script;
use crate::random::Random;

/// One call in so many is broken.
const CALLS_TO_ONE_BROKEN: u64 = 25;

/// The lines that there are so far.
#[derive(Default)]
pub struct Draft {
    lines: Script,
}

impl Draft {
    /// Adds a line as it is.
    pub fn line(&mut self, text: impl AsRef<str>) {
        self.lines.push(format!("{}\n", text.as_ref()).into_bytes());
    }

    /// Adds a call; once in a while, one of its words is broken.
    pub fn ask(&mut self, random: &mut Random, call: impl AsRef<str>) {
        if !random.once_in(CALLS_TO_ONE_BROKEN) {
            return self.line(call);
        }
        let mut line = broken(random, call.as_ref());
        line.push(b'\n');
        self.lines.push(line);
    }

    /// How many lines there are.
    pub fn len(&self) -> u64 {
        self.lines.len() as u64
    }

    /// The script.
    pub fn script(self) -> Script {
        self.lines
    }
}

#[cfg(test)]
mod tests {
    use super::*;

    #[test]
    fn some_calls_are_broken_and_no_lines() {
        let mut random = Random::from_seed(2);
        let mut draft = Draft::default();
        for _ in 0..200 {
            draft.line("digest a");
        }
        for _ in 0..200 {
            draft.ask(&mut random, "digest a");
        }
        assert_eq!(draft.len(), 400);
        let script = draft.script();
        let whole = |lines: &[Vec<u8>]| lines.iter().filter(|line| *line == b"digest a\n").count();
        assert_eq!(whole(&script[..200]), 200);
        assert!((150..200).contains(&whole(&script[200..])));
    }
}
