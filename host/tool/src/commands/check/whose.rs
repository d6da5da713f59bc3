//! Whose word a caller of the mailbox took. Which post a word answers is the library's to say: a recording keeps it beside the post.

use crate::language::recording::{Asked, Outcome, Part, Recording};
use crate::shown::forms;
use std::collections::BTreeMap;

/// The most posts that are named for one word.
const MOST_NAMED: usize = 3;

/// A post, or a response that stood in a described mailbox.
#[derive(Clone, Copy)]
struct Owner {
    caller: u32,
    line: u64,
    is_post: bool,
}

/// Which posts each word answers.
pub struct Owners {
    /// For each mailbox the line from which on it is asked, and the posts by their words, in the order of their lines.
    mailboxes: Vec<(u64, BTreeMap<u64, Vec<Owner>>)>,
}

impl Owners {
    pub fn of(recording: &Recording) -> Owners {
        let from = |part: &Part| part.made.map_or(0, |made| made.line);
        let parts = recording.parts.iter();
        Owners {
            mailboxes: parts.map(|part| (from(part), by_word(part))).collect(),
        }
    }

    /// Says which posts of the mailbox that a line asks have a word as their answer.
    pub fn told(&self, line: u64, word: u64) -> String {
        let whose = match self.of_word(line, word) {
            [] => String::from("no post of this mailbox"),
            owners => listed(owners),
        };
        format!("0x{word:08x} is the answer to {whose}")
    }

    fn of_word(&self, line: u64, word: u64) -> &[Owner] {
        let after = self.mailboxes.partition_point(|(from, _)| *from <= line);
        let asked = after.checked_sub(1).and_then(|at| self.mailboxes.get(at));
        let owners = asked.and_then(|(_, by_word)| by_word.get(&word));
        owners.map_or(&[], Vec::as_slice)
    }
}

/// The first of some posts by name, and how many more there are.
fn listed(owners: &[Owner]) -> String {
    let named: Vec<String> = owners.iter().take(MOST_NAMED).map(named).collect();
    let more = match owners.len() - named.len() {
        0 => String::new(),
        amount => {
            let more = forms::counted(amount as u64, "post more", "posts more");
            format!(", and to {more}")
        }
    };
    named.join(", to ") + &more
}

/// The posts of a mailbox by the words that answer them, taken or not.
fn by_word(part: &Part) -> BTreeMap<u64, Vec<Owner>> {
    let mut by_word: BTreeMap<u64, Vec<Owner>> = BTreeMap::new();
    for (&caller, rows) in &part.callers {
        for row in rows {
            let word = match part.outcome(caller, row) {
                Outcome::Taken { word, .. } | Outcome::NotTaken(word) => Some(word),
                Outcome::Refused(_) | Outcome::NotAnswered | Outcome::OutOfReach(_) => None,
            };
            if let Some(word) = word {
                by_word.entry(word).or_default().push(Owner {
                    caller,
                    line: row.line,
                    is_post: row.asked != Asked::Response,
                });
            }
        }
    }
    for owners in by_word.values_mut() {
        owners.sort_by_key(|owner| owner.line);
    }
    by_word
}

fn named(owner: &Owner) -> String {
    let Owner {
        caller,
        line,
        is_post,
    } = owner;
    match is_post {
        true => format!("caller {caller}'s post on line {line}"),
        false => format!("what stood ready for caller {caller} on line {line}"),
    }
}

#[cfg(test)]
mod tests {
    use super::*;

    fn told(script: &str, line: u64, word: u64) -> String {
        Owners::of(&Recording::play(script.as_bytes())).told(line, word)
    }

    const ROUND: &str = "load\nturn\nunload\n";

    #[test]
    fn a_word_is_the_answer_to_its_post_taken_or_not() {
        let script = format!("post 5 0x80 5\npost 3 0x81 3\n{ROUND}{ROUND}take 5\n");
        for (word, expected) in [
            (
                0x8080_0005,
                "0x80800005 is the answer to caller 5's post on line 1",
            ),
            (
                0x8081_0000,
                "0x80810000 is the answer to caller 3's post on line 2",
            ),
            (0x42, "0x00000042 is the answer to no post of this mailbox"),
        ] {
            assert_eq!(told(&script, 9, word), expected);
        }
        // What is in the register has no caller yet.
        let waits = "post 5 0x80 5\nload\nturn\n";
        assert!(told(waits, 3, 0x8080_0005).ends_with("to no post of this mailbox"));
    }

    #[test]
    fn each_mailbox_has_words_of_its_own() {
        let script = format!("post 5 0x80 5\n{ROUND}mailbox\npost 3 0x80 5\n{ROUND}take 3\n");
        assert!(told(&script, 4, 0x8080_0005).ends_with("to caller 5's post on line 1"));
        assert!(told(&script, 10, 0x8080_0005).ends_with("to caller 3's post on line 6"));
        let described = "mailbox-of - idle 7:6\n";
        assert!(told(described, 1, 6).ends_with("to what stood ready for caller 7 on line 1"));
    }

    #[test]
    fn up_to_three_posts_are_named() {
        let rounds = |amount: u32| -> String {
            let round = |caller: u32| format!("post {caller} 0x82 9\n{ROUND}");
            (0..amount).map(round).collect()
        };
        let begins =
            "0x80820009 is the answer to caller 0's post on line 1, to caller 1's post on line 5, \
                      to caller 2's post on line 9";
        assert_eq!(told(&rounds(3), 1, 0x8082_0009), begins);
        for (amount, ends) in [(4, ", and to 1 post more"), (6, ", and to 3 posts more")] {
            let expected = format!("{begins}{ends}");
            assert_eq!(told(&rounds(amount), 1, 0x8082_0009), expected);
        }
    }
}
