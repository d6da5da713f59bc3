//! `kpalumere explain`: what a refusal number means, what usually causes it, and what to look at.

use crate::arguments::command::{Command, Job};
use crate::arguments::numbers::number;
use crate::arguments::words::{given, word};
use crate::shown::boards;
use crate::shown::refusals::{explained, numbered, Explained, REFUSALS};
use crate::system::folding::folded;
use crate::system::output::print;
use crate::system::terminal;
use clap::ArgMatches;

pub static COMMAND: Command = Command {
    name: "explain",
    does: "what a refusal means, what causes it, and what to look at",
    words: |command| {
        let says = "the number of a refusal; without it all are listed, a line each";
        command.arg(word("NUMBER", says, known).required(false))
    },
    help,
    statuses: &[
        (0, "what was asked for is printed"),
        (2, "there is no such number, or the command line is wrong"),
        (3, "the output cannot be written"),
    ],
    read,
};

/// What `explain --help` says.
fn help() -> String {
    let amount = REFUSALS.len();
    format!(
        "\
Where the library does not accept an image, a table or a call, it gives one of
the {amount} numbers of document 01, and a command shows it as 'refused N'. One that
is met in a directory tells where: the level, the header or the entry's index,
and where the directory begins; and the field that is wrong, what stands in it
and what should. What these two are is told for each number.

Try it:
  kpalumere explain
  kpalumere explain 4
"
    )
}

/// What is said of a number that tells no place.
const NO_PLACE: &str = "It is met in no header and no entry, and tells no place.";

/// How wide the lines are where the output is no terminal.
const USUAL_COLUMNS: usize = 100;

fn read(matches: &ArgMatches) -> Result<Job, String> {
    let asked: Option<&Explained> = given(matches, "NUMBER");
    Ok(Box::new(move || {
        print(&match asked {
            None => list(),
            Some(known) => page(known, terminal::columns().unwrap_or(USUAL_COLUMNS)),
        })
    }))
}

/// The refusal that a word is the number of.
fn known(role: &str, word: &[u8]) -> Result<&'static Explained, String> {
    let number = number(role, word, u64::MAX)?;
    explained(number).ok_or_else(|| {
        format!(
            "there is no refusal {number}; the numbers are 1 to {}, and `kpalumere explain` lists \
             them all",
            REFUSALS.len()
        )
    })
}

/// Every number, a line each.
fn list() -> String {
    let mut text = String::new();
    for Explained { number, title, .. } in &REFUSALS {
        text.push_str(&format!("{number:>4}  {title}\n"));
    }
    text + "`kpalumere explain NUMBER` says more on each.\n"
}

/// All about one number, in lines of at most so many columns.
fn page(known: &Explained, columns: usize) -> String {
    let mut text = format!("{}\n", numbered(known.number, known.title));
    for (label, words) in [
        ("It means", known.means),
        ("Usual causes", known.causes),
        ("Look at", known.look),
        ("Where in a directory", known.place.unwrap_or(NO_PLACE)),
    ] {
        text.push_str(&format!("\n{label}:\n"));
        for line in folded(words, columns.saturating_sub(2)) {
            text.push_str(&format!("  {line}\n"));
        }
    }
    let boards = boards::told(known.number);
    if !boards.is_empty() {
        text.push_str("\nBy the size of the flash part, which is that of its window:\n");
    }
    for words in boards {
        for (number, line) in folded(&words, columns.saturating_sub(4)).iter().enumerate() {
            let indent = if number == 0 { "  " } else { "    " };
            text.push_str(&format!("{indent}{line}\n"));
        }
    }
    text
}

#[cfg(test)]
mod tests {
    use super::*;

    #[test]
    fn the_list_has_each_number_once() {
        let list = list();
        assert_eq!(list.lines().count(), 19);
        for known in &REFUSALS {
            let line = format!("{:>4}  {}", known.number, known.title);
            assert!(list.lines().any(|found| found == line), "{line}");
        }
    }

    #[test]
    fn a_page_has_all_words_on_lines_that_fit() {
        for known in &REFUSALS {
            for columns in [40, 80, 132] {
                let page = page(known, columns);
                let together = page.split_whitespace().collect::<Vec<_>>().join(" ");
                let place = known.place.unwrap_or(NO_PLACE);
                for text in [known.title, known.means, known.causes, known.look, place] {
                    assert!(together.contains(text), "{}: {text}", known.number);
                }
                for text in boards::told(known.number) {
                    assert!(together.contains(&text), "{}: {text}", known.number);
                }
                let widest = page.lines().map(|line| line.chars().count()).max();
                assert!(
                    widest <= Some(columns.max(60)),
                    "{} {columns}",
                    known.number
                );
            }
        }
    }

    #[test]
    fn numbers_that_there_are_not_are_told() {
        for word in ["0", "19", "-1", "four", "", "99999999999999999999"] {
            let message = match known("NUMBER", word.as_bytes()) {
                Ok(known) => panic!("{word} is {}", known.number),
                Err(message) => message,
            };
            assert!(message.contains("; "), "{message}");
        }
    }
}
