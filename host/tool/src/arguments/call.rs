//! How a call of the ask language is written. Two commands read such lines: `ask` answers all calls, `mailbox` those on the
//! mailbox.

use crate::arguments::lines::BadLine;

/// The form of a call.
pub struct CallForm {
    /// The first word of the line.
    pub name: &'static str,
    /// The words after it, as people write them; those in brackets may be left out.
    pub words: &'static str,
    /// What it gives, for the help.
    pub gives: &'static str,
}

impl CallForm {
    pub const fn new(name: &'static str, words: &'static str, gives: &'static str) -> CallForm {
        CallForm { name, words, gives }
    }

    /// Checks that a line has as many words as the call takes.
    pub fn expect_words(&self, found: usize) -> Result<(), BadLine> {
        let most = self.words.split_whitespace().count();
        let spare = self.words.matches('[').count();
        if (most - spare..=most).contains(&found) {
            return Ok(());
        }
        let amount = if found < most - spare { "few" } else { "many" };
        let form = format!("{} {}", self.name, self.words);
        Err(BadLine::new(format!(
            "too {amount} words ({found}) after {}; write `{}`",
            self.name,
            form.trim_end()
        )))
    }
}

#[cfg(test)]
mod tests {
    use super::*;

    #[test]
    fn a_word_in_brackets_may_be_left_out_and_no_other() {
        let call = CallForm::new("make", "NAME LENGTH [BYTE]", "");
        let taken: Vec<usize> = (0..6).filter(|&n| call.expect_words(n).is_ok()).collect();
        assert_eq!(taken, [2, 3]);
        let reason = call.expect_words(1).unwrap_err().reason;
        assert_eq!(
            reason,
            "too few words (1) after make; write `make NAME LENGTH [BYTE]`"
        );
        let alone = CallForm { words: "", ..call };
        let reason = alone.expect_words(1).unwrap_err().reason;
        assert_eq!(reason, "too many words (1) after make; write `make`");
    }
}
