//! What is shown of a comparison: every line that differs, and the count.

use super::comparison::Comparison;
use super::difference::Difference;
use super::whose::Owners;

/// The report of a comparison. Its last line has one form whatever the numbers are, so that programs can look for it.
pub fn of(comparison: &Comparison) -> String {
    let owners = Owners::of(&comparison.recording);
    let differences = &comparison.differences;
    let mut text: String = differences
        .iter()
        .map(|difference| shown(difference, &owners))
        .collect();
    text.push_str(&format!(
        "{} answers checked, {} differ\n",
        comparison.checked,
        differences.len()
    ));
    text
}

/// A line that differs: the call, what was expected above what is given, and whose word it is.
fn shown(difference: &Difference, owners: &Owners) -> String {
    let Difference {
        line,
        call,
        expected,
        given,
        strange_word,
    } = difference;
    let whose = match strange_word {
        Some(word) => format!("  {}\n", owners.told(*line, *word)),
        None => String::new(),
    };
    format!("line {line}: {call}\n  expected  {expected}\n  given     {given}\n{whose}")
}

#[cfg(test)]
mod tests {
    use super::*;

    fn report(text: &str) -> String {
        let mut comparison = Comparison::new();
        for (line, text) in (1..).zip(text.lines()) {
            comparison.add_line(line, text.as_bytes());
        }
        of(&comparison)
    }

    #[test]
    fn every_line_that_differs_is_shown_and_the_rest_is_counted() {
        assert_eq!(report(""), "0 answers checked, 0 differ\n");
        assert_eq!(
            report("post 3 0x81 0 => ok\npost 3 0x81 0 => ok\nload => yes\nturn => no\nload =>\n"),
            "line 2: post 3 0x81 0\n  expected  ok\n  given     refused 10\n\
             line 4: turn\n  expected  no\n  given     yes\n\
             line 5: load\n  expected  nothing\n  given     no\n5 answers checked, 3 differ\n"
        );
    }

    #[test]
    fn a_strange_word_is_told_with_its_owner() {
        let script = "post 3 0x81 0\npost 5 0x80 5\nload\nturn\nunload\nload\nturn\nunload\n\
                      take 3 => ok word=0x80800005\ntake 5 => ok word=0x80810001\n";
        assert_eq!(
            report(script),
            "line 9: take 3\n  expected  ok word=0x80800005\n  given     ok word=0x80810001\n  \
             0x80800005 is the answer to caller 5's post on line 2\n\
             line 10: take 5\n  expected  ok word=0x80810001\n  given     ok word=0x80800005\n  \
             0x80810001 is the answer to caller 3's post on line 1\n2 answers checked, 2 differ\n"
        );
    }
}
