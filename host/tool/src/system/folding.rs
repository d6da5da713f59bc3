//! Text in lines of so many columns, broken between words alone.

/// A space at which no line is broken, so that a number stays with what it counts.
const KEPT: char = '\u{a0}';

/// Words that stay on one line.
pub fn kept(words: &str) -> String {
    words.replace(' ', &KEPT.to_string())
}

/// A text with kept words as it stands on a line of any length.
pub fn on_one_line(text: &str) -> String {
    text.replace(KEPT, " ")
}

/// The lines of a text, each of at most `columns` characters where its words let it be.
pub fn folded(text: &str, columns: usize) -> Vec<String> {
    folded_to(text, |_| columns)
}

/// The same, where each line may have another number of columns.
pub fn folded_to(text: &str, columns_of: impl Fn(usize) -> usize) -> Vec<String> {
    let mut lines: Vec<String> = Vec::new();
    for words in text.split(' ').filter(|words| !words.is_empty()) {
        // Kept words that no line can hold are broken all the same.
        let together = words.chars().count() <= columns_of(lines.len());
        let parts = match together {
            true => vec![on_one_line(words)],
            false => words.split(KEPT).map(String::from).collect(),
        };
        for part in parts {
            let columns = columns_of(lines.len().saturating_sub(1));
            match lines.last_mut() {
                Some(line) if line.chars().count() + 1 + part.chars().count() <= columns => {
                    line.push(' ');
                    line.push_str(&part);
                }
                _ => lines.push(part),
            }
        }
    }
    lines
}

/// A row of a list in lines of so many columns: a form, and from a column on what it is for, on as many lines as that needs. A form
/// that reaches to the column has a line of its own.
pub fn row(form: &str, says: &str, column: usize, columns: usize) -> String {
    let mut text = String::new();
    let mut before = form.trim_end();
    if before.len() >= column {
        text.push_str(&format!("{before}\n"));
        before = "";
    }
    for line in folded(says, columns - column) {
        text.push_str(&format!("{before:<column$}{line}\n"));
        before = "";
    }
    text
}

#[cfg(test)]
mod tests {
    use super::*;

    #[test]
    fn a_row_fits_and_its_words_stand_below_each_other() {
        assert_eq!(row("  a B ", "does it", 8, 80), "  a B   does it\n");
        assert_eq!(
            row("  a LONG", "does it", 8, 80),
            "  a LONG\n        does it\n"
        );
        let long = row("  a", &"word ".repeat(12), 40, 80);
        let lines: Vec<&str> = long.lines().collect();
        assert_eq!(
            lines[0],
            format!("{:<40}{}", "  a", "word ".repeat(8).trim_end())
        );
        assert_eq!(
            lines[1],
            format!("{:40}{}", "", "word ".repeat(4).trim_end())
        );
    }

    #[test]
    fn lines_are_as_long_as_they_may_be_and_no_word_is_broken() {
        assert_eq!(folded("aa bb cc", 5), ["aa bb", "cc"]);
        assert_eq!(folded("aa bb cc", 4), ["aa", "bb", "cc"]);
        assert_eq!(folded("aa 0x12345678 b", 4), ["aa", "0x12345678", "b"]);
        assert_eq!(folded("é é", 3), ["é é"]);
        assert!(folded(" ", 5).is_empty());
        let text = format!("{} cc", kept("aa bb"));
        assert_eq!(folded(&text, 5), ["aa bb", "cc"]);
        assert_eq!(folded(&text, 4), ["aa", "bb", "cc"]);
    }
}
