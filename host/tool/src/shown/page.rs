//! A page for people: lines and tables that fit its columns, coloured where that is wanted.

use crate::system::folding::{folded_to, kept, on_one_line};

/// How a line looks on a terminal with colour. Without colour all look the same.
#[derive(Clone, Copy, Debug, PartialEq, Eq)]
pub enum Look {
    Plain,
    Heading,
    Good,
    Bad,
}

impl Look {
    /// The number of the terminal's colour or weight.
    fn code(self) -> Option<&'static str> {
        match self {
            Look::Plain => None,
            Look::Heading => Some("1"),
            Look::Good => Some("32"),
            Look::Bad => Some("31"),
        }
    }
}

/// Lines for people, as they are added one after another.
pub struct Page {
    /// How many columns a line may have; none where nothing limits it.
    columns: Option<usize>,
    colour: bool,
    text: String,
}

impl Page {
    pub fn new(columns: Option<usize>, colour: bool) -> Page {
        let text = String::new();
        Page {
            columns,
            colour,
            text,
        }
    }

    /// An empty line.
    pub fn gap(&mut self) {
        self.text.push('\n');
    }

    /// Words on one line, or on as many as they need; all lines but the first are indented by `hang` more.
    pub fn add(&mut self, look: Look, indent: usize, hang: usize, words: &str) {
        let limit = self.columns.unwrap_or(usize::MAX);
        let lines = folded_to(words, |at| {
            let taken = if at == 0 { indent } else { indent + hang };
            limit.saturating_sub(taken)
        });
        for (at, line) in lines.iter().enumerate() {
            let before = if at == 0 { indent } else { indent + hang };
            self.add_whole(look, before, line);
        }
    }

    /// One line as it is, however long.
    pub fn add_whole(&mut self, look: Look, indent: usize, line: &str) {
        let line = on_one_line(line);
        let line = match look.code() {
            Some(code) if self.colour => format!("\x1b[{code}m{line}\x1b[0m"),
            _ => line,
        };
        self.text.push_str(&format!("{:indent$}{line}\n", ""));
    }

    /// Whether a line fits as it is.
    pub fn has_room_for(&self, indent: usize, line: &str) -> bool {
        let width = indent + line.chars().count();
        self.columns.map_or(true, |columns| width <= columns)
    }

    /// A table, the first row of which has the columns' names, and whether it fits. Where it does not, nothing is added.
    pub fn add_table(&mut self, indent: usize, rows: &[(Look, Vec<String>)]) -> bool {
        let lines = table(rows);
        let fits = lines.iter().all(|line| self.has_room_for(indent, line));
        if fits {
            for ((look, _), line) in rows.iter().zip(lines) {
                self.add_whole(*look, indent, &line);
            }
        }
        fits
    }

    /// A table whose lines are laid out by `line`, below its heads. Where a line has no room, each row is told cell by cell, every
    /// cell that is not empty behind its head.
    pub fn add_laid_out<const CELLS: usize>(
        &mut self,
        indent: usize,
        heads: [&str; CELLS],
        rows: &[[String; CELLS]],
        line: fn(&[String; CELLS]) -> String,
    ) {
        let first = [heads.map(String::from)];
        let lines: Vec<String> = first.iter().chain(rows).map(line).collect();
        if lines.iter().all(|line| self.has_room_for(indent, line)) {
            for line in lines {
                self.add_whole(Look::Plain, indent, &line);
            }
            return;
        }
        for row in rows {
            let cells = heads.iter().zip(row).filter(|(_, cell)| !cell.is_empty());
            let told: Vec<String> = cells.map(|(head, cell)| behind(head, cell)).collect();
            self.add(Look::Plain, indent, 2, &told.join(", "));
        }
    }

    pub fn into_text(self) -> String {
        self.text
    }
}

/// A cell behind its head. A cell of one word stays on the line of its head.
fn behind(head: &str, cell: &str) -> String {
    match cell.contains(' ') {
        true => format!("{} {cell}", kept(head)),
        false => kept(&format!("{head} {cell}")),
    }
}

/// The lines of a table, whose cells stand below each other.
fn table(rows: &[(Look, Vec<String>)]) -> Vec<String> {
    let count = rows.iter().map(|(_, cells)| cells.len()).max().unwrap_or(0);
    let width_of = |column: usize| {
        let cells = rows.iter().filter_map(|(_, cells)| cells.get(column));
        cells.map(|cell| cell.chars().count()).max().unwrap_or(0)
    };
    let widths: Vec<usize> = (0..count).map(width_of).collect();
    rows.iter()
        .map(|(_, cells)| {
            let cells = cells.iter().zip(&widths);
            let padded: Vec<String> = cells
                .map(|(cell, width)| format!("{cell:width$}"))
                .collect();
            on_one_line(padded.join("  ").trim_end())
        })
        .collect()
}

#[cfg(test)]
mod tests {
    use super::*;

    #[test]
    fn lines_after_the_first_hang() {
        let mut page = Page::new(Some(8), false);
        page.add(Look::Bad, 2, 2, "aa bb cc dd ee");
        assert_eq!(page.into_text(), "  aa bb\n    cc\n    dd\n    ee\n");
        let mut page = Page::new(None, false);
        page.add(Look::Plain, 2, 2, "aa bb cc dd ee");
        assert_eq!(page.into_text(), "  aa bb cc dd ee\n");
    }

    #[test]
    fn colour_stands_around_the_words_alone() {
        let mut page = Page::new(None, true);
        page.add(Look::Bad, 2, 0, "no");
        page.add(Look::Plain, 2, 0, "yes");
        assert_eq!(page.into_text(), "  \x1b[31mno\x1b[0m\n  yes\n");
    }

    #[test]
    fn a_table_with_a_layout_of_its_own_is_told_cell_by_cell_where_it_does_not_fit() {
        let rows = [["1", "long words"], ["22", ""], ["333", "word"]];
        let rows = rows.map(|row| row.map(String::from));
        let line =
            |[number, words]: &[String; 2]| format!("{number:>6} {words}").trim_end().to_string();
        let shown = |columns| {
            let mut page = Page::new(columns, false);
            page.add_laid_out(1, ["number", "told"], &rows, line);
            page.into_text()
        };
        let table = " number told\n      1 long words\n     22\n    333 word\n";
        assert_eq!(shown(None), table);
        assert_eq!(shown(Some(18)), table);
        assert_eq!(
            shown(Some(17)),
            " number 1, told\n   long words\n number 22\n number 333,\n   told word\n"
        );
    }

    #[test]
    fn a_table_is_added_where_it_fits() {
        let cells = |texts: [&str; 2]| texts.map(String::from).to_vec();
        let rows = [
            (Look::Heading, cells(["a", "longer"])),
            (Look::Plain, cells(["bbb", "c"])),
        ];
        // 3 columns and 6, two between them and one before.
        let mut page = Page::new(Some(12), false);
        assert!(page.add_table(1, &rows));
        assert_eq!(page.into_text(), " a    longer\n bbb  c\n");
        let mut page = Page::new(Some(11), false);
        assert!(!page.add_table(1, &rows));
        assert_eq!(page.into_text(), "");
    }
}
