//! CSV, written: a line of cells, with nothing in them that a terminal obeys or a spreadsheet takes for a formula.

use crate::shown::controls::{escape, is_obeyed};
use csv::{Terminator, WriterBuilder};

/// The signs that a formula begins with, and their wide forms, which some spreadsheets take for the same.
const FORMULA: [char; 8] = ['=', '+', '-', '@', '＝', '＋', '－', '＠'];

/// A line. A cell with a comma or a quote in it stands in quotes, and a quote in it is doubled.
pub fn line<'a>(cells: impl IntoIterator<Item = &'a str>) -> String {
    let mut writer = WriterBuilder::new()
        .terminator(Terminator::Any(b'\n'))
        .from_writer(Vec::new());
    let written = writer.write_record(cells.into_iter().map(escaped));
    written.expect("memory takes every cell");
    let line = writer.into_inner().expect("memory takes every line");
    String::from_utf8(line).expect("cells are text")
}

/// A cell by the rule of docs/schema/README.md: a backslash is doubled, what is obeyed is told by its number, and the sign of a
/// formula has a backslash before it. A formula begins with the cell; and with a semicolon, where a spreadsheet parts cells there.
/// Spaces and quotes before it do not count.
fn escaped(cell: &str) -> String {
    let mut text = String::with_capacity(cell.len());
    let mut may_begin = true;
    for character in cell.chars() {
        match character {
            '\\' => text.push_str("\\\\"),
            sign if may_begin && FORMULA.contains(&sign) => text.extend(['\\', sign]),
            obeyed if is_obeyed(obeyed) => text.push_str(&escape(obeyed)),
            plain => text.push(plain),
        }
        may_begin = match character {
            ';' => true,
            ' ' | '"' => may_begin,
            _ => false,
        };
    }
    text
}

#[cfg(test)]
mod tests {
    use super::*;

    /// What a program makes of a cell: a backslash with `u` and four digits is the character of that number, and one with any
    /// other character is that character.
    fn undone(cell: &str) -> String {
        let mut text = String::new();
        let mut rest = cell.chars();
        while let Some(character) = rest.next() {
            let meant = match character {
                '\\' => match rest.next().expect("no backslash is last") {
                    'u' => {
                        let digits: String = rest.by_ref().take(4).collect();
                        let number = u32::from_str_radix(&digits, 16).expect("digits");
                        char::from_u32(number).expect("a character")
                    }
                    plain => plain,
                },
                plain => plain,
            };
            text.push(meant);
        }
        text
    }

    #[test]
    fn cells_that_need_it_stand_in_quotes() {
        assert_eq!(line(["a", "", "b c"]), "a,,b c\n");
        assert_eq!(line(["a,b", "\"", "c"]), "\"a,b\",\"\"\"\",c\n");
    }

    #[test]
    fn what_is_obeyed_is_told_by_its_number_and_a_row_is_a_line() {
        assert_eq!(
            line(["x\ny\r", "\t\u{9b}31m\u{202e}", "\\u000a"]),
            "x\\u000ay\\u000d,\\u0009\\u009b31m\\u202e,\\\\u000a\n"
        );
    }

    #[test]
    fn no_cell_begins_with_the_sign_of_a_formula() {
        for sign in FORMULA {
            for before in ["", " ", "\"", "  \" ", "a;", "a; \""] {
                let cell = format!("{before}{sign}1{sign}2");
                let due = format!("{before}\\{sign}1{sign}2");
                assert_eq!(escaped(&cell), due);
            }
        }
        for plain in ["a=b", "a-b.rom", "x y@z", "0x28000", "00.08.01.74", "a;b=c"] {
            assert_eq!(escaped(plain), plain);
        }
    }

    #[test]
    fn the_rule_can_be_undone() {
        let all: String = ('\0'..='\u{2100}').collect();
        for cell in [
            "",
            "-",
            "\\",
            "\\-",
            "\\\\u0041",
            "u0041",
            "=\\=",
            "\n",
            "\\n",
            &all,
        ] {
            let told = escaped(cell);
            assert!(!told.contains(is_obeyed), "{told}");
            assert_eq!(undone(&told), cell);
        }
    }
}
