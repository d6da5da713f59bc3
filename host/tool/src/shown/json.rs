//! JSON, written: values, and their text.

use crate::shown::controls::{escape, is_obeyed};
use serde::ser::{Serialize, SerializeMap, Serializer};
use serde_json::ser::{CharEscape, Formatter};
use std::fmt;
use std::io::{self, Write};

/// A value of JSON. All numbers that the tool writes are whole and not negative.
pub enum Json {
    Null,
    Number(u64),
    Text(String),
    List(Vec<Json>),
    Object(Fields),
}

/// The fields of an object.
pub type Fields = Vec<(&'static str, Json)>;

impl Json {
    /// A value, or null where there is none.
    pub fn or_null<T>(value: Option<T>, json: impl FnOnce(T) -> Json) -> Json {
        value.map_or(Json::Null, json)
    }

    pub fn text(text: impl Into<String>) -> Json {
        Json::Text(text.into())
    }

    /// Whether it holds other values that hold values, and is so written on several lines.
    fn is_deep(&self) -> bool {
        match self {
            Json::List(items) => items.iter().any(|item| !item.is_leaf()),
            Json::Object(fields) => fields.iter().any(|(_, value)| match value {
                Json::List(items) => !items.is_empty(),
                _ => value.is_deep(),
            }),
            _ => false,
        }
    }

    fn is_leaf(&self) -> bool {
        !matches!(self, Json::List(_) | Json::Object(_))
    }

    /// Of each list and object in it, in the order in which they are begun, whether it is deep.
    fn put_depths(&self, depths: &mut Vec<bool>) {
        if !self.is_leaf() {
            depths.push(self.is_deep());
        }
        match self {
            Json::List(items) => items.iter().for_each(|item| item.put_depths(depths)),
            Json::Object(fields) => fields
                .iter()
                .for_each(|(_, value)| value.put_depths(depths)),
            _ => (),
        }
    }

    /// The value's text; the lines after the first are indented by so many columns.
    pub fn indented(&self, indent: usize) -> String {
        let mut depths = Vec::new();
        self.put_depths(&mut depths);
        let layout = Layout {
            depths: depths.into_iter(),
            open: Vec::new(),
            indent,
        };
        let mut text = Vec::new();
        self.serialize(&mut serde_json::Serializer::with_formatter(
            &mut text, layout,
        ))
        .expect("memory takes every value");
        String::from_utf8(text).expect("values are text")
    }
}

impl fmt::Display for Json {
    fn fmt(&self, out: &mut fmt::Formatter<'_>) -> fmt::Result {
        out.write_str(&self.indented(0))
    }
}

impl Serialize for Json {
    fn serialize<S: Serializer>(&self, to: S) -> Result<S::Ok, S::Error> {
        match self {
            Json::Null => to.serialize_unit(),
            Json::Number(number) => to.serialize_u64(*number),
            Json::Text(text) => to.serialize_str(text),
            Json::List(items) => to.collect_seq(items),
            // By hand, since fields that were collected into a map could change their order.
            Json::Object(fields) => {
                let mut map = to.serialize_map(Some(fields.len()))?;
                for (name, value) in fields {
                    map.serialize_entry(name, value)?;
                }
                map.end()
            }
        }
    }
}

/// How values are laid out: on one line, or, where a value is deep, on a line for each that it holds. A formatter is told where a
/// value begins and ends and not which one it is, so that it brings with it which of them are deep.
struct Layout {
    /// Of each list and object that is not begun yet, whether it is deep.
    depths: std::vec::IntoIter<bool>,
    /// The same of those that are begun and not ended.
    open: Vec<bool>,
    /// How many columns the line of the outermost value's end is indented by.
    indent: usize,
}

impl Layout {
    fn begin(&mut self, bracket: &[u8], out: &mut (impl Write + ?Sized)) -> io::Result<()> {
        self.open.push(self.depths.next().unwrap_or(false));
        out.write_all(bracket)
    }

    fn end(&mut self, bracket: &[u8], out: &mut (impl Write + ?Sized)) -> io::Result<()> {
        if self.open.pop().unwrap_or(false) {
            self.new_line(out)?;
        }
        out.write_all(bracket)
    }

    /// What stands before a value that a list or an object holds.
    fn before(&self, first: bool, out: &mut (impl Write + ?Sized)) -> io::Result<()> {
        let deep = self.open.last().copied().unwrap_or(false);
        match (deep, first) {
            (true, true) => self.new_line(out),
            (true, false) => out.write_all(b",").and_then(|()| self.new_line(out)),
            (false, true) => Ok(()),
            (false, false) => out.write_all(b", "),
        }
    }

    fn new_line(&self, out: &mut (impl Write + ?Sized)) -> io::Result<()> {
        write!(out, "\n{:1$}", "", self.indent + self.open.len())
    }
}

impl Formatter for Layout {
    fn begin_array<W: Write + ?Sized>(&mut self, out: &mut W) -> io::Result<()> {
        self.begin(b"[", out)
    }

    fn end_array<W: Write + ?Sized>(&mut self, out: &mut W) -> io::Result<()> {
        self.end(b"]", out)
    }

    fn begin_array_value<W: Write + ?Sized>(&mut self, out: &mut W, first: bool) -> io::Result<()> {
        self.before(first, out)
    }

    fn begin_object<W: Write + ?Sized>(&mut self, out: &mut W) -> io::Result<()> {
        self.begin(b"{", out)
    }

    fn end_object<W: Write + ?Sized>(&mut self, out: &mut W) -> io::Result<()> {
        self.end(b"}", out)
    }

    fn begin_object_key<W: Write + ?Sized>(&mut self, out: &mut W, first: bool) -> io::Result<()> {
        self.before(first, out)
    }

    fn begin_object_value<W: Write + ?Sized>(&mut self, out: &mut W) -> io::Result<()> {
        out.write_all(b": ")
    }

    /// What needs no escape by the rules of JSON. Of these characters, those that are obeyed are escaped all the same.
    fn write_string_fragment<W: Write + ?Sized>(
        &mut self,
        out: &mut W,
        fragment: &str,
    ) -> io::Result<()> {
        for piece in fragment.split_inclusive(is_obeyed) {
            match piece.chars().next_back().filter(|last| is_obeyed(*last)) {
                Some(last) => {
                    out.write_all(piece[..piece.len() - last.len_utf8()].as_bytes())?;
                    out.write_all(escape(last).as_bytes())?;
                }
                None => out.write_all(piece.as_bytes())?,
            }
        }
        Ok(())
    }

    /// What needs an escape by the rules of JSON: a quote and a backslash get a backslash before them, and control characters are
    /// told by their numbers, those with a letter of their own as well.
    fn write_char_escape<W: Write + ?Sized>(
        &mut self,
        out: &mut W,
        needed: CharEscape,
    ) -> io::Result<()> {
        let control = match needed {
            CharEscape::Quote => return out.write_all(b"\\\""),
            CharEscape::ReverseSolidus => return out.write_all(b"\\\\"),
            CharEscape::Solidus => return out.write_all(b"/"),
            CharEscape::Backspace => '\u{8}',
            CharEscape::Tab => '\t',
            CharEscape::LineFeed => '\n',
            CharEscape::FormFeed => '\u{c}',
            CharEscape::CarriageReturn => '\r',
            CharEscape::AsciiControl(byte) => char::from(byte),
        };
        out.write_all(escape(control).as_bytes())
    }
}

#[cfg(test)]
mod tests {
    use super::*;

    #[test]
    fn values_are_written() {
        for (value, text) in [
            (Json::Null, "null"),
            (Json::Number(u64::MAX), "18446744073709551615"),
            (Json::List(vec![]), "[]"),
            (Json::Object(vec![]), "{}"),
            (Json::List(vec![Json::Number(1), Json::Null]), "[1, null]"),
            (
                Json::Object(vec![("b", Json::Number(1)), ("a", Json::List(vec![]))]),
                "{\"b\": 1, \"a\": []}",
            ),
        ] {
            assert_eq!(value.to_string(), text);
        }
    }

    #[test]
    fn what_holds_more_than_plain_values_has_a_line_for_each() {
        let flat = || Json::Object(vec![("a", Json::Number(1))]);
        let deep = Json::Object(vec![("b", Json::List(vec![flat(), flat()])), ("c", flat())]);
        assert_eq!(
            deep.to_string(),
            "{\n \"b\": [\n  {\"a\": 1},\n  {\"a\": 1}\n ],\n \"c\": {\"a\": 1}\n}"
        );
        assert_eq!(
            Json::List(vec![flat(), Json::Null]).indented(2),
            "[\n   {\"a\": 1},\n   null\n  ]"
        );
    }

    #[test]
    fn texts_are_escaped() {
        let text = "a\"b\\c/d\ne\tf\u{8}\u{c}\r\0g\u{7f}\u{80}é\u{9b}\u{2028}\u{202e}h,";
        assert_eq!(
            Json::text(text).to_string(),
            "\"a\\\"b\\\\c/d\\u000ae\\u0009f\\u0008\\u000c\\u000d\\u0000g\\u007f\\u0080é\\u009b\\u2028\\u202eh,\""
        );
    }

    #[test]
    fn a_text_is_read_as_it_was_and_shows_nothing_that_is_obeyed() {
        let text: String = ('\0'..='\u{2100}').collect();
        let written = Json::text(text.clone()).to_string();
        assert!(!written.contains(is_obeyed));
        let read: serde_json::Value = serde_json::from_str(&written).expect("it is JSON");
        assert_eq!(read.as_str(), Some(text.as_str()));
    }
}
