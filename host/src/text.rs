//! The text form: an outline a line, as the start's column and row and the letters in a row, `0 1 101030323212`. What follows a `#` is
//! the outline's name; a line without an outline is left out. Edges have a text form too: the anchor's column and row, then columns
//! and rows for each edge, `0 1 1 1 1 -1 -1 -1 -1 1`.
//!
//! ```
//! use robequarry::{text, Corner, Edges, Outline};
//!
//! let plus: Outline = "0 1 101030323212  # a plus".parse()?;
//! assert_eq!(plus, Outline::new(Corner::new(0, 1), [1, 0, 1, 0, 3, 0, 3, 2, 3, 2, 1, 2]));
//! assert_eq!(text::line(&plus).as_deref(), Some("0 1 101030323212"));
//! let edges: Edges = "0 1  1 1  1 -1  -1 -1  -1 1".parse()?;
//! assert_eq!(plus.test(), Ok(edges));
//! # Ok::<(), text::Wrong>(())
//! ```

use alloc::borrow::Cow;
use alloc::format;
use alloc::string::{String, ToString};
use alloc::vec::Vec;
use core::error::Error;
use core::fmt;
use core::str::FromStr;

pub use crate::decoding::{decode, is_utf16, may_be_mark, unescaped, unicode, Decoder};
use crate::{Cell, Corner, Edges, Outline};

/// Why a line is not an outline, or not a list of edges.
#[derive(Clone, Debug, PartialEq, Eq, Hash)]
#[non_exhaustive]
pub enum Wrong {
    /// There is nothing but white space and a name.
    Nothing,
    /// There are too few fields, or too many.
    Fields,
    /// A number of the start, or of the anchor, is not a number from 0 to 65,535: this field.
    Start { field: String },
    /// A letter is not a digit: this character.
    Letter { found: char },
    /// A number of an edge is not a signed number of 16 bits: this field.
    Edge { field: String },
}

impl fmt::Display for Wrong {
    fn fmt(&self, f: &mut fmt::Formatter<'_>) -> fmt::Result {
        match self {
            Wrong::Nothing => write!(f, "the line is empty"),
            Wrong::Fields => write!(f, "an outline is a column, a row and letters in a row, as in `0 1 101030323212`"),
            Wrong::Start { field } => {
                write!(f, "column and row are numbers from 0 to {}, not `{}`", u16::MAX, Escaped(field))
            }
            Wrong::Letter { found } => {
                let found = found.to_string();
                write!(f, "letters are 0 right, 1 up, 2 left and 3 down, not `{}`", Escaped(&found))
            }
            Wrong::Edge { field } => {
                write!(f, "a number of an edge is from {} to {}, not `{}`", i16::MIN, i16::MAX, Escaped(field))
            }
        }
    }
}

impl Error for Wrong {}

/// Text in which control characters are escaped, as `\u{1b}`, so that a terminal shows them and does not obey them. A backslash before
/// `u{` is escaped as well, so that [`unescaped`] gives the text back.
#[derive(Clone, Copy, Debug)]
pub struct Escaped<'a>(pub &'a str);

impl fmt::Display for Escaped<'_> {
    fn fmt(&self, f: &mut fmt::Formatter<'_>) -> fmt::Result {
        let mut from = 0;
        for (at, found) in self.0.char_indices() {
            if obeyed(found) || self.0[at..].starts_with("\\u{") {
                write!(f, "{}{}", &self.0[from..at], found.escape_unicode())?;
                from = at + found.len_utf8();
            }
        }
        f.write_str(&self.0[from..])
    }
}

/// Control characters, and those that change the direction of the text around them.
fn obeyed(char: char) -> bool {
    char.is_control() || matches!(char, '\u{202a}'..='\u{202e}' | '\u{2066}'..='\u{2069}' | '\u{2028}' | '\u{2029}')
}

/// A line without its name, and the name, which may be empty.
fn parts(line: &str) -> (&str, Cow<'_, str>) {
    let (content, name) = line.split_once('#').unwrap_or((line, ""));
    (content, unescaped(name.trim_matches(|char: char| char.is_ascii_whitespace())))
}

/// The outline of a line and its name, which may be empty; none where the line has no outline.
pub fn entry(line: &str) -> Result<Option<(Outline, Cow<'_, str>)>, Wrong> {
    let (content, name) = parts(line);
    let mut fields = content.split_ascii_whitespace();
    let Some(col) = fields.next() else {
        return Ok(None);
    };
    let row = fields.next().ok_or(Wrong::Fields)?;
    let letters = fields.next().unwrap_or("");
    if fields.next().is_some() {
        return Err(Wrong::Fields);
    }
    let start = Corner::new(number(col)?, number(row)?);
    Ok(Some((Outline::new(start, digits(letters)?), name)))
}

/// The edges of a line and their name, which may be empty; none where the line has no edges.
pub fn edges(line: &str) -> Result<Option<(Edges, Cow<'_, str>)>, Wrong> {
    let (content, name) = parts(line);
    let mut fields = content.split_ascii_whitespace();
    let Some(col) = fields.next() else {
        return Ok(None);
    };
    let row = fields.next().ok_or(Wrong::Fields)?;
    let anchor = Cell::new(number(col)?, number(row)?);
    let edge = |field: &str| field.parse().map_err(|_| Wrong::Edge { field: field.to_string() });
    let numbers = fields.map(edge).collect::<Result<Vec<i16>, Wrong>>()?;
    Ok(Some((Edges::new(anchor, numbers), name)))
}

fn number(field: &str) -> Result<u16, Wrong> {
    // A sign is no digit, though the standard's numbers may have one.
    let digits = field.bytes().all(|byte| byte.is_ascii_digit());
    field.parse().ok().filter(|_| digits).ok_or_else(|| Wrong::Start { field: field.to_string() })
}

/// Digits above 3 are no letters, and are left for the test to refuse.
fn digits(letters: &str) -> Result<Vec<u8>, Wrong> {
    if let Some(found) = letters.chars().find(|char| !char.is_ascii_digit()) {
        return Err(Wrong::Letter { found });
    }
    Ok(letters.bytes().map(|digit| digit - b'0').collect())
}

/// A line of the text form, with or without a name.
impl FromStr for Outline {
    type Err = Wrong;

    fn from_str(line: &str) -> Result<Self, Wrong> {
        entry(line)?.map(|(outline, _)| outline).ok_or(Wrong::Nothing)
    }
}

/// An anchor and edges in one line, with or without a name.
impl FromStr for Edges {
    type Err = Wrong;

    fn from_str(line: &str) -> Result<Self, Wrong> {
        edges(line)?.map(|(edges, _)| edges).ok_or(Wrong::Nothing)
    }
}

/// The outline as a line of the text form; none if a byte of it is no digit.
pub fn line(outline: &Outline) -> Option<String> {
    use fmt::Write;
    let mut line = String::with_capacity(outline.letters.len() + 12);
    write!(line, "{} {} ", outline.start.col, outline.start.row).expect("a string has room");
    for &letter in &outline.letters {
        line.push(char::from_digit(letter.into(), 10)?);
    }
    line.truncate(line.trim_end().len());
    Some(line)
}

/// Edges as a line: the anchor, and columns and rows for each edge.
pub fn edge_line(edges: &Edges) -> String {
    use fmt::Write;
    let mut line = format!("{} {}", edges.anchor().col, edges.anchor().row);
    for (cols, rows) in edges.steps() {
        write!(line, "  {cols} {rows}").expect("a string has room");
    }
    line
}

/// A line that is not what it should be. Lines are counted from 1.
#[derive(Clone, Debug, PartialEq, Eq, Hash)]
pub struct Fault {
    /// The line's number.
    pub line: usize,
    /// What is wrong with it.
    pub wrong: Wrong,
}

impl fmt::Display for Fault {
    fn fmt(&self, f: &mut fmt::Formatter<'_>) -> fmt::Result {
        write!(f, "line {}: {}", self.line, self.wrong)
    }
}

impl Error for Fault {}

/// The outlines of a decoded text with their names, and a fault for each line that holds something else.
///
/// A line is by itself, so a fault need not end the reading; whoever wants the whole text stops at the first.
#[derive(Clone, Debug)]
pub struct Lines<'a> {
    text: &'a str,
    line: usize,
    passed: &'a str,
}

impl<'a> Lines<'a> {
    /// The outlines of a text that [`decode`] gave.
    pub fn of(text: &'a str) -> Self {
        Lines::after(0, text)
    }

    /// The outlines of a part of a text that so many lines stand before.
    pub fn after(line: usize, text: &'a str) -> Self {
        Lines { text, line, passed: "" }
    }

    /// How many lines have been read, with those before.
    pub fn line(&self) -> usize {
        self.line
    }

    /// The lines without an outline that stood before the last one that was given, or at the text's end.
    pub fn passed(&self) -> &'a str {
        self.passed
    }
}

impl<'a> Iterator for Lines<'a> {
    type Item = Result<(Outline, Cow<'a, str>), Fault>;

    fn next(&mut self) -> Option<Self::Item> {
        let (begin, mut passed) = (self.text, 0);
        while !self.text.is_empty() {
            let (line, rest) = self.text.split_once('\n').unwrap_or((self.text, ""));
            self.line += 1;
            self.text = rest;
            let read = entry(line);
            if read != Ok(None) {
                self.passed = &begin[..passed];
                return read.map_err(|wrong| Fault { line: self.line, wrong }).transpose();
            }
            passed = begin.len() - rest.len();
        }
        self.passed = begin;
        None
    }
}

#[cfg(test)]
mod tests {
    use super::*;

    #[test]
    fn outlines_names_and_empty_lines() {
        let text = "# specimens\n\n0 1 101030323212 # H3: a plus\n  256\t0  7777\n3 4";
        let entries: Vec<(Outline, Cow<str>)> = Lines::of(text).map(Result::unwrap).collect();
        assert_eq!(entries[0].1, "H3: a plus");
        assert_eq!(entries[0].0, Outline::new(Corner::new(0, 1), [1, 0, 1, 0, 3, 0, 3, 2, 3, 2, 1, 2]));
        assert_eq!((&*entries[1].1, &entries[1].0.letters[..]), ("", &[7; 4][..]));
        assert_eq!(entries[2].0, Outline::new(Corner::new(3, 4), []));
        let lines: Vec<String> = entries.iter().map(|(outline, _)| line(outline).unwrap()).collect();
        assert_eq!(lines, ["0 1 101030323212", "256 0 7777", "3 4"]);
        assert_eq!(line(&Outline::new(Corner::new(0, 0), [10])), None);
    }

    #[test]
    fn a_fault_names_its_line() {
        let fault = |text: &str| Lines::of(text).last().unwrap().unwrap_err().to_string();
        assert_eq!(fault("0 0 1032\n\n0 0 10x2"), "line 3: letters are 0 right, 1 up, 2 left and 3 down, not `x`");
        assert_eq!(fault("0 -1 1032"), "line 1: column and row are numbers from 0 to 65535, not `-1`");
        assert_eq!(fault("+1 0 1032"), "line 1: column and row are numbers from 0 to 65535, not `+1`");
        assert_eq!(fault("65536 0 1032"), "line 1: column and row are numbers from 0 to 65535, not `65536`");
        assert!(fault("7").starts_with("line 1: an outline is a column"));
        assert!(fault("0 0 10 32").starts_with("line 1: an outline is a column"));
        assert!(fault("0 \x1b[2J 1032").ends_with("not `\\u{1b}[2J`"));
        assert_eq!(Lines::of("x\n0 0 1032").count(), 2);
        assert_eq!(Lines::after(4, "x").next(), Some(Err(Fault { line: 5, wrong: Wrong::Fields })));
    }

    #[test]
    fn what_is_passed_is_there() {
        let mut lines = Lines::of("# one\n\n0 0 1032\n0 0 x\n#two\n1 1 1032\n# three");
        assert!(lines.next().unwrap().is_ok());
        assert_eq!(lines.passed(), "# one\n\n");
        assert!(lines.next().unwrap().is_err());
        assert_eq!(lines.passed(), "");
        assert!(lines.next().unwrap().is_ok());
        assert_eq!(lines.passed(), "#two\n");
        assert!(lines.next().is_none());
        assert_eq!(lines.passed(), "# three");
    }

    #[test]
    fn edges_there_and_back() {
        let edges: Edges = " 0 1  1 1  1 -1  -1 -1  -1 1 # controller 7".parse().unwrap();
        assert_eq!(edges.anchor(), Cell::new(0, 1));
        assert_eq!(edge_line(&edges).parse(), Ok(edges));
        assert_eq!("7 9".parse::<Edges>().unwrap().numbers(), []);
        assert_eq!("0 0 40000".parse::<Edges>(), Err(Wrong::Edge { field: "40000".to_string() }));
        assert_eq!(" # nothing".parse::<Edges>(), Err(Wrong::Nothing));
        assert_eq!("".parse::<Outline>(), Err(Wrong::Nothing));
    }

    #[test]
    fn control_characters_are_shown() {
        assert_eq!(Escaped("a\u{1b}[31mb\tc\u{202e}").to_string(), "a\\u{1b}[31mb\\u{9}c\\u{202e}");
        assert_eq!(Escaped("Knie, größer C:\\user").to_string(), "Knie, größer C:\\user");
        assert_eq!(Escaped("\\u{1b}").to_string(), "\\u{5c}u{1b}");
    }
}
