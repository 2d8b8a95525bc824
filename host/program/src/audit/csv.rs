//! CSV (RFC 4180), read line by line: fields set apart by commas or semicolons, in quotes where they hold one. Fields have no line ends.

use std::io::Read;

use crate::input::{LineWrong, TextLines};

/// A table whose first line has the names of its columns, after comments.
pub struct Table<R> {
    lines: TextLines<R>,
    separator: char,
    pub names: Vec<String>,
}

/// Why a line is no row.
#[derive(Debug)]
pub enum Wrong {
    Line(LineWrong),
    /// A field's quotes do not end.
    Quotes,
}

impl Wrong {
    /// Whether the lines that follow can be read.
    pub fn is_of_a_line(&self) -> bool {
        matches!(self, Wrong::Quotes)
    }
}

impl<R: Read> Table<R> {
    /// The table whose first line is this one, and whose others follow.
    pub fn after(first: &str, lines: TextLines<R>) -> Result<Self, Wrong> {
        let separator = if !first.contains(',') && first.contains(';') { ';' } else { ',' };
        let names = fields(first, separator)?.into_iter().map(|name| name.trim().to_lowercase()).collect();
        Ok(Table { lines, separator, names })
    }

    /// How many lines have been read.
    pub fn line(&self) -> usize {
        self.lines.line
    }

    /// The next row: as many fields as it has. Empty lines are left out.
    pub fn row(&mut self) -> Result<Option<Vec<String>>, Wrong> {
        while let Some(line) = self.lines.take().map_err(Wrong::Line)? {
            if !line.trim().is_empty() {
                return fields(&line, self.separator).map(Some);
            }
        }
        Ok(None)
    }
}

fn fields(line: &str, separator: char) -> Result<Vec<String>, Wrong> {
    let mut fields = vec![String::new()];
    let mut chars = line.chars().peekable();
    let mut quoted = false;
    while let Some(char) = chars.next() {
        let field = fields.last_mut().expect("there is a field");
        match char {
            '"' if quoted && chars.peek() == Some(&'"') => field.extend(chars.next()),
            '"' => quoted = !quoted,
            _ if char == separator && !quoted => fields.push(String::new()),
            _ => field.push(char),
        }
    }
    match quoted {
        true => Err(Wrong::Quotes),
        false => Ok(fields),
    }
}

#[cfg(test)]
mod tests {
    use super::*;

    fn table(text: &[u8]) -> Table<&[u8]> {
        let mut lines = TextLines::of(text);
        let first = lines.take().unwrap().unwrap();
        Table::after(&first, lines).unwrap()
    }

    #[test]
    fn tables() {
        let mut one = table(b"\xEF\xBB\xBFOutline, name\r\n1,\"a, \"\"b\"\"\"\n\n2,c\n");
        assert_eq!(one.names, ["outline", "name"]);
        assert_eq!(one.row().unwrap().unwrap(), ["1", "a, \"b\""]);
        assert_eq!((one.row().unwrap().unwrap(), one.line()), (vec!["2".to_string(), "c".to_string()], 4));
        assert!(one.row().unwrap().is_none());
        assert_eq!(table(b"outline;edges\n1;1 1,5\n").row().unwrap().unwrap(), ["1", "1 1,5"]);
        let mut quotes = table(b"outline\n\"1\n2\n");
        assert!(quotes.row().is_err_and(|wrong| wrong.is_of_a_line()));
        assert_eq!(quotes.row().unwrap().unwrap(), ["2"]);
    }

    /// The rules of RFC 4180, section 2, that concern a line.
    #[test]
    fn published_rules() {
        for (line, expected) in [
            ("aaa,bbb,ccc", &["aaa", "bbb", "ccc"][..]),
            ("\"aaa\",\"bbb\",\"ccc\"", &["aaa", "bbb", "ccc"]),
            ("\"aaa\",\"b\"\"bb\",\"ccc\"", &["aaa", "b\"bb", "ccc"]),
            ("a, b ,", &["a", " b ", ""]),
            ("\"\"", &[""]),
        ] {
            assert_eq!(fields(line, ',').unwrap(), expected);
        }
        assert!(matches!(fields("a,\"b", ','), Err(Wrong::Quotes)));
    }
}
