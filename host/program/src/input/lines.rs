//! A text line by line, decoded, for lists and tables. No more than some lines are in memory.

use std::io::{self, Read};

use robequarry::text::{unicode, Decoder};

use super::LONGEST_LINE;

/// A read asks for this many bytes.
const READ: usize = 1 << 16;

/// The lines of a source, without their ends.
pub struct TextLines<R> {
    source: R,
    decoder: Decoder,
    /// Decoded bytes, and where the next line begins in them.
    kept: Vec<u8>,
    at: usize,
    ended: bool,
    /// How many lines have been given.
    pub line: usize,
}

/// Why there is no line.
#[derive(Debug)]
pub enum Wrong {
    Unread(io::Error),
    Long,
}

impl<R: Read> TextLines<R> {
    pub fn of(source: R) -> Self {
        TextLines { source, decoder: Decoder::default(), kept: Vec::new(), at: 0, ended: false, line: 0 }
    }

    /// The first character that is no white space, which is not taken; none where there is none in the first line that holds something.
    pub fn peek(&mut self) -> Result<Option<char>, Wrong> {
        loop {
            let rest = &self.kept[self.at..];
            match rest.iter().find(|byte| !byte.is_ascii_whitespace()) {
                Some(&byte) => return Ok(Some(char::from(byte))),
                None if self.ended => return Ok(None),
                None if rest.len() > LONGEST_LINE => return Err(Wrong::Long),
                None => self.more()?,
            }
        }
    }

    /// The next line.
    pub fn take(&mut self) -> Result<Option<String>, Wrong> {
        let mut seen = self.at;
        loop {
            let end = self.kept[seen..].iter().position(|&byte| byte == b'\n').map(|end| seen + end);
            let length = end.unwrap_or(self.kept.len()) - self.at;
            if length > LONGEST_LINE {
                self.line += 1;
                return Err(Wrong::Long);
            }
            match end {
                Some(end) => return Ok(Some(self.give(end, end + 1))),
                None if self.ended && length > 0 => return Ok(Some(self.give(self.kept.len(), self.kept.len()))),
                None if self.ended => return Ok(None),
                None => {
                    self.kept.drain(..self.at);
                    (self.at, seen) = (0, self.kept.len());
                    self.more()?;
                }
            }
        }
    }

    fn give(&mut self, end: usize, next: usize) -> String {
        let line = self.kept[self.at..end].to_vec();
        self.at = next;
        self.line += 1;
        unicode(line)
    }

    fn more(&mut self) -> Result<(), Wrong> {
        let mut read = vec![0; READ];
        let count = loop {
            match self.source.read(&mut read) {
                Err(error) if error.kind() == io::ErrorKind::Interrupted => {}
                other => break other.map_err(Wrong::Unread)?,
            }
        };
        self.decoder.push(&read[..count], &mut self.kept);
        if count == 0 {
            self.ended = true;
            self.decoder.finish(&mut self.kept);
        }
        Ok(())
    }
}

#[cfg(test)]
mod tests {
    use super::*;

    #[test]
    fn lines_of_any_ends() {
        let mut lines = TextLines::of(&b"\xEF\xBB\xBF \na\r\nb\rc\n\nd\xE9"[..]);
        assert_eq!(lines.peek().unwrap(), Some('a'));
        let mut read = Vec::new();
        while let Some(line) = lines.take().unwrap() {
            read.push(line);
        }
        assert_eq!((read, lines.line), ([" ", "a", "b", "c", "", "d\u{e9}"].map(String::from).to_vec(), 6));
        assert_eq!(TextLines::of(&b""[..]).peek().unwrap(), None);
    }

    #[test]
    fn a_long_line_is_none() {
        let text = [&b"x\n"[..], &vec![b'1'; LONGEST_LINE + 1]].concat();
        let mut lines = TextLines::of(&text[..]);
        assert_eq!(lines.take().unwrap().as_deref(), Some("x"));
        assert!(matches!(lines.take(), Err(Wrong::Long)) && lines.line == 2);
        assert!(matches!(TextLines::of(io::repeat(b' ')).peek(), Err(Wrong::Long)));
    }
}
