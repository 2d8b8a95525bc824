//! A source of bytes in pieces: whole lines of a text, decoded, or a fitting file whole. No more than a piece is in memory.

use std::borrow::Cow;
use std::io::{self, Read};

use robequarry::fitting::{self, MARK};
use robequarry::image::{self, Image};
use robequarry::limits::LONGEST_FILE;
use robequarry::text::{is_utf16, may_be_mark, unicode, Decoder};
use robequarry::Outline;

use super::{too_large, Entries, Fault, Form};

/// A line of a text has at most this many bytes.
pub const LONGEST_LINE: usize = LONGEST_FILE;

/// A read asks for this many bytes.
const READ: usize = 1 << 16;

/// What some editors put before a text in UTF-8.
const BYTE_ORDER_MARK: &[u8] = b"\xEF\xBB\xBF";

/// A part of a file, and what stands before it.
pub struct Piece {
    content: Content,
    /// How many outlines stand in the file before this piece, with the lines that should be one and are not.
    pub outlines: usize,
    /// How many lines do.
    lines: usize,
}

enum Content {
    Fitting(Vec<u8>),
    Text(String),
    Image(Outline),
}

impl Piece {
    pub fn entries(&self) -> Entries<'_> {
        match &self.content {
            Content::Fitting(bytes) => Entries::Fitting(fitting::Records::of(bytes)),
            Content::Text(text) => Entries::Text(robequarry::text::Lines::after(self.lines, text)),
            Content::Image(outline) => Entries::Image(Some(outline)),
        }
    }
}

/// Why a source that was read to its end gave no outline.
#[derive(Clone, Copy, Debug, PartialEq, Eq)]
pub enum Nothing {
    /// It has no byte.
    Empty,
    /// It is a text without an outline.
    NoOutline,
    /// It is the image of an empty place.
    EmptyPlace,
}

impl Nothing {
    pub fn words(self) -> &'static str {
        match self {
            Nothing::Empty => "the file is empty: it holds no outline",
            Nothing::NoOutline => "the text holds no outline",
            Nothing::EmptyPlace => "the image is that of an empty place: it holds no outline",
        }
    }
}

/// The pieces of a source. A read returns what is there, so that the lines of a terminal are pieces as they come.
pub struct Pieces<R> {
    source: R,
    form: Option<Form>,
    decoder: Decoder,
    /// What was read and not yet given; of a text, decoded.
    kept: Vec<u8>,
    outlines: usize,
    lines: usize,
    state: State,
    /// Whether the source has ended: what a terminal sends after its end is not asked for.
    read_out: bool,
}

#[derive(Clone, Copy, PartialEq)]
enum State {
    Begin,
    Text,
    /// Ended with a fault, or with an outline.
    Ended,
    Held(Nothing),
}

impl<R: Read> Pieces<R> {
    /// In the form that is given, or else in the form that the source shows.
    pub fn of(source: R, form: Option<Form>) -> Self {
        let (decoder, kept) = (Decoder::default(), Vec::new());
        Pieces { source, form, decoder, kept, outlines: 0, lines: 0, state: State::Begin, read_out: false }
    }

    /// Why the source, which was read to its end, gave no outline; none where it gave one, or a fault.
    pub fn nothing(&self) -> Option<Nothing> {
        match self.state {
            State::Held(nothing) => Some(nothing),
            _ => None,
        }
    }

    /// The form, where it is given or has shown.
    pub fn form(&self) -> Option<Form> {
        self.form
    }

    /// Gives no more.
    pub fn end(&mut self) {
        self.state = State::Ended;
    }

    /// Reads once. Returns false at the source's end.
    fn more(&mut self) -> io::Result<bool> {
        if self.read_out {
            return Ok(false);
        }
        let length = self.kept.len();
        self.kept.resize(length + READ, 0);
        let read = loop {
            match self.source.read(&mut self.kept[length..]) {
                Err(error) if error.kind() == io::ErrorKind::Interrupted => {}
                other => break other,
            }
        };
        self.kept.truncate(length + *read.as_ref().unwrap_or(&0));
        self.read_out = matches!(read, Ok(0));
        read.map(|count| count > 0)
    }

    /// Reads once, and decodes what was read.
    fn more_text(&mut self) -> io::Result<bool> {
        let length = self.kept.len();
        let goes_on = self.more()?;
        if !goes_on {
            self.decoder.finish(&mut self.kept);
        } else if !self.decoder.leaves(&self.kept[length..]) {
            let read = self.kept.split_off(length);
            self.decoder.push(&read, &mut self.kept);
        }
        Ok(goes_on)
    }

    /// Reads until the form shows.
    fn begin(&mut self) -> Result<Option<Piece>, Fault> {
        while self.more().map_err(Fault::Unread)? {
            if self.form.is_some() || self.kept.len() > LONGEST_FILE || shows(&self.kept) {
                break;
            }
        }
        if self.kept.is_empty() && self.form != Some(Form::Image) {
            self.state = State::Held(Nothing::Empty);
            return Ok(None);
        }
        match self.form.or_else(|| form_of(&self.kept)) {
            Some(Form::Text) => {
                let read = std::mem::take(&mut self.kept);
                self.decoder.push(&read, &mut self.kept);
                self.state = State::Text;
                self.form = Some(Form::Text);
                self.text()
            }
            form => {
                self.state = State::Ended;
                self.rest()?;
                self.records(form)
            }
        }
    }

    /// What is there whole: a fitting file, an image, or neither.
    fn records(&mut self, form: Option<Form>) -> Result<Option<Piece>, Fault> {
        // An image is no fitting file: what follows its letters has no mark.
        let image = match form {
            None if too_large(self.kept.len()) => return Err(Fault::Fitting(fitting::Fault::TooLarge)),
            None => return Err(Fault::Neither),
            Some(_) if form == self.form && form == Some(Form::Fitting) => Err(image::Wrong::Mark),
            Some(_) => Image::try_from(&self.kept[..]),
        };
        self.form = if image.is_ok() { Some(Form::Image) } else { form };
        let content = match image {
            Ok(image) => match image.outline() {
                Some(outline) => Content::Image(outline.clone()),
                None => {
                    self.state = State::Held(Nothing::EmptyPlace);
                    return Ok(None);
                }
            },
            Err(wrong) if form == Some(Form::Image) => return Err(Fault::Image(wrong)),
            Err(_) => Content::Fitting(std::mem::take(&mut self.kept)),
        };
        Ok(Some(Piece { content, outlines: 0, lines: 0 }))
    }

    /// Reads to the end, or until it is clear that there is too much for a fitting file.
    fn rest(&mut self) -> Result<(), Fault> {
        let most = (LONGEST_FILE + 1).saturating_sub(self.kept.len()) as u64;
        self.source.by_ref().take(most).read_to_end(&mut self.kept).map_err(Fault::Unread)?;
        self.kept.truncate(LONGEST_FILE + 1);
        Ok(())
    }

    /// The lines that are there, or the next that come.
    fn text(&mut self) -> Result<Option<Piece>, Fault> {
        loop {
            if let Some(last) = self.kept.iter().rposition(|&byte| byte == b'\n') {
                return self.lines_up_to(last + 1).map(Some);
            }
            if self.kept.len() > LONGEST_LINE {
                return Err(Fault::LongLine { line: self.lines + 1 });
            }
            if !self.more_text().map_err(Fault::Unread)? {
                let length = self.kept.len();
                if length > 0 {
                    return self.lines_up_to(length).map(Some);
                }
                self.state = if self.outlines == 0 { State::Held(Nothing::NoOutline) } else { State::Ended };
                return Ok(None);
            }
        }
    }

    /// The kept bytes up to an end of a line, without a line that is too long and what follows it.
    fn lines_up_to(&mut self, end: usize) -> Result<Piece, Fault> {
        let whole = whole_lines(&self.kept[..end]);
        if whole == 0 {
            return Err(Fault::LongLine { line: self.lines + 1 });
        }
        let after = self.kept.split_off(whole);
        let bytes = std::mem::replace(&mut self.kept, after);
        let (lines, outlines) = counted(&bytes);
        let piece = Piece { content: Content::Text(unicode(bytes)), outlines: self.outlines, lines: self.lines };
        self.lines += lines;
        self.outlines += outlines;
        Ok(piece)
    }
}

impl<R: Read> Iterator for Pieces<R> {
    type Item = Result<Piece, Fault>;

    fn next(&mut self) -> Option<Self::Item> {
        let next = match self.state {
            State::Begin => self.begin(),
            State::Text => self.text(),
            State::Ended | State::Held(_) => return None,
        };
        if next.is_err() {
            self.end();
        }
        next.transpose()
    }
}

/// How many bytes stand before the first line that is too long.
fn whole_lines(bytes: &[u8]) -> usize {
    let mut at = 0;
    for line in bytes.split_inclusive(|&byte| byte == b'\n') {
        if line.len() > LONGEST_LINE + 1 {
            break;
        }
        at += line.len();
    }
    at
}

/// How many lines there are, and how many of them hold an outline, or something else that is no comment.
fn counted(bytes: &[u8]) -> (usize, usize) {
    let holds = |line: &&[u8]| line.iter().find(|byte| !byte.is_ascii_whitespace()).is_some_and(|&byte| byte != b'#');
    let lines = || bytes.split_inclusive(|&byte| byte == b'\n');
    (lines().count(), lines().filter(holds).count())
}

/// The bytes without a mark, of UTF-16 the characters that are whole: what the form is told by.
fn unmarked(bytes: &[u8]) -> Cow<'_, [u8]> {
    if !is_utf16(bytes) {
        return Cow::Borrowed(bytes.strip_prefix(BYTE_ORDER_MARK).unwrap_or(bytes));
    }
    let mut whole = Vec::new();
    Decoder::default().push(bytes, &mut whole);
    Cow::Owned(whole)
}

/// What begins at the first byte that is no white space.
fn telling(bytes: &[u8]) -> Option<&[u8]> {
    bytes.iter().position(|byte| !byte.is_ascii_whitespace()).map(|at| &bytes[at..])
}

/// Whether a text may begin with this byte.
fn begins_text(byte: u8) -> bool {
    byte.is_ascii_digit() || byte == b'#'
}

fn ends_line(byte: &u8) -> bool {
    matches!(byte, b'\n' | b'\r')
}

/// Whether the form shows: there is a byte that tells, and of a text its first line; more bytes would not change what is seen.
fn shows(bytes: &[u8]) -> bool {
    match telling(&unmarked(bytes)) {
        _ if may_be_mark(bytes) => false,
        None => false,
        Some(rest) if begins_text(rest[0]) => rest.iter().any(ends_line),
        Some(_) => bytes != &MARK[..1],
    }
}

/// A text begins with a digit or a `#`, after white space, and has no zero byte in that line; a fitting file begins with its mark. Bytes
/// that are white space are a text.
fn form_of(bytes: &[u8]) -> Option<Form> {
    match telling(&unmarked(bytes)) {
        None => Some(Form::Text),
        Some(rest) if begins_text(rest[0]) => {
            let mut line = rest.iter().take_while(|byte| !ends_line(byte));
            line.all(|&byte| byte != 0).then_some(Form::Text)
        }
        _ if MARK.starts_with(bytes) || bytes.starts_with(&MARK) => Some(Form::Fitting),
        _ => None,
    }
}

#[cfg(test)]
mod tests {
    use super::*;

    /// A source that gives so many bytes at a time.
    struct Slowly<'a>(&'a [u8], usize);

    impl Read for Slowly<'_> {
        fn read(&mut self, buffer: &mut [u8]) -> io::Result<usize> {
            let count = self.1.min(self.0.len()).min(buffer.len());
            buffer[..count].copy_from_slice(&self.0[..count]);
            self.0 = &self.0[count..];
            Ok(count)
        }
    }

    #[test]
    fn a_file_shows_its_form() {
        for text in [&b"0 1 1032"[..], b"# none", b"\n 7 7\r\n", b"  ", b"\xEF\xBB\xBF0 0 1032", b"# \x1b[31m"] {
            assert_eq!(form_of(text), Some(Form::Text));
        }
        for fitting in [&b"K"[..], b"KO\0\0\x04\0\x01\0\x03\x02", b"KO"] {
            assert_eq!(form_of(fitting), Some(Form::Fitting));
        }
        for neither in [&b"x"[..], b"KP", b"1O\0\0\x04\0", b"\x89PNG", b"\xEF\xBB\xBFKO", b"OK"] {
            assert_eq!(form_of(neither), None);
        }
    }

    /// However the source is cut, the same outlines have the same numbers, and a fault the same line.
    #[test]
    fn pieces_are_the_file() {
        let text = b"\xEF\xBB\xBF# names\n0 0 1032 # one\n\n 1 1 1032\n#\n2 2 1032\n3 3 10x2\n4 4 1032\n";
        for step in 1..text.len() + 2 {
            let mut seen = Vec::new();
            let mut fault = None;
            for piece in Pieces::of(Slowly(text, step), None) {
                let piece = piece.unwrap();
                for (i, read) in piece.entries().enumerate() {
                    match read {
                        Ok((outline, name)) => seen.push((piece.outlines + i, outline.start.col, name.to_string())),
                        Err(found) => fault = fault.or(Some(found.to_string())),
                    }
                }
            }
            let seen: Vec<_> = seen.iter().take(3).map(|(n, col, name)| (*n, *col, name.as_str())).collect();
            assert_eq!(seen, [(0, 0, "one"), (1, 1, ""), (2, 2, "")], "{step}");
            assert!(fault.unwrap().starts_with("line 7: "), "{step}");
        }
    }

    #[test]
    fn what_has_no_end_ends_with_fault_25() {
        for (mut pieces, said) in [
            (Pieces::of(Box::new(io::repeat(0)) as Box<dyn Read>, None), "fault 25: the file has more than 65,536 bytes"),
            (Pieces::of(Box::new(io::repeat(b'1')), None), "fault 25: line 1 has more than 65536 bytes"),
            (Pieces::of(Box::new(io::repeat(b'K')), None), "fault 25: the file has more than 65,536 bytes"),
            (Pieces::of(Box::new(io::repeat(b'1')), Some(Form::Fitting)), "fault 25"),
        ] {
            let fault = match pieces.next().unwrap() {
                Err(fault) => fault,
                Ok(piece) => piece.entries().next().unwrap().unwrap_err(),
            };
            assert!(fault.to_string().starts_with(said), "{fault}");
            assert!(pieces.next().is_none());
        }
    }

    #[test]
    fn a_long_line_is_a_fault_wherever_it_is() {
        let line = |length: usize| [&vec![b'1'; length][..], b"\n"].concat();
        for (before, length, faulty) in [(0, LONGEST_LINE, false), (0, LONGEST_LINE + 1, true), (3, LONGEST_LINE + 1, true)]
        {
            let text = [b"# few\n".repeat(before), line(length), b"# end\n".to_vec()].concat();
            for step in [1000, 65_536, 1 << 20] {
                let read: Vec<_> = Pieces::of(Slowly(&text, step), None).collect();
                let fault = read.iter().find_map(|piece| piece.as_ref().err().map(|fault| fault.line()));
                assert_eq!(fault, faulty.then_some(Some(before + 1)), "{before} {length} {step}");
            }
        }
    }

    #[test]
    fn an_empty_source_is_empty() {
        let mut pieces = Pieces::of(&b""[..], None);
        assert!(pieces.next().is_none() && pieces.nothing() == Some(Nothing::Empty));
        let mut blank = Pieces::of(&b"\n"[..], None);
        assert!(blank.next().is_some() && blank.next().is_none() && blank.nothing() == Some(Nothing::NoOutline));
    }
}
