//! Files of outlines, texts, fitting files and images, read in pieces.

mod folders;
mod lines;
mod pieces;

use std::borrow::Cow;
use std::fmt;
use std::fs::File;
use std::io::{self, Read};
use std::path::Path;

use robequarry::fitting::Records;
use robequarry::limits::LONGEST_FILE;
use robequarry::text::Lines;
use robequarry::{fitting, image, text, Outline};

pub use folders::{ends_in, Found, Walk, Why};
pub use lines::{TextLines, Wrong as LineWrong};
pub use pieces::{Nothing, Piece, Pieces, LONGEST_LINE};

/// An outline of a file, with its name where the text form gives one.
#[derive(Clone, Debug, PartialEq, Eq)]
pub struct Entry {
    pub name: Option<String>,
    pub outline: Outline,
}

impl Entry {
    fn of(outline: Outline, name: &str) -> Self {
        Entry { name: (!name.is_empty()).then(|| name.to_string()), outline }
    }
}

#[derive(Clone, Copy, Debug, PartialEq, Eq)]
pub enum Form {
    Fitting,
    Text,
    Image,
}

impl Form {
    /// The form that a file's name shows.
    pub fn by_name(path: &Path) -> Option<Self> {
        let endings = [("fit", Form::Fitting), ("txt", Form::Text), ("img", Form::Image)];
        endings.iter().find(|(ending, _)| ends_in(path, ending)).map(|(_, form)| *form)
    }

    pub fn word(self) -> &'static str {
        match self {
            Form::Fitting => "fitting",
            Form::Text => "text",
            Form::Image => "image",
        }
    }
}

/// What is wrong with a file. Nothing after it is read, but for the lines of a text.
#[derive(Debug)]
pub enum Fault {
    Fitting(fitting::Fault),
    Text(text::Fault),
    Image(image::Wrong),
    /// The file begins as neither form does.
    Neither,
    /// A line of a text is longer than any fitting file.
    LongLine {
        line: usize,
    },
    Unread(io::Error),
}

impl Fault {
    /// The contract's number of the fault, where it has one.
    pub fn number(&self) -> Option<u16> {
        match self {
            Fault::Fitting(fault) => Some(fault.number()),
            Fault::Neither => Some(23),
            Fault::Image(_) => Some(26),
            Fault::LongLine { .. } => Some(25),
            Fault::Text(_) | Fault::Unread(_) => None,
        }
    }

    /// The byte at which the contract places it.
    pub fn byte(&self) -> Option<usize> {
        match self {
            Fault::Fitting(fault) => Some(fault.position()),
            Fault::Neither => Some(0),
            _ => None,
        }
    }

    /// Whether what follows may be read: a line of a text is by itself.
    pub fn is_of_a_line(&self) -> bool {
        matches!(self, Fault::Text(_))
    }

    /// The line of a text that it is in.
    pub fn line(&self) -> Option<usize> {
        match self {
            Fault::Text(fault) => Some(fault.line),
            Fault::LongLine { line } => Some(*line),
            _ => None,
        }
    }
}

impl fmt::Display for Fault {
    fn fmt(&self, f: &mut fmt::Formatter<'_>) -> fmt::Result {
        match self {
            Fault::Fitting(fault) => fault.fmt(f),
            Fault::Text(fault) => fault.fmt(f),
            Fault::Image(wrong) => wrong.fmt(f),
            Fault::Neither => write!(
                f,
                "neither text nor a fitting file: a text of outlines begins with a digit or a #, a fitting file with the \
                 bytes 4B 4F (fault 23); --text reads it as a text, line by line with --keep-going"
            ),
            Fault::LongLine { line } => write!(f, "fault 25: line {line} has more than {LONGEST_LINE} bytes"),
            Fault::Unread(error) => write!(f, "cannot be read: {error}"),
        }
    }
}

/// The outlines of a piece with their names, which may be empty, and its faults. A fault of a fitting file ends it.
pub enum Entries<'a> {
    Fitting(Records<'a>),
    Text(Lines<'a>),
    Image(Option<&'a Outline>),
}

impl<'a> Iterator for Entries<'a> {
    type Item = Result<(Outline, Cow<'a, str>), Fault>;

    fn next(&mut self) -> Option<Self::Item> {
        let nameless = |outline: Outline| (outline, Cow::Borrowed(""));
        match self {
            Entries::Fitting(records) => Some(records.next()?.map(nameless).map_err(Fault::Fitting)),
            Entries::Text(lines) => Some(lines.next()?.map_err(Fault::Text)),
            Entries::Image(outline) => outline.take().map(|outline| Ok(nameless(outline.clone()))),
        }
    }
}

impl Entries<'_> {
    /// The comments that stand before what was given last, or at the end, each without its line end.
    pub fn comments(&self) -> Vec<String> {
        let Entries::Text(lines) = self else {
            return Vec::new();
        };
        lines.passed().lines().filter(|line| !line.trim().is_empty()).map(str::to_string).collect()
    }
}

/// Opens a file, `-` being standard input.
pub fn open(path: &Path) -> io::Result<Box<dyn Read>> {
    if path.as_os_str() == "-" {
        return Ok(Box::new(io::stdin()));
    }
    let file = File::open(path)?;
    if file.metadata()?.is_dir() {
        return Err(io::Error::other("it is a folder"));
    }
    Ok(Box::new(file))
}

/// The form in which a file is read: the given one, or that of an image by its name. Else it shows its form.
pub fn form_to_read(path: &Path, given: Option<Form>) -> Option<Form> {
    given.or_else(|| Form::by_name(path).filter(|form| *form == Form::Image))
}

/// The outlines of a file one by one, a piece of it in memory at a time.
pub struct Reader {
    pieces: Pieces<Box<dyn Read>>,
    waiting: std::vec::IntoIter<Waiting>,
    /// The comments that were passed and not yet taken.
    comments: Vec<String>,
}

/// What is read: an outline or a fault, and the comments before it; or comments alone.
type Waiting = (Vec<String>, Option<Result<Entry, Fault>>);

impl Reader {
    pub fn open(path: &Path, form: Option<Form>) -> io::Result<Self> {
        let pieces = Pieces::of(open(path)?, form_to_read(path, form));
        Ok(Reader { pieces, waiting: Vec::new().into_iter(), comments: Vec::new() })
    }

    /// The form of the file, once something of it was read.
    pub fn form(&self) -> Option<Form> {
        self.pieces.form()
    }

    /// Why the file, which was read to its end, gave no outline.
    pub fn nothing(&self) -> Option<Nothing> {
        self.pieces.nothing()
    }

    /// The comments that stood between the last outlines.
    pub fn comments(&mut self) -> Vec<String> {
        std::mem::take(&mut self.comments)
    }

    /// Gives no more, after a fault.
    pub fn end(&mut self) {
        self.pieces.end();
        self.waiting = Vec::new().into_iter();
    }
}

impl Iterator for Reader {
    type Item = Result<Entry, Fault>;

    fn next(&mut self) -> Option<Self::Item> {
        loop {
            for (comments, read) in self.waiting.by_ref() {
                self.comments.extend(comments);
                if read.is_some() {
                    return read;
                }
            }
            match self.pieces.next()? {
                Ok(piece) => {
                    let (mut entries, mut waiting) = (piece.entries(), Vec::new());
                    while let Some(read) = entries.next() {
                        let entry = read.map(|(outline, name)| Entry::of(outline, &name));
                        waiting.push((entries.comments(), Some(entry)));
                    }
                    waiting.push((entries.comments(), None));
                    self.waiting = waiting.into_iter();
                }
                Err(fault) => return Some(Err(fault)),
            }
        }
    }
}

/// The outlines of a text that is in memory, for our own texts.
pub fn entries(text: &str) -> Vec<Entry> {
    let read = Lines::of(text).map(|read| read.expect("our own text has no fault"));
    read.map(|(outline, name)| Entry::of(outline, &name)).collect()
}

/// Whether so many bytes are too many for a fitting file.
fn too_large(bytes: usize) -> bool {
    bytes > LONGEST_FILE
}
