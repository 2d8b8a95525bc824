//! One input for an engine, and the line by which it can be replayed.

use std::fmt::{self, Write as _};
use std::str::FromStr;

use robequarry::codec::NO_WORD;
use robequarry::limits::{LAST_LETTER, REPLY, WITNESS_NUMBERS};
use robequarry::raw::Reply;

use crate::engine::Engine;
use crate::reference::help::shows;
use crate::{Fields, Outline, Point};

/// An input. `space` is the length of a buffer: for edges, for cells, for letters, or for the numbers of a script's replies. A piece is asked for on
/// the holder that its script leaves.
#[derive(Clone, Debug, PartialEq)]
pub enum Case {
    Test { outline: Outline, space: usize },
    Loose { anchor: Point, edges: Vec<i16>, cell: Point },
    Border { anchor: Point, edges: Vec<i16>, space: usize },
    Compare { first: Polygon, second: Polygon },
    Witness { outline: Outline, space: usize },
    Complete { outline: Outline, space: usize },
    Script { bytes: Vec<u8>, space: usize },
    Piece { script: Vec<u8>, asked: Asked },
}

/// Whose drawing is asked for, and for which of its pieces.
#[derive(Clone, Copy, Debug, PartialEq)]
pub struct Asked {
    pub party: u8,
    pub place: u8,
    pub position: u16,
}

/// An anchor and a list of edges.
#[derive(Clone, Debug, PartialEq)]
pub struct Polygon {
    pub anchor: Point,
    pub edges: Vec<i16>,
}

/// How many replies an engine wrote, and every buffer as it left it.
#[derive(Clone, Debug, PartialEq)]
pub struct Outcome {
    pub written: usize,
    pub edges: Vec<i16>,
    pub cells: Vec<u16>,
    pub letters: Vec<u8>,
    /// The bits of floats.
    pub point: Vec<u32>,
    pub replies: Vec<u16>,
}

/// What stands in a buffer before a call: anything but what the call would write.
fn filler(i: usize) -> u16 {
    (i as u16).wrapping_mul(0x9e37) ^ 0x5a5a
}

/// The same in a buffer for letters: no letter.
fn letter_filler(i: usize) -> u8 {
    filler(i) as u8 | 0x80
}

/// The same in a buffer for a point, as bits: no half.
fn point_filler(i: usize) -> u32 {
    u32::from(filler(i)) << 8 | 0xff
}

impl Case {
    pub fn run(&self, engine: &dyn Engine) -> Outcome {
        let (edge_space, cell_space, letter_space) = match *self {
            Case::Test { space, .. } => (space, 0, 0),
            Case::Witness { space, .. } => (0, space, 0),
            Case::Border { space, .. } | Case::Complete { space, .. } => (0, 0, space),
            _ => (0, 0, 0),
        };
        let mut edges: Vec<i16> = (0..edge_space).map(|i| filler(i) as i16).collect();
        let mut cells: Vec<u16> = (0..cell_space).map(filler).collect();
        let mut letters: Vec<u8> = (0..letter_space).map(letter_filler).collect();
        let mut point: [f32; 2] = std::array::from_fn(|i| f32::from_bits(point_filler(i)));
        let mut reply: Reply = std::array::from_fn(filler);
        match self {
            Case::Test { outline, .. } => engine.test(outline.start, &outline.letters, &mut edges, &mut reply),
            Case::Loose { anchor, edges, cell } => engine.loose_query(*anchor, edges, *cell, &mut reply),
            Case::Border { anchor, edges, .. } => engine.border(*anchor, edges, &mut letters, &mut reply),
            Case::Compare { first, second } => engine.compare(first, second, &mut reply),
            Case::Witness { outline, .. } => engine.witness(outline.start, &outline.letters, &mut cells, &mut reply),
            Case::Complete { outline, .. } => engine.complete(outline.start, &outline.letters, &mut letters, &mut reply),
            Case::Piece { script, asked } => engine.piece(script, *asked, &mut point, &mut reply),
            Case::Script { bytes, space } => {
                let mut replies: Vec<u16> = (0..*space).map(filler).collect();
                let written = engine.replay(bytes, &mut replies);
                return Outcome { written, edges, cells, letters, point: Vec::new(), replies };
            }
        }
        let point = point.map(f32::to_bits).to_vec();
        Outcome { written: 1, edges, cells, letters, point, replies: reply.to_vec() }
    }

    /// Whether an engine did what the reference does. The three cells of a witness may be others, if they show the missing cell.
    pub fn agrees(&self, expected: &Outcome, outcome: &Outcome) -> bool {
        match self {
            Case::Witness { outline, .. } if expected.names_a_cell() => {
                let Fields { col, row, .. } = expected.reply();
                let shown = outcome.cells.get(..WITNESS_NUMBERS);
                shown.is_some_and(|cells| shows(outline.start, &outline.letters, Point::new(col, row), cells))
                    && outcome.cells[WITNESS_NUMBERS..] == expected.cells[WITNESS_NUMBERS..]
                    && Outcome { cells: expected.cells.clone(), ..outcome.clone() } == *expected
            }
            _ => outcome == expected,
        }
    }
}

impl Outcome {
    /// Of a witness: whether it names a missing cell.
    fn names_a_cell(&self) -> bool {
        (self.reply().number, self.reply().word) == (0, NO_WORD)
    }

    /// The replies that were written.
    pub fn fields(&self) -> impl Iterator<Item = Fields> + '_ {
        Fields::each(&self.replies).take(self.written)
    }

    /// The reply to a call that always has one.
    pub fn reply(&self) -> Fields {
        let mut fields = self.fields();
        fields.next().expect("every call but a replay writes a reply")
    }
}

/// In short: what was written, and what was altered after it.
impl fmt::Display for Outcome {
    fn fmt(&self, f: &mut fmt::Formatter<'_>) -> fmt::Result {
        let written = REPLY * self.written;
        let (replies, rest) = self.replies.split_at(written.min(self.replies.len()));
        write!(f, "{} replies", self.written)?;
        for reply in replies.chunks(REPLY) {
            write!(f, " {reply:?}")?;
        }
        let edges = self.edges.iter().enumerate().rposition(|(i, &edge)| edge != filler(i) as i16);
        write!(f, ", edges {:?}", &self.edges[..edges.map_or(0, |last| last + 1)])?;
        let cells = self.cells.iter().enumerate().rposition(|(i, &number)| number != filler(i));
        write!(f, ", cells {:?}", &self.cells[..cells.map_or(0, |last| last + 1)])?;
        let letters = self.letters.iter().enumerate().rposition(|(i, &letter)| letter != letter_filler(i));
        write!(f, ", letters {}", bytes_as_text(&self.letters[..letters.map_or(0, |last| last + 1)]))?;
        let point = self.point.iter().enumerate().rposition(|(i, &bits)| bits != point_filler(i));
        let point: Vec<f32> =
            self.point[..point.map_or(0, |last| last + 1)].iter().map(|&bits| f32::from_bits(bits)).collect();
        write!(f, ", point {point:?}")?;
        let altered = (written..).zip(rest).filter(|&(i, &number)| number != filler(i)).count();
        write!(f, ", {altered} numbers altered after the replies")
    }
}

/// Bytes as hexadecimal digits, or as one digit each if all are letters; `-` if there are none.
fn bytes_as_text(bytes: &[u8]) -> String {
    if bytes.is_empty() {
        return "-".to_string();
    }
    if bytes.iter().all(|&byte| byte <= LAST_LETTER) {
        return bytes.iter().map(|&byte| char::from(b'0' + byte)).collect();
    }
    let mut text = "x".to_string();
    for byte in bytes {
        let _ = write!(text, "{byte:02x}");
    }
    text
}

fn bytes_from_text(text: &str) -> Result<Vec<u8>, String> {
    if text == "-" {
        return Ok(Vec::new());
    }
    let Some(digits) = text.strip_prefix('x') else {
        return text.chars().map(|c| c.to_digit(4).map(|d| d as u8).ok_or(format!("no letter: {c}"))).collect();
    };
    let pairs = digits.as_bytes().chunks(2);
    pairs.map(|pair| u8::from_str_radix(&String::from_utf8_lossy(pair), 16).map_err(|e| e.to_string())).collect()
}

fn numbers_as_text(numbers: &[i16]) -> String {
    if numbers.is_empty() {
        return "-".to_string();
    }
    numbers.iter().map(i16::to_string).collect::<Vec<_>>().join(",")
}

fn numbers_from_text(text: &str) -> Result<Vec<i16>, String> {
    if text == "-" {
        return Ok(Vec::new());
    }
    text.split(',').map(number).collect()
}

fn number<T: FromStr>(text: &str) -> Result<T, String> {
    text.parse().map_err(|_| format!("no number here: {text}"))
}

impl fmt::Display for Case {
    fn fmt(&self, f: &mut fmt::Formatter<'_>) -> fmt::Result {
        match self {
            Case::Test { outline: Outline { start, letters }, space } => {
                write!(f, "test {} {} {} {space}", start.col, start.row, bytes_as_text(letters))
            }
            Case::Loose { anchor, edges, cell } => {
                let edges = numbers_as_text(edges);
                write!(f, "loose {} {} {edges} {} {}", anchor.col, anchor.row, cell.col, cell.row)
            }
            Case::Border { anchor, edges, space } => {
                write!(f, "border {} {} {} {space}", anchor.col, anchor.row, numbers_as_text(edges))
            }
            Case::Compare { first, second } => {
                let (one, other) = (numbers_as_text(&first.edges), numbers_as_text(&second.edges));
                let (a, b) = (first.anchor, second.anchor);
                write!(f, "compare {} {} {one} {} {} {other}", a.col, a.row, b.col, b.row)
            }
            Case::Witness { outline: Outline { start, letters }, space } => {
                write!(f, "witness {} {} {} {space}", start.col, start.row, bytes_as_text(letters))
            }
            Case::Complete { outline: Outline { start, letters }, space } => {
                write!(f, "complete {} {} {} {space}", start.col, start.row, bytes_as_text(letters))
            }
            Case::Script { bytes, space } => write!(f, "script {} {space}", bytes_as_text(bytes)),
            Case::Piece { script, asked: Asked { party, place, position } } => {
                write!(f, "piece {} {party} {place} {position}", bytes_as_text(script))
            }
        }
    }
}

impl FromStr for Case {
    type Err = String;

    fn from_str(line: &str) -> Result<Self, String> {
        let words: Vec<&str> = line.split_whitespace().collect();
        match words[..] {
            [call @ ("test" | "witness" | "complete"), col, row, letters, space] => {
                let start = Point::new(number(col)?, number(row)?);
                let outline = Outline { start, letters: bytes_from_text(letters)? };
                let space = number(space)?;
                Ok(match call {
                    "test" => Case::Test { outline, space },
                    "witness" => Case::Witness { outline, space },
                    _ => Case::Complete { outline, space },
                })
            }
            ["loose", anchor_col, anchor_row, edges, col, row] => Ok(Case::Loose {
                anchor: Point::new(number(anchor_col)?, number(anchor_row)?),
                edges: numbers_from_text(edges)?,
                cell: Point::new(number(col)?, number(row)?),
            }),
            ["border", anchor_col, anchor_row, edges, space] => Ok(Case::Border {
                anchor: Point::new(number(anchor_col)?, number(anchor_row)?),
                edges: numbers_from_text(edges)?,
                space: number(space)?,
            }),
            ["compare", col, row, edges, col2, row2, edges2] => Ok(Case::Compare {
                first: Polygon { anchor: Point::new(number(col)?, number(row)?), edges: numbers_from_text(edges)? },
                second: Polygon { anchor: Point::new(number(col2)?, number(row2)?), edges: numbers_from_text(edges2)? },
            }),
            ["script", bytes, space] => Ok(Case::Script { bytes: bytes_from_text(bytes)?, space: number(space)? }),
            ["piece", script, party, place, position] => Ok(Case::Piece {
                script: bytes_from_text(script)?,
                asked: Asked { party: number(party)?, place: number(place)?, position: number(position)? },
            }),
            _ => {
                let lines = [
                    "test COL ROW LETTERS SPACE",
                    "loose COL ROW EDGES COL ROW",
                    "border COL ROW EDGES SPACE",
                    "compare COL ROW EDGES COL ROW EDGES",
                    "witness COL ROW LETTERS SPACE",
                    "complete COL ROW LETTERS SPACE",
                    "piece BYTES PARTY PLACE POSITION",
                ];
                Err(format!("a line is `{}` or `script BYTES SPACE`", lines.join("`, `")))
            }
        }
    }
}

#[cfg(test)]
mod tests {
    use super::*;
    use crate::engine::Reference;

    #[test]
    fn a_line_gives_its_case_again() {
        let lines = [
            "test 0 1 1033 8",
            "test 256 0 x07070707 0",
            "test 0 0 - 2032",
            "loose 0 0 2,0,-2,0 254 0",
            "loose 3 4 - 3 4",
            "script x00000000000000000000000400 14",
            "border 0 1 1,1,1,-1,-1,-1,-1,1 612",
            "border 3 4 - 4",
            "compare 0 0 1,1,-1,-1 0 1 -",
            "witness 0 0 111033003222 6",
            "witness 0 256 x0105 0",
            "complete 0 0 111033003222 612",
            "script x0000000000040000000006 14",
            "script - 0",
            "piece x0400000000000000000000 1 3 65535",
            "piece - 0 0 0",
        ];
        for line in lines {
            assert_eq!(line.parse::<Case>().map(|case| case.to_string()), Ok(line.to_string()));
        }
        assert!("test 0 0 1032".parse::<Case>().is_err());
    }

    /// Other cells are accepted exactly if they show the missing one.
    #[test]
    fn a_witness_may_have_other_cells() {
        let case: Case = "witness 0 0 111033003222 8".parse().unwrap();
        let expected = case.run(&Reference);
        let with = |cells: [u16; 6]| {
            let mut outcome = expected.clone();
            outcome.cells[..6].copy_from_slice(&cells);
            outcome
        };
        let agrees = |outcome: Outcome| case.agrees(&expected, &outcome);
        assert!(agrees(expected.clone()) && agrees(with([2, 0, 0, 2, 0, 1])) && agrees(with([0, 2, 2, 0, 2, 0])));
        // One that is not enclosed, and a triangle beside the cell.
        assert!(!agrees(with([1, 1, 0, 2, 0, 1])) && !agrees(with([0, 0, 0, 2, 0, 1])));
        let mut more = expected.clone();
        more.cells[6] ^= 1;
        assert!(!agrees(more));
        let mut other = expected.clone();
        other.replies[5] += 1;
        assert!(!agrees(other));
    }
}
