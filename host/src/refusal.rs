use core::error::Error;
use core::fmt;

use crate::codec::Fields;
use crate::limits::LAST_REFUSAL;
use crate::raw::Reply;
use crate::texts::REFUSALS;
use crate::Cell;

/// Why a call was refused, in the order of the numbers. Each has the name that C has for its number. A place counts the letters before
/// it in the list as sent; pieces are numbered 1 to 4. There is no refusal 7, and 23 to 25 are the [faults](crate::fitting::Fault) of a
/// fitting file.
///
/// Where calls share a number, the call tells which is meant: [`Refusal::Cell`] of a reading is about its two numbers, and
/// [`Refusal::NothingAtWork`] of a pile is about its last check.
///
/// It is written as a clause, with what it names in parentheses:
///
/// ```
/// use robequarry::{Corner, Outline, Refusal};
///
/// let refusal = Outline::new(Corner::new(255, 0), [1, 0, 3, 2]).test().unwrap_err();
/// assert_eq!(refusal, Refusal::OffChart { place: 1 });
/// assert_eq!((refusal.number(), refusal.name()), (4, "OFF_CHART"));
/// assert_eq!(refusal.sentence(), "A letter steps off the chart.");
/// assert_eq!(refusal.to_string(), "a letter steps off the chart (place 1)");
/// ```
///
/// Later versions may add refusals, so a match needs an arm for others.
#[derive(Clone, Copy, Debug, PartialEq, Eq, Hash)]
#[non_exhaustive]
pub enum Refusal {
    /// 1: too few or too many letters.
    Length,
    /// 2: the start is off the chart.
    Start,
    /// 3: a byte that is no letter. In an add, the place is the count of letters in the draft.
    Letter { place: usize },
    /// 4: a letter steps off the chart.
    OffChart { place: usize },
    /// 5: the walk is not closed.
    NotClosed,
    /// 6: the walk meets a corner twice.
    Touches { place: usize },
    /// 8: a letter that is none of its piece's two.
    BackStep { piece: u16, place: usize },
    /// 9: a factor that is no Christoffel word: place and length of one copy, and the lowest missing cell.
    Dent { piece: u16, place: usize, length: usize, missing: Cell },
    /// 10: of a test, the buffer has no space for this many edges; of a loose query, a border or a comparison, which name no count, the
    /// list of edges is odd or too long.
    EdgeList { edges: Option<usize> },
    /// 11: a cell off the chart; of a reading, a number that is none or is off the chart.
    Cell,
    /// 12: nothing is at work at the place; of a pile, it has not passed a check since a layer was last set.
    NothingAtWork,
    /// 13: there is no draft.
    NoDraft,
    /// 14: a draft is open already.
    DraftOpen,
    /// 15: the draft is full.
    DraftFull,
    /// 16: the edges do not lead once round clockwise.
    Directions,
    /// 17: the test takes no outline with this anchor and these edges.
    NoOutline,
    /// 18: the buffer has no space for the letters, or for an image.
    LetterBuffer,
    /// 19: there is no such party.
    Party,
    /// 20: there is no such place.
    Place,
    /// 21: a section of a pile is dented. It is at this column or row.
    Section { kind: SectionKind, at: u16 },
    /// 22: there is no such layer.
    Layer,
    /// 26: the bytes are no image.
    Image,
    /// 27: what is at work, or in a layer, is what no taking leaves: memory is damaged.
    Damaged,
    /// 28: the bytes are no frame, or a body is too long for one.
    Frame,
}

/// Whether a section of a pile is at a column or at a row.
#[derive(Clone, Copy, Debug, PartialEq, Eq, Hash)]
pub enum SectionKind {
    Column,
    Row,
}

impl Refusal {
    /// The refusal's number (contract 5.2).
    pub const fn number(self) -> u16 {
        match self {
            Refusal::Length => 1,
            Refusal::Start => 2,
            Refusal::Letter { .. } => 3,
            Refusal::OffChart { .. } => 4,
            Refusal::NotClosed => 5,
            Refusal::Touches { .. } => 6,
            Refusal::BackStep { .. } => 8,
            Refusal::Dent { .. } => 9,
            Refusal::EdgeList { .. } => 10,
            Refusal::Cell => 11,
            Refusal::NothingAtWork => 12,
            Refusal::NoDraft => 13,
            Refusal::DraftOpen => 14,
            Refusal::DraftFull => 15,
            Refusal::Directions => 16,
            Refusal::NoOutline => 17,
            Refusal::LetterBuffer => 18,
            Refusal::Party => 19,
            Refusal::Place => 20,
            Refusal::Section { .. } => 21,
            Refusal::Layer => 22,
            Refusal::Image => 26,
            Refusal::Damaged => 27,
            Refusal::Frame => 28,
        }
    }

    /// The refusal's name in every language, as C writes it after `RQ_REFUSED_`.
    pub fn name(self) -> &'static str {
        named(self.number()).0
    }

    /// What it means, as a sentence for a person.
    pub fn sentence(self) -> &'static str {
        named(self.number()).1
    }

    /// The refusal in a reply, where it is one: 10 is about space for edges.
    #[inline]
    pub(crate) fn check(reply: &Reply) -> Result<(), Refusal> {
        match reply[0] {
            0 => Ok(()),
            _ => Err(Refusal::of(reply)),
        }
    }

    /// The same of a reply where 10 is about a list of edges.
    #[inline]
    pub(crate) fn check_list(reply: &Reply) -> Result<(), Refusal> {
        Refusal::check(reply).map_err(|refusal| match refusal {
            Refusal::EdgeList { .. } => Refusal::EdgeList { edges: None },
            other => other,
        })
    }

    #[cold]
    fn of(reply: &Reply) -> Refusal {
        let fields = Fields::from(*reply);
        let place = usize::from(fields.place);
        match fields.number {
            1 => Refusal::Length,
            2 => Refusal::Start,
            3 => Refusal::Letter { place },
            4 => Refusal::OffChart { place },
            5 => Refusal::NotClosed,
            6 => Refusal::Touches { place },
            8 => Refusal::BackStep { piece: fields.piece, place },
            9 => Refusal::Dent {
                piece: fields.piece,
                place,
                length: usize::from(fields.length),
                missing: Cell::new(fields.col, fields.row),
            },
            10 => Refusal::EdgeList { edges: Some(place) },
            11 => Refusal::Cell,
            12 => Refusal::NothingAtWork,
            13 => Refusal::NoDraft,
            14 => Refusal::DraftOpen,
            15 => Refusal::DraftFull,
            16 => Refusal::Directions,
            17 => Refusal::NoOutline,
            18 => Refusal::LetterBuffer,
            19 => Refusal::Party,
            20 => Refusal::Place,
            21 => {
                let kind = match fields.piece {
                    0 => SectionKind::Column,
                    1 => SectionKind::Row,
                    kind => unreachable!("a section is at a column, 0, or at a row, 1: {kind}"),
                };
                Refusal::Section { kind, at: fields.place }
            }
            22 => Refusal::Layer,
            26 => Refusal::Image,
            27 => Refusal::Damaged,
            28 => Refusal::Frame,
            other => unreachable!("the library's last refusal is {LAST_REFUSAL}, and there is no 7, 23, 24 or 25: {other}"),
        }
    }
}

/// The name and the sentence of a refusal, or of a fault of a fitting file, by its number.
pub(crate) fn named(number: u16) -> (&'static str, &'static str) {
    let (_, name, sentence) = REFUSALS.iter().find(|(other, ..)| *other == number).expect("the table has every number");
    (name, sentence)
}

/// A sentence as a clause, which stands within another: without its capital and its full stop.
pub(crate) struct Clause(pub &'static str);

impl fmt::Display for Clause {
    fn fmt(&self, f: &mut fmt::Formatter<'_>) -> fmt::Result {
        let mut rest = self.0.strip_suffix('.').unwrap_or(self.0).chars();
        match rest.next() {
            Some(first) => write!(f, "{}{}", first.to_lowercase(), rest.as_str()),
            None => Ok(()),
        }
    }
}

impl fmt::Display for Refusal {
    fn fmt(&self, f: &mut fmt::Formatter<'_>) -> fmt::Result {
        write!(f, "{}", Clause(self.sentence()))?;
        match self {
            Refusal::Letter { place } | Refusal::OffChart { place } | Refusal::Touches { place } => {
                write!(f, " (place {place})")
            }
            Refusal::BackStep { piece, place } => write!(f, " (piece {piece}, place {place})"),
            Refusal::Dent { piece, place, length, missing } => {
                write!(f, " (piece {piece}, place {place}, length {length}, missing cell {missing})")
            }
            Refusal::EdgeList { edges: Some(edges) } => write!(f, " (edges {edges})"),
            Refusal::Section { kind: SectionKind::Column, at } => write!(f, " (column {at})"),
            Refusal::Section { kind: SectionKind::Row, at } => write!(f, " (row {at})"),
            Refusal::Length
            | Refusal::Start
            | Refusal::NotClosed
            | Refusal::EdgeList { edges: None }
            | Refusal::Cell
            | Refusal::NothingAtWork
            | Refusal::NoDraft
            | Refusal::DraftOpen
            | Refusal::DraftFull
            | Refusal::Directions
            | Refusal::NoOutline
            | Refusal::LetterBuffer
            | Refusal::Party
            | Refusal::Place
            | Refusal::Layer
            | Refusal::Image
            | Refusal::Damaged
            | Refusal::Frame => Ok(()),
        }
    }
}

impl Error for Refusal {}

#[cfg(test)]
mod tests {
    use alloc::format;
    use alloc::string::{String, ToString};

    use super::*;
    use crate::fitting::Fault;

    /// A name in capitals as a variant has it.
    fn variant(name: &str) -> String {
        let word = |word: &str| word[..1].to_string() + &word[1..].to_lowercase();
        name.split('_').map(word).collect()
    }

    /// Each number of the table has one variant, which is named as C names the number.
    #[test]
    fn one_name_for_each() {
        let faults = [Fault::NoMark { record: 0, at: 0 }, Fault::CutShort { record: 0, at: 0 }, Fault::TooLarge];
        for (number, name, sentence) in REFUSALS.into_iter().filter(|(number, ..)| *number <= LAST_REFUSAL) {
            let (told, debug) = match faults.iter().find(|fault| fault.number() == number) {
                Some(fault) => ((fault.number(), fault.name(), fault.sentence()), format!("{fault:?}")),
                None => {
                    let refusal = Refusal::of(&[number, 0, 0, 0, 0, 0, 0]);
                    ((refusal.number(), refusal.name(), refusal.sentence()), format!("{refusal:?}"))
                }
            };
            assert_eq!(told, (number, name, sentence));
            assert_eq!(debug.split(' ').next(), Some(&variant(name)[..]));
        }
    }
}
