//! What goes in and out of the library as plain numbers: replies, and the calls of a script. Nothing else in this crate or
//! in its checks reads or writes them as numbers.

use alloc::vec::Vec;

use crate::limits::{CALL, REPLY};
use crate::raw::Reply;
use crate::texts::WORDS;
use crate::{Cell, Corner, Reading};

/// A word of a reply (contract 4.3), with the name that C has for it.
///
/// Later versions may add words, so a match needs an arm for others.
///
/// ```
/// use robequarry::codec::Word;
///
/// assert_eq!(Word::read(7), Some(Word::Undecided));
/// assert_eq!((Word::Undecided.number(), Word::Undecided.name()), (7, "UNDECIDED"));
/// assert_eq!(Word::Undecided.sentence(), "The reading is too near an edge to tell.");
/// assert_eq!(Word::read(17), None);
/// ```
#[derive(Clone, Copy, Debug, PartialEq, Eq, Hash)]
#[non_exhaustive]
#[repr(u16)]
pub enum Word {
    /// The reply has none.
    NoWord = 0,
    /// The cell or the reading is inside.
    Inside = 1,
    /// It is outside.
    Outside = 2,
    /// The outline is taken.
    Taken = 3,
    /// It is taken, and has the cells that were at work before.
    Same = 4,
    /// There is none: no cell in the row, no further piece, or no missing cell.
    None = 5,
    /// The row has cells, from one column to another.
    Columns = 6,
    /// The reading is too near an edge to tell.
    Undecided = 7,
    /// Move to a point.
    Move = 8,
    /// A line to a point.
    Line = 9,
    /// A line back to the start.
    Close = 10,
    /// Both blocks have the same cells.
    Equal = 11,
    /// The first block lies within the second.
    FirstWithin = 12,
    /// The second lies within the first.
    SecondWithin = 13,
    /// They have no cell in common.
    NoCommon = 14,
    /// Each has cells that the other lacks, and some are in both.
    Crossing = 15,
    /// The check goes on.
    More = 16,
}

impl Word {
    /// Its number.
    pub const fn number(self) -> u16 {
        self as u16
    }

    /// The word of a number; none where there is no such word.
    #[inline]
    pub const fn read(number: u16) -> Option<Word> {
        Some(match number {
            0 => Word::NoWord,
            1 => Word::Inside,
            2 => Word::Outside,
            3 => Word::Taken,
            4 => Word::Same,
            5 => Word::None,
            6 => Word::Columns,
            7 => Word::Undecided,
            8 => Word::Move,
            9 => Word::Line,
            10 => Word::Close,
            11 => Word::Equal,
            12 => Word::FirstWithin,
            13 => Word::SecondWithin,
            14 => Word::NoCommon,
            15 => Word::Crossing,
            16 => Word::More,
            _ => return None,
        })
    }

    /// Its name in every language, as C writes it after `RQ_WORD_`; of no word, which C writes as `RQ_NO_WORD`, `NO_WORD`.
    pub fn name(self) -> &'static str {
        self.row().map_or("NO_WORD", |(_, name, _)| name)
    }

    /// What it means, as a sentence for a person.
    pub fn sentence(self) -> &'static str {
        self.row().map_or("The reply has no word.", |(_, _, sentence)| sentence)
    }

    fn row(self) -> Option<&'static (u16, &'static str, &'static str)> {
        WORDS.iter().find(|(number, ..)| *number == self.number())
    }

    /// The word of a reply. The library replies no other number.
    #[inline]
    pub(crate) fn of(reply: &Reply) -> Word {
        match Word::read(reply[1]) {
            Some(word) => word,
            None => unreachable!("the library replies no word {}", reply[1]),
        }
    }

    /// What is done with a word that this call never replies.
    #[cold]
    pub(crate) fn foreign(self, call: &str) -> ! {
        unreachable!("a {call} replies no word {}, {}", self.number(), self.name())
    }
}

/// The words as numbers.
pub const NO_WORD: u16 = Word::NoWord.number();
pub const INSIDE: u16 = Word::Inside.number();
pub const OUTSIDE: u16 = Word::Outside.number();
pub const TAKEN: u16 = Word::Taken.number();
pub const SAME: u16 = Word::Same.number();
pub const NONE: u16 = Word::None.number();
pub const COLUMNS: u16 = Word::Columns.number();
pub const UNDECIDED: u16 = Word::Undecided.number();
pub const MOVE: u16 = Word::Move.number();
pub const LINE: u16 = Word::Line.number();
pub const CLOSE: u16 = Word::Close.number();
pub const EQUAL: u16 = Word::Equal.number();
pub const FIRST_WITHIN: u16 = Word::FirstWithin.number();
pub const SECOND_WITHIN: u16 = Word::SecondWithin.number();
pub const NO_COMMON: u16 = Word::NoCommon.number();
pub const CROSSING: u16 = Word::Crossing.number();
pub const MORE: u16 = Word::More.number();

/// A reply, with a name for each of its numbers, in their order (contract 4.1). A field that the reply does not name is 0. In C it is
/// `rq_reply`.
#[derive(Clone, Copy, Debug, Default, PartialEq, Eq, Hash)]
#[repr(C)]
pub struct Fields {
    /// 0, or the refusal's number.
    pub number: u16,
    /// [`NO_WORD`] to [`CLOSE`]; of a comparison, [`EQUAL`] to [`CROSSING`]; of a pile's check in steps, [`MORE`].
    pub word: u16,
    pub place: u16,
    pub piece: u16,
    pub length: u16,
    pub col: u16,
    pub row: u16,
}

impl From<Reply> for Fields {
    #[inline]
    fn from([number, word, place, piece, length, col, row]: Reply) -> Self {
        Fields { number, word, place, piece, length, col, row }
    }
}

impl From<Fields> for Reply {
    #[inline]
    fn from(Fields { number, word, place, piece, length, col, row }: Fields) -> Self {
        [number, word, place, piece, length, col, row]
    }
}

impl Fields {
    /// The replies that stand one after the other in a list. Numbers too few for one more are left out.
    pub fn each(list: &[u16]) -> impl Iterator<Item = Fields> + '_ {
        list.chunks_exact(REPLY).map(|reply| Fields::from(Reply::try_from(reply).expect("a chunk is as long")))
    }
}

/// A call on a holder: whose it is, and what is to be done (contract 7).
#[derive(Clone, Copy, Debug, PartialEq, Eq, Hash)]
pub struct Call {
    /// 0 knee, 1 ankle; a greater one is refused.
    pub party: u8,
    pub action: Action,
}

/// What a call does for its party (contract 7.3 to 7.11). A place above 3 is refused.
#[derive(Clone, Copy, Debug, PartialEq, Eq, Hash)]
pub enum Action {
    /// Opens a draft without letters.
    Begin(Corner),
    /// Puts a letter at the draft's end.
    Add(u8),
    /// Discards the draft.
    Drop,
    /// Removes what is at work at a place.
    Clear { place: u8 },
    /// Tests the draft and ends it. If it is taken, it replaces what is at work at the place.
    Close { place: u8 },
    /// Asks whether what is at work at a place encloses a cell.
    Query { place: u8, cell: Cell },
    /// Asks which columns of a row what is at work at a place encloses.
    Row { place: u8, row: u16 },
    /// Asks where a reading lies to what is at work at a place.
    Reading { place: u8, reading: Reading },
    /// Asks for the piece at a position of the drawing of what is at work at a place.
    Piece { place: u8, position: u16 },
}

impl Action {
    /// The call of this party.
    #[inline]
    pub const fn by(self, party: u8) -> Call {
        Call { party, action: self }
    }
}

impl Call {
    /// The call as bytes (contract 10.3). Those that are ignored are 0.
    #[inline]
    pub fn bytes(self) -> [u8; CALL] {
        self.bytes_over([0; CALL])
    }

    /// The call as bytes, written over these. Those that are ignored stay.
    #[inline]
    pub fn bytes_over(self, mut bytes: [u8; CALL]) -> [u8; CALL] {
        bytes[1] = self.party;
        let mut put = |number: u8, place: Option<u8>, x: &[u8], y: &[u8]| {
            bytes[0] = number;
            bytes[2] = place.unwrap_or(bytes[2]);
            bytes[X..X + x.len()].copy_from_slice(x);
            bytes[Y..Y + y.len()].copy_from_slice(y);
        };
        match self.action {
            Action::Begin(start) => put(0, None, &start.col.to_le_bytes(), &start.row.to_le_bytes()),
            Action::Add(letter) => put(1, None, &[letter], &[]),
            Action::Drop => put(2, None, &[], &[]),
            Action::Clear { place } => put(3, Some(place), &[], &[]),
            Action::Close { place } => put(4, Some(place), &[], &[]),
            Action::Query { place, cell } => put(5, Some(place), &cell.col.to_le_bytes(), &cell.row.to_le_bytes()),
            Action::Row { place, row } => put(6, Some(place), &row.to_le_bytes(), &[]),
            Action::Reading { place, reading } => {
                let (angle, load) = reading.bits();
                put(7, Some(place), &angle.to_le_bytes(), &load.to_le_bytes())
            }
            Action::Piece { place, position } => put(8, Some(place), &position.to_le_bytes(), &[]),
        }
        bytes
    }

    /// The call that stands in these bytes; none if there is no call of that number.
    #[inline]
    pub fn read(bytes: [u8; CALL]) -> Option<Call> {
        let [number, party, place, a, b, c, d, e, f, g, h] = bytes;
        let (x, y) = (u16::from_le_bytes([a, b]), u16::from_le_bytes([e, f]));
        let action = match number {
            0 => Action::Begin(Corner::new(x, y)),
            1 => Action::Add(a),
            2 => Action::Drop,
            3 => Action::Clear { place },
            4 => Action::Close { place },
            5 => Action::Query { place, cell: Cell::new(x, y) },
            6 => Action::Row { place, row: x },
            7 => {
                let (angle, load) = (u32::from_le_bytes([a, b, c, d]), u32::from_le_bytes([e, f, g, h]));
                Action::Reading { place, reading: Reading::from_bits(angle, load) }
            }
            8 => Action::Piece { place, position: x },
            _ => return None,
        };
        Some(action.by(party))
    }

    /// The calls of a script, up to one that is cut or that is none.
    #[inline]
    pub fn each(script: &[u8]) -> impl Iterator<Item = Call> + '_ {
        script.chunks_exact(CALL).map_while(|call| Call::read(call.try_into().expect("a chunk is as long")))
    }

    /// Calls as a script.
    pub fn script(calls: impl IntoIterator<Item = Call>) -> Vec<u8> {
        calls.into_iter().flat_map(Call::bytes).collect()
    }
}

/// Where the two numbers of 32 bits of a call begin.
const X: usize = 3;
const Y: usize = 7;

#[cfg(test)]
mod tests {
    use alloc::format;

    use super::*;

    fn calls() -> [(Call, [u8; CALL]); 9] {
        [
            (Action::Begin(Corner::new(0x0102, 0x0304)).by(0), [0, 0, 0, 2, 1, 0, 0, 4, 3, 0, 0]),
            (Action::Add(9).by(1), [1, 1, 0, 9, 0, 0, 0, 0, 0, 0, 0]),
            (Action::Drop.by(255), [2, 255, 0, 0, 0, 0, 0, 0, 0, 0, 0]),
            (Action::Clear { place: 3 }.by(1), [3, 1, 3, 0, 0, 0, 0, 0, 0, 0, 0]),
            (Action::Close { place: 4 }.by(0), [4, 0, 4, 0, 0, 0, 0, 0, 0, 0, 0]),
            (Action::Query { place: 2, cell: Cell::new(0xff, 0x100) }.by(1), [5, 1, 2, 0xff, 0, 0, 0, 0, 1, 0, 0]),
            (Action::Row { place: 1, row: 0x201 }.by(0), [6, 0, 1, 1, 2, 0, 0, 0, 0, 0, 0]),
            (
                Action::Reading { place: 3, reading: Reading::from_bits(0x4030_2010, 0xff80_0001) }.by(1),
                [7, 1, 3, 0x10, 0x20, 0x30, 0x40, 1, 0, 0x80, 0xff],
            ),
            (Action::Piece { place: 2, position: 0x8001 }.by(0), [8, 0, 2, 1, 0x80, 0, 0, 0, 0, 0, 0]),
        ]
    }

    #[test]
    fn calls_there_and_back() {
        for (call, bytes) in calls() {
            assert_eq!(call.bytes(), bytes);
            assert_eq!(Call::read(bytes), Some(call));
            assert_eq!(Call::read(call.bytes_over([77; CALL])), Some(call));
        }
        assert_eq!(Action::Add(9).by(1).bytes_over([77; CALL]), [1, 1, 77, 9, 77, 77, 77, 77, 77, 77, 77]);
        assert!((9..=u8::MAX).all(|call| Call::read([call, 0, 0, 0, 0, 0, 0, 0, 0, 0, 0]).is_none()));
    }

    #[test]
    fn a_script_ends_at_what_is_no_call() {
        let calls = calls().map(|(call, _)| call);
        let script = Call::script(calls);
        assert!(Call::each(&script).eq(calls));
        assert!(Call::each(&script[..script.len() - 1]).eq(calls[..8].iter().copied()));
        assert!(Call::each(&[&script[..2 * CALL], &[9; CALL], &script[..]].concat()).eq(calls[..2].iter().copied()));
    }

    /// Each number of the table has one word, which is named as C names the number.
    #[test]
    fn one_name_for_each_word() {
        assert_eq!(WORDS.len(), usize::from(Word::More.number()));
        for (number, name, sentence) in WORDS {
            let word = Word::read(number).unwrap();
            assert_eq!((word.number(), word.name(), word.sentence()), (number, name, sentence));
            let variant = format!("{word:?}").to_uppercase();
            assert_eq!(variant, name.replace('_', ""));
        }
        assert_eq!(Word::read(NO_WORD).map(Word::name), Some("NO_WORD"));
        assert!((17..=u16::MAX).all(|number| Word::read(number).is_none()));
    }

    #[test]
    #[should_panic(expected = "the library replies no word 17")]
    fn a_word_that_there_is_not() {
        Word::of(&[0, 17, 0, 0, 0, 0, 0]);
    }

    #[test]
    #[should_panic(expected = "a query replies no word 10, CLOSE")]
    fn a_word_of_another_call() {
        Word::Close.foreign("query");
    }

    #[test]
    fn replies_there_and_back() {
        let numbers = [9, 0, 4, 2, 6, 1, 3];
        let fields = Fields { number: 9, word: 0, place: 4, piece: 2, length: 6, col: 1, row: 3 };
        assert_eq!(Fields::from(numbers), fields);
        assert_eq!(Reply::from(fields), numbers);
        assert!(Fields::each(&[9, 0, 4, 2, 6, 1, 3, 5, 5]).eq([fields]));
        assert!(Fields::each(&numbers[..6]).eq([]));
    }
}
