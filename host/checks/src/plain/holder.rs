//! The holder: calls on it by their arguments and as bytes, images of it, and a script of calls. What it keeps is as large as the
//! library's, 10,416 bytes, with a spare slot for each party. The calls that are measured are no part of their caller, as the library's
//! are none.

use robequarry::codec::{COLUMNS, INSIDE, NONE, OUTSIDE, SAME, TAKEN};
use robequarry::limits::{CALL, IMAGE, LAST_LETTER, LONGEST, MOST_NUMBERS, PARTIES, PLACES, REPLY, SIDE};
use robequarry::raw::Reply;
use robequarry::{Action, Call, Reading};

use super::spans::Spans;
use super::test::{find_edges, Edges};
use super::{chart, images, loose, pieces, readings, tracing};
use crate::reply::{numbered, placed, said, taken};
use crate::{Fields, Point};

struct Draft {
    begun: bool,
    start: Point,
    count: u16,
    letters: [u8; LONGEST],
}

struct Work {
    anchor: Point,
    edges: u16,
    numbers: [i16; MOST_NUMBERS],
    spans: Spans,
}

struct Party {
    draft: Draft,
    works: Works,
}

/// A place names a slot by a code word; any other number names none.
struct Works {
    words: [u16; PLACES as usize],
    slots: [Work; SLOTS],
}

/// A party has one slot more than it has places.
const SLOTS: usize = PLACES as usize + 1;

const WORDS: [u16; SLOTS] = [0x5555, 0x3333, 0x6666, 0x0f0f, 0x5a5a];

/// A draft and four places for each party.
pub struct Holder {
    parties: [Party; PARTIES as usize],
}

impl Default for Holder {
    fn default() -> Self {
        Holder { parties: std::array::from_fn(|_| Party::new()) }
    }
}

impl Holder {
    #[inline(never)]
    pub fn begin(&mut self, party: u8, start: Point) -> Fields {
        self.act(party, |party| party.begin(start))
    }

    #[inline(never)]
    pub fn add(&mut self, party: u8, letter: u8) -> Fields {
        self.act(party, |party| party.add(letter))
    }

    #[inline(never)]
    pub fn drop_draft(&mut self, party: u8) -> Fields {
        self.act(party, Party::drop_draft)
    }

    #[inline(never)]
    pub fn clear(&mut self, party: u8, place: u8) -> Fields {
        self.act(party, |party| party.works.clear(place))
    }

    #[inline(never)]
    pub fn close(&mut self, party: u8, place: u8) -> Fields {
        self.act(party, |party| party.close(place))
    }

    #[inline(never)]
    pub fn query(&self, party: u8, place: u8, cell: Point) -> Fields {
        self.ask(party, place, |work| work.query(cell))
    }

    #[inline(never)]
    pub fn row(&self, party: u8, place: u8, row: u16) -> Fields {
        self.ask(party, place, |work| work.row(row))
    }

    #[inline(never)]
    pub fn reading(&self, party: u8, place: u8, reading: Reading) -> Fields {
        self.ask(party, place, |work| readings::located(work.anchor, work.list(), reading))
    }

    /// A piece. The point of a move or a line is written to `point`.
    #[inline(never)]
    pub fn piece(&self, party: u8, place: u8, position: u16, point: &mut [f32; 2]) -> Fields {
        let piece = self.ask(party, place, |work| pieces::piece(work.anchor, work.list(), position));
        pieces::write_point(piece, point);
        piece
    }

    #[inline(never)]
    pub fn check(&self, party: u8, place: u8) -> Fields {
        match self.held(party, place, &mut [0; LONGEST]) {
            Ok(_) => numbered(0),
            Err(refusal) => refusal,
        }
    }

    /// The image of what is at work is written to `buffer`.
    #[inline(never)]
    pub fn save(&self, party: u8, place: u8, buffer: &mut [u8]) -> Fields {
        let mut letters = [0; LONGEST];
        match self.held(party, place, &mut letters) {
            Err(refusal) => refusal,
            Ok(_) if buffer.len() < IMAGE => numbered(18),
            Ok((start, count)) => {
                images::write(start, &letters[..count], buffer);
                numbered(0)
            }
        }
    }

    #[inline(never)]
    pub fn restore(&mut self, party: u8, place: u8, bytes: &[u8]) -> Fields {
        let Some(Party { works, .. }) = self.parties.get_mut(usize::from(party)) else {
            return numbered(19);
        };
        if place >= PLACES {
            return numbered(20);
        }
        match images::read(bytes) {
            None => numbered(26),
            Some((_, [])) => works.clear(place),
            Some((start, letters)) => works.take(place, start, letters),
        }
    }

    /// 19, 20, 27, or the start and the count of the letters of what is at work, which are written; a count of 0 if nothing is.
    fn held(&self, party: u8, place: u8, letters: &mut [u8; LONGEST]) -> Result<(Point, usize), Fields> {
        let party = self.parties.get(usize::from(party)).ok_or(numbered(19))?;
        match *party.works.words.get(usize::from(place)).ok_or(numbered(20))? {
            0 => Ok((Point::new(0, 0), 0)),
            word => party.works.slot(word).and_then(|work| work.border(letters)).ok_or(numbered(27)),
        }
    }

    /// One call as bytes. False, with nothing altered, if it is none.
    #[inline(never)]
    pub fn call(&mut self, call: &[u8], reply: &mut Reply) -> bool {
        let Some(Call { party, action }) = call.try_into().ok().and_then(Call::read) else {
            return false;
        };
        let fields = match action {
            Action::Begin(start) => self.act(party, |party| party.begin(start.into())),
            Action::Add(letter) => self.act(party, |party| party.add(letter)),
            Action::Drop => self.act(party, Party::drop_draft),
            Action::Clear { place } => self.act(party, |party| party.works.clear(place)),
            Action::Close { place } => self.close(party, place),
            Action::Query { place, cell } => self.ask(party, place, |work| work.query(cell.into())),
            Action::Row { place, row } => self.ask(party, place, |work| work.row(row)),
            Action::Reading { place, reading } => {
                self.ask(party, place, |work| readings::located(work.anchor, work.list(), reading))
            }
            Action::Piece { place, position } => {
                self.ask(party, place, |work| pieces::piece(work.anchor, work.list(), position))
            }
        };
        *reply = fields.into();
        true
    }

    /// Makes it so that there is a draft, or none, as a benchmark of begins and drops needs it.
    #[inline]
    pub fn set_begun(&mut self, party: u8, begun: bool) {
        self.parties[usize::from(party)].draft.begun = begun;
    }

    /// 19, or what is done for the party.
    #[inline]
    fn act(&mut self, party: u8, action: impl FnOnce(&mut Party) -> Fields) -> Fields {
        match self.parties.get_mut(usize::from(party)) {
            None => numbered(19),
            Some(party) => action(party),
        }
    }

    /// 19, 20, 12, or what is said of the work.
    #[inline]
    fn ask(&self, party: u8, place: u8, answer: impl FnOnce(&Work) -> Fields) -> Fields {
        let Some(party) = self.parties.get(usize::from(party)) else {
            return numbered(19);
        };
        match party.works.words.get(usize::from(place)) {
            None => numbered(20),
            Some(&word) => party.works.slot(word).map_or(numbered(12), answer),
        }
    }
}

impl Party {
    fn new() -> Self {
        let nowhere = Point::new(0, 0);
        Party {
            draft: Draft { begun: false, start: nowhere, count: 0, letters: [0; LONGEST] },
            works: Works {
                words: [0; PLACES as usize],
                slots: std::array::from_fn(|_| Work {
                    anchor: nowhere,
                    edges: 0,
                    numbers: [0; MOST_NUMBERS],
                    spans: Spans::NONE,
                }),
            },
        }
    }

    #[inline]
    fn begin(&mut self, start: Point) -> Fields {
        if self.draft.begun {
            return numbered(14);
        }
        if chart::is_off_chart(start) {
            return numbered(2);
        }
        self.draft.begun = true;
        self.draft.start = start;
        self.draft.count = 0;
        numbered(0)
    }

    #[inline]
    fn add(&mut self, letter: u8) -> Fields {
        let draft = &mut self.draft;
        if !draft.begun {
            return numbered(13);
        }
        let Some(space) = draft.letters.get_mut(usize::from(draft.count)) else {
            return numbered(15);
        };
        if letter > LAST_LETTER {
            return placed(3, draft.count.into());
        }
        *space = letter;
        draft.count += 1;
        numbered(0)
    }

    #[inline]
    fn drop_draft(&mut self) -> Fields {
        if !self.draft.begun {
            return numbered(13);
        }
        self.draft.begun = false;
        numbered(0)
    }

    fn close(&mut self, place: u8) -> Fields {
        let begun = std::mem::replace(&mut self.draft.begun, false);
        if place >= PLACES {
            return numbered(20);
        }
        if !begun {
            return numbered(13);
        }
        let draft = &self.draft;
        self.works.take(place, draft.start, &draft.letters[..usize::from(draft.count)])
    }
}

impl Works {
    #[inline]
    fn slot(&self, word: u16) -> Option<&Work> {
        let tag = match word {
            0x5555 => 0,
            0x3333 => 1,
            0x6666 => 2,
            0x0f0f => 3,
            0x5a5a => 4,
            _ => return None,
        };
        Some(&self.slots[tag])
    }

    #[inline]
    fn clear(&mut self, place: u8) -> Fields {
        let Some(word) = self.words.get_mut(usize::from(place)) else {
            return numbered(20);
        };
        *word = 0;
        numbered(0)
    }

    /// Tests an outline. If it is taken, it fills the slot that no place names, and then the place names that.
    #[inline]
    fn take(&mut self, place: u8, start: Point, letters: &[u8]) -> Fields {
        let mut edges = Edges { numbers: [0; MOST_NUMBERS], count: 0 };
        let anchor = match find_edges(start, letters, &mut edges) {
            Ok(anchor) => anchor,
            Err(refusal) => return refusal,
        };
        let list = edges.list();
        let old = self.words[usize::from(place)];
        let same = self.slot(old).is_some_and(|work| anchor == work.anchor && list == work.list());
        let free = WORDS.iter().position(|word| !self.words.contains(word)).expect("there are more slots than places");
        let work = &mut self.slots[free];
        work.anchor = anchor;
        work.edges = edges.count as u16;
        work.numbers[..list.len()].copy_from_slice(list);
        work.spans.put(start, letters);
        self.words[usize::from(place)] = WORDS[free];
        Fields { word: if same { SAME } else { TAKEN }, ..taken(edges.count, anchor) }
    }
}

impl Work {
    /// The numbers of the edges.
    #[inline]
    fn list(&self) -> &[i16] {
        &self.numbers[..2 * usize::from(self.edges)]
    }

    /// Writes the border of the outline that has these edges: its start and the count of its letters. None if no outline has them, or other
    /// rows.
    fn border(&self, letters: &mut [u8; LONGEST]) -> Option<(Point, usize)> {
        let found = tracing::border(self.anchor, self.list(), letters);
        let count = usize::from(found.place);
        let mut spans = Spans::NONE;
        (found.number == 0).then(|| spans.put(self.anchor, &letters[..count]))?;
        (spans == self.spans).then_some((self.anchor, count))
    }

    #[inline]
    fn query(&self, cell: Point) -> Fields {
        if loose::is_off_chart(cell) {
            return numbered(11);
        }
        said(if self.spans.has(cell) { INSIDE } else { OUTSIDE })
    }

    #[inline]
    fn row(&self, row: u16) -> Fields {
        if row >= SIDE {
            return numbered(11);
        }
        let (first, past) = (self.spans.first[usize::from(row)], self.spans.past[usize::from(row)]);
        if first < past {
            Fields { col: first.into(), row: u16::from(past) - 1, ..said(COLUMNS) }
        } else {
            said(NONE)
        }
    }
}

/// Runs a script from a fresh holder and writes a reply for each call. Returns how many were written.
pub fn replay(script: &[u8], replies: &mut [u16]) -> usize {
    let mut holder = Holder::default();
    let mut written = 0;
    for (call, reply) in script.chunks_exact(CALL).zip(replies.chunks_exact_mut(REPLY)) {
        if !holder.call(call, reply.try_into().expect("a chunk is as long")) {
            break;
        }
        written += 1;
    }
    written
}
