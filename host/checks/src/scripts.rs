//! Random scripts of calls for the holder.

use robequarry::limits::{CALL, LONGEST, REPLY};
use robequarry::{Action, Call, Reading};

use crate::case::{Asked, Case};
use crate::draw::{reversed, rotated};
use crate::garbage::{any_outline, cell};
use crate::random::Random;
use crate::reference::readings::Polygon;
use crate::{sensors, Outline, Point};

/// The calls that draw an outline and close it at a place.
pub fn to_work(outline: &Outline, party: u8, place: u8) -> Vec<u8> {
    let adds = outline.letters.iter().map(|&letter| Action::Add(letter));
    let actions = std::iter::once(Action::Begin(outline.start.into())).chain(adds).chain([Action::Close { place }]);
    Call::script(actions.map(|action| action.by(party)))
}

/// A position in the drawing of so many edges, or past it.
pub fn position(random: &mut Random, edges: usize) -> u16 {
    match random.below(4) {
        0 => random.from_to(0, edges + 2) as u16,
        1 => (edges + random.below(4)).saturating_sub(2) as u16,
        2 => [0, 1, 255, 256, 32_768, u16::MAX][random.below(6)],
        _ => random.from_to(0, edges) as u16,
    }
}

/// An outline drawn and closed, and then a piece of it asked for; now and then of another party or place.
pub fn piece(random: &mut Random, outline: &Outline, edges: usize) -> Case {
    let (party, place) = (random.below(2) as u8, random.below(4) as u8);
    let mut other = |of: u8| if random.once_in(8) { [0, 1, 2, 3, 4, u8::MAX][random.below(6)] } else { of };
    let (asked_party, asked_place) = (other(party), other(place));
    let asked = Asked { party: asked_party, place: asked_place, position: position(random, edges) };
    Case::Piece { script: to_work(outline, party, place), asked }
}

/// An outline drawn and closed, and then asked about.
pub fn asking(outline: &Outline, party: u8, place: u8, asked: impl IntoIterator<Item = Action>) -> Case {
    let asked = Call::script(asked.into_iter().map(|action| action.by(party)));
    let bytes = [to_work(outline, party, place), asked].concat();
    let space = bytes.len() / CALL * REPLY;
    Case::Script { bytes, space }
}

/// A script that is being written.
struct Script<'a> {
    random: &'a mut Random,
    bytes: Vec<u8>,
    /// The outlines that this script draws, so that some come again.
    drawn: Vec<Outline>,
    /// The party and the place of the phrase.
    party: u8,
    place: u8,
}

/// A script of some phrases; its end may be cut, and the space for its replies may be short.
pub fn script(random: &mut Random) -> Case {
    let mut script = Script { random, bytes: Vec::new(), drawn: Vec::new(), party: 0, place: 0 };
    for _ in 0..script.random.below(14) {
        script.turn();
        script.phrase();
    }
    let Script { mut bytes, random, .. } = script;
    if random.once_in(4) {
        bytes.truncate(random.from_to(bytes.len() - bytes.len().min(2 * CALL), bytes.len()));
    }
    let calls = bytes.len() / CALL;
    let space = match random.below(5) {
        0 => random.below(REPLY * calls + REPLY + 1),
        1 => REPLY * calls,
        _ => REPLY * calls + random.below(30),
    };
    Case::Script { bytes, space }
}

impl Script<'_> {
    fn phrase(&mut self) {
        match self.random.below(100) {
            0..=29 => self.draw_and_close(),
            30..=44 => self.queries(),
            45..=54 => self.draw_badly(),
            55..=62 => self.clear(),
            63..=70 => self.drop_draft(),
            71..=78 => self.close(),
            79..=84 => self.begin_anywhere(),
            85..=93 => self.adds(),
            94 => self.overfill(),
            95 => self.unknown(),
            _ => self.any_bytes(),
        }
    }

    /// Another party, another place: mostly those that there are, and few of the places, so that outlines meet there.
    fn turn(&mut self) {
        self.party = if self.random.once_in(30) { self.random.any() as u8 } else { self.random.below(2) as u8 };
        self.place = if self.random.once_in(30) { self.random.any() as u8 } else { [0, 0, 3, 1][self.random.below(4)] };
    }

    /// One call. Bytes that the call does not read are anything. Now and then the other party comes between.
    fn call(&mut self, action: Action) {
        let any = self.any_call();
        let party = if self.random.once_in(150) { self.party ^ 1 } else { self.party };
        self.bytes.extend(action.by(party).bytes_over(any));
    }

    /// As many bytes as a call has.
    fn any_call(&mut self) -> [u8; CALL] {
        std::array::from_fn(|_| self.random.any() as u8)
    }

    fn begin(&mut self, start: Point) {
        self.call(Action::Begin(start.into()));
    }

    fn add(&mut self, letter: u8) {
        self.call(Action::Add(letter));
    }

    fn drop_draft(&mut self) {
        self.call(Action::Drop);
    }

    fn clear(&mut self) {
        self.call(Action::Clear { place: self.place });
    }

    fn close(&mut self) {
        self.call(Action::Close { place: self.place });
    }

    fn row(&mut self, row: u16) {
        self.call(Action::Row { place: self.place, row });
    }

    fn reading(&mut self, reading: Reading) {
        self.call(Action::Reading { place: self.place, reading });
    }

    fn piece(&mut self, position: u16) {
        self.call(Action::Piece { place: self.place, position });
    }

    fn query(&mut self, cell: Point) {
        self.call(Action::Query { place: self.place, cell: cell.into() });
    }

    /// A new outline, one of those drawn before, or such a one from another corner, the other way round, or moved by a cell.
    fn outline(&mut self) -> Outline {
        if !self.drawn.is_empty() && self.random.once_in(2) {
            let again = self.drawn[self.random.below(self.drawn.len())].clone();
            return match self.random.below(8) {
                0 | 1 => rotated(&again, self.random.below(again.letters.len())),
                2 | 3 => reversed(&again),
                4 => Outline { start: Point::new(again.start.col, again.start.row ^ 1), ..again },
                _ => again,
            };
        }
        let outline = any_outline(self.random);
        self.drawn.push(outline.clone());
        outline
    }

    /// Begins a draft and adds its letters. A query or a clear may come between.
    fn draw(&mut self, outline: &Outline) {
        self.begin(outline.start);
        for &letter in &outline.letters {
            self.add(letter);
            if self.random.once_in(60) {
                self.queries();
            }
            if self.random.once_in(400) {
                self.clear();
            }
        }
    }

    fn draw_and_close(&mut self) {
        let outline = self.outline();
        self.draw(&outline);
        self.close();
        if self.random.once_in(2) {
            self.queries_near(&outline);
        }
    }

    /// A draft with a letter too many, too few or changed, closed or dropped.
    fn draw_badly(&mut self) {
        let mut outline = self.outline();
        let place = self.random.below(outline.letters.len());
        match self.random.below(4) {
            0 => outline.letters.truncate(place),
            1 => outline.letters[place] = self.random.below(6) as u8,
            2 => outline.letters.insert(place, self.random.below(5) as u8),
            _ => outline.letters.reverse(),
        }
        self.draw(&outline);
        if self.random.once_in(3) {
            self.drop_draft();
        } else {
            self.close();
        }
    }

    fn queries(&mut self) {
        for _ in 0..self.random.from_to(1, 4) {
            let cell = cell(self.random);
            match self.random.below(5) {
                0 => self.row(cell.row),
                1 => self.reading_near(&Polygon::new(cell, [])),
                2 => self.piece_near(0),
                _ => self.query(cell),
            }
        }
    }

    fn piece_near(&mut self, edges: usize) {
        let position = position(self.random, edges);
        self.piece(position);
    }

    fn reading_near(&mut self, polygon: &Polygon) {
        let reading = sensors::reading(self.random, polygon);
        self.reading(reading);
    }

    /// Cells at an outline's border, readings at its edges, where the answers differ, and pieces of its drawing.
    fn queries_near(&mut self, outline: &Outline) {
        let mut at = (i32::from(outline.start.col), i32::from(outline.start.row));
        for &letter in &outline.letters {
            let (cols, rows) = crate::reference::walk::step(letter);
            at = (at.0 + cols, at.1 + rows);
            if self.random.once_in(6) {
                let near = |x: i32, by: usize| (x - by as i32) as u16;
                let cell = Point::new(near(at.0, self.random.below(2)), near(at.1, self.random.below(2)));
                self.query(cell);
                if self.random.once_in(3) {
                    self.row(cell.row);
                }
            }
        }
        if let Some(polygon) = Polygon::of(outline) {
            for _ in 0..self.random.below(4) {
                self.reading_near(&polygon);
                self.piece_near(polygon.edges.len());
            }
        }
    }

    /// A start that may be off the chart, and a few letters.
    fn begin_anywhere(&mut self) {
        let start = self.random.odd_point();
        self.begin(start);
        self.adds();
    }

    fn adds(&mut self) {
        for _ in 0..self.random.below(6) {
            let letter = if self.random.once_in(8) { self.random.any() as u8 } else { self.random.letter() };
            self.add(letter);
        }
    }

    /// More letters than a draft holds.
    fn overfill(&mut self) {
        self.drop_draft();
        let start = self.random.corner();
        self.begin(start);
        let count = self.random.from_to(LONGEST - 8, LONGEST + 4);
        for i in 0..count {
            self.add([1, 0, 3, 2][i % 4]);
        }
        self.add(9);
        self.close();
    }

    fn unknown(&mut self) {
        let mut bytes = self.any_call();
        bytes[0] = [9, 10, 128, 255][self.random.below(4)];
        self.bytes.extend(bytes);
    }

    fn any_bytes(&mut self) {
        for _ in 0..self.random.below(50) {
            let byte = if self.random.once_in(3) { self.random.any() as u8 } else { self.random.below(9) as u8 };
            self.bytes.push(byte);
        }
    }
}
