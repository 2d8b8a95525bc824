//! The border read once round from W, and its four pieces.

use robequarry::limits::LONGEST;

use super::chart::Corners;
use crate::Point;

/// The two letters of a piece.
#[derive(Clone, Copy)]
pub struct Pair {
    pub earlier: u8,
    pub later: u8,
}

pub const PAIRS: [Pair; 4] = [
    Pair { earlier: 0, later: 1 },
    Pair { earlier: 3, later: 0 },
    Pair { earlier: 2, later: 3 },
    Pair { earlier: 1, later: 2 },
];

/// The columns and rows of a letter's step.
pub const COLS: [i16; 4] = [1, 0, -1, 0];
pub const ROWS: [i16; 4] = [0, 1, 0, -1];

/// The letters of an outline past refusal 6, read clockwise from W on.
pub struct Turn {
    letters: [u8; LONGEST],
    count: usize,
    /// The corner W, and the rows of S and N.
    pub west: Point,
    pub bottom: u16,
    pub top: u16,
    /// The place of the letter that leaves W, or, read backward, of the one that reaches it.
    west_place: usize,
    backward: bool,
    /// The five cut places, the last of which is W's again. The outline is clockwise, so they rise.
    pub cut_places: [usize; 5],
}

impl Turn {
    pub fn new(letters: &[u8], corners: Corners) -> Self {
        let (west, place) = (corners.corner, corners.west);
        let count = letters.len();
        let backward = letters[place] != 1;
        // As far ahead of W, or, read backward, as far behind it.
        let ahead = |from: usize, to: usize| if from <= to { to - from } else { to + count - from };
        let read = |to| if backward { ahead(to, place) } else { ahead(place, to) };
        let cut_places = [0, read(corners.north), read(corners.east), read(corners.south), count];
        let (bottom, top) = (corners.bottom, corners.top);
        let mut turn = Turn { letters: [0; LONGEST], count, west, bottom, top, west_place: place, backward, cut_places };
        let (before, after) = letters.split_at(place);
        if backward {
            copy_back(before, &mut turn.letters[..place]);
            copy_back(after, &mut turn.letters[place..count]);
            turn.west_place = if place == 0 { count - 1 } else { place - 1 };
        } else {
            turn.letters[..after.len()].copy_from_slice(after);
            turn.letters[after.len()..count].copy_from_slice(before);
        }
        turn
    }

    pub fn letters(&self) -> &[u8] {
        &self.letters[..self.count]
    }

    /// A place in the list as sent.
    pub fn sent(&self, place: usize) -> usize {
        let (west, count) = (self.west_place, self.count);
        match self.backward {
            false if west + place < count => west + place,
            false => west + place - count,
            true if place <= west => west - place,
            true => west + count - place,
        }
    }
}

/// Letters from the last to the first, each as the letter of the way back.
fn copy_back(letters: &[u8], turn: &mut [u8]) {
    for (to, letter) in turn.iter_mut().zip(letters.iter().rev()) {
        *to = letter ^ 2;
    }
}

/// The index of a piece's first letter that is none of its two.
pub fn first_stray(piece: &[u8], pair: Pair) -> Option<usize> {
    // All letters at once; the place is looked for only where there is one.
    if !piece.iter().fold(false, |bent, &letter| bent | ((letter != pair.earlier) & (letter != pair.later))) {
        return None;
    }
    piece.iter().position(|&letter| letter != pair.earlier && letter != pair.later)
}
