//! The clockwise reading (contract 2.1 to 2.3), and from the border to the edges (contract 3.1 to 3.12).

use super::walk::{corners, step, Corner};
use super::words::{factors, is_christoffel};
use crate::Point;

/// The earlier and the later letter of each piece (contract 3.4).
const LETTERS: [[u8; 2]; 4] = [[0, 1], [3, 0], [2, 3], [1, 2]];

/// One of the four pieces: its two letters, and the letters of the list from one cut place on to the next.
pub struct Piece<'a> {
    /// 1 to 4.
    pub number: u16,
    earlier: u8,
    later: u8,
    letters: &'a [u8],
    from: usize,
    count: usize,
}

/// The places whose letters leave W, N, E and S (contract 3.1). The walk passes refusals 1 to 6.
fn cut_places(start: Point, letters: &[u8]) -> [usize; 4] {
    let mut met = corners(start, letters);
    met.pop();
    let place = |key: fn(&Corner) -> (i32, i32)| (0..met.len()).min_by_key(|&i| key(&met[i])).expect("a walk has a corner");
    [
        // W: least column, then least row.
        place(|&(col, row)| (col, row)),
        // N: greatest row, then least column.
        place(|&(col, row)| (-row, col)),
        // E: greatest column, then greatest row.
        place(|&(col, row)| (-col, -row)),
        // S: least row, then greatest column.
        place(|&(col, row)| (row, -col)),
    ]
}

/// Contract 2.2.
pub fn is_clockwise(start: Point, letters: &[u8]) -> bool {
    letters[cut_places(start, letters)[0]] == 1
}

/// The letters of the clockwise reading (contract 2.3), from the same start.
pub fn reading(start: Point, letters: &[u8]) -> Vec<u8> {
    if is_clockwise(start, letters) {
        return letters.to_vec();
    }
    let opposite = |letter: &u8| [2, 3, 0, 1][usize::from(*letter)];
    letters.iter().rev().map(opposite).collect()
}

/// The four pieces (contract 3.3). Each is read on past the list's end where the next corner stands before it.
pub fn pieces(start: Point, letters: &[u8]) -> [Piece<'_>; 4] {
    let cut = cut_places(start, letters);
    std::array::from_fn(|k| {
        let (from, to) = (cut[k], cut[(k + 1) % 4]);
        let count = if from <= to { to - from } else { to + letters.len() - from };
        let [earlier, later] = LETTERS[k];
        Piece { number: k as u16 + 1, earlier, later, letters, from, count }
    })
}

/// A factor that is no Christoffel word: the place and the length of its first copy.
pub struct Dent {
    pub place: usize,
    pub length: usize,
}

impl Piece<'_> {
    /// The place, in the reading, of the piece's letter i.
    fn place(&self, i: usize) -> usize {
        (self.from + i) % self.letters.len()
    }

    /// The place of the first back-step (contract 3.5).
    pub fn back_step(&self) -> Option<usize> {
        let strays = |place: &usize| ![self.earlier, self.later].contains(&self.letters[*place]);
        (0..self.count).map(|i| self.place(i)).find(strays)
    }

    /// Contract 3.6.
    fn word(&self) -> Vec<bool> {
        (1..self.count).map(|i| self.letters[self.place(i)] == self.later).collect()
    }

    /// The first dent (contract 3.11).
    pub fn dent(&self) -> Option<Dent> {
        let word = self.word();
        let dented = factors(&word).into_iter().find(|factor| !is_christoffel(factor.copy));
        dented.map(|factor| Dent { place: self.place(1 + factor.at), length: factor.copy.len() })
    }

    /// An edge for each factor (contract 3.12).
    pub fn edges(&self) -> Vec<(i32, i32)> {
        let (earlier, later) = (step(self.earlier), step(self.later));
        let word = self.word();
        let edge = |factor: super::words::Factor| {
            let laters = factor.copy.iter().filter(|&&later| later).count() * factor.times;
            let earliers = factor.copy.len() * factor.times - laters;
            let (e, l) = (earliers as i32, laters as i32);
            (e * earlier.0 + l * later.0, e * earlier.1 + l * later.1)
        };
        factors(&word).into_iter().map(edge).collect()
    }
}
