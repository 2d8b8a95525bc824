//! The test.

use robequarry::limits::MOST_NUMBERS;

use super::border::{first_stray, Pair, Turn, COLS, PAIRS, ROWS};
use super::chart;
use super::climb::missing_cell;
use super::words::{first_factor, is_christoffel};
use crate::reply::{placed, taken};
use crate::{Fields, Point};

/// Edges, two numbers each.
pub struct Edges {
    pub numbers: [i16; MOST_NUMBERS],
    pub count: usize,
}

/// A factor that is no Christoffel word: its place in its piece, and the length of one copy.
struct Dent {
    at: usize,
    length: usize,
}

/// The test with a buffer for edges.
#[inline]
pub fn test(start: Point, letters: &[u8], buffer: &mut [i16]) -> Fields {
    let mut edges = Edges { numbers: [0; MOST_NUMBERS], count: 0 };
    let anchor = match find_edges(start, letters, &mut edges) {
        Ok(anchor) => anchor,
        Err(refusal) => return refusal,
    };
    let numbers = &edges.numbers[..2 * edges.count];
    if buffer.len() < numbers.len() {
        return placed(10, edges.count);
    }
    buffer[..numbers.len()].copy_from_slice(numbers);
    taken(edges.count, anchor)
}

/// The edges of an outline, from the anchor that it gives, or the first of refusals 1 to 9.
pub fn find_edges(start: Point, letters: &[u8], edges: &mut Edges) -> Result<Point, Fields> {
    let corners = chart::survey(start, letters)?;
    let turn = Turn::new(letters, corners);
    let cut = turn.cut_places;
    for (k, &pair) in PAIRS.iter().enumerate() {
        if let Some(i) = first_stray(&turn.letters()[cut[k]..cut[k + 1]], pair) {
            return Err(Fields { piece: k as u16 + 1, ..placed(8, turn.sent(cut[k] + i)) });
        }
    }
    for (k, &pair) in PAIRS.iter().enumerate() {
        let word = cut[k] + 1;
        if let Err(dent) = factor(&turn.letters()[word..cut[k + 1]], pair, edges) {
            let missing = missing_cell(&turn);
            return Err(Fields {
                piece: k as u16 + 1,
                length: dent.length as u16,
                col: missing.col,
                row: missing.row,
                ..placed(9, turn.sent(word + dent.at))
            });
        }
    }
    Ok(turn.west)
}

/// Adds an edge for each factor of a piece, up to the first that is no Christoffel word.
fn factor(word: &[u8], pair: Pair, edges: &mut Edges) -> Result<(), Dent> {
    let mut at = 0;
    while at < word.len() {
        let found = first_factor(&word[at..], pair.later);
        let copy = &word[at..at + found.length];
        if !is_christoffel(copy, found.laters, pair.later) {
            return Err(Dent { at, length: found.length });
        }
        let l = (found.laters * found.times) as i16;
        let e = ((found.length - found.laters) * found.times) as i16;
        let (earlier, later) = (usize::from(pair.earlier), usize::from(pair.later));
        edges.push(e * COLS[earlier] + l * COLS[later], e * ROWS[earlier] + l * ROWS[later]);
        at += found.length * found.times;
    }
    Ok(())
}

impl Edges {
    /// The numbers of the edges.
    pub fn list(&self) -> &[i16] {
        &self.numbers[..2 * self.count]
    }

    fn push(&mut self, cols: i16, rows: i16) {
        self.numbers[2 * self.count] = cols;
        self.numbers[2 * self.count + 1] = rows;
        self.count += 1;
    }
}
