//! Replies as one who answers makes them.

use crate::{Fields, Point};

/// A reply that has its number alone.
#[inline]
pub fn numbered(number: u16) -> Fields {
    Fields { number, ..Fields::default() }
}

/// A reply that has its number and a place.
#[inline]
pub fn placed(number: u16, place: usize) -> Fields {
    Fields { number, place: place as u16, ..Fields::default() }
}

/// A reply that has its word alone.
#[inline]
pub fn said(word: u16) -> Fields {
    Fields { word, ..Fields::default() }
}

/// What a comparison replies: its word, and whose list is the inner one's.
#[inline]
pub fn compared(word: u16, whose: u16) -> Fields {
    Fields { word, piece: whose, ..Fields::default() }
}

/// What a taken test replies (contract 6.1).
#[inline]
pub fn taken(edges: usize, anchor: Point) -> Fields {
    Fields { place: edges as u16, col: anchor.col, row: anchor.row, ..Fields::default() }
}

/// What a witness replies that names a missing cell (contract 6.5).
#[inline]
pub fn found(missing: Point) -> Fields {
    Fields { col: missing.col, row: missing.row, ..Fields::default() }
}

/// What a completion replies: the count of letters, and the corner at which they start (contract 6.6).
#[inline]
pub fn completed(letters: usize, start: Point) -> Fields {
    Fields { place: letters as u16, col: start.col, row: start.row, ..Fields::default() }
}
