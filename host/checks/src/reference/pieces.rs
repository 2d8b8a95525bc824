//! The drawing of an outline's edges, piece by piece (contract 7.11). No float of the machine is used.

use robequarry::codec::{CLOSE, LINE, MOVE, NONE};

use super::readings::Polygon;
use crate::reply::said;
use crate::Fields;

/// What is said of each position: the drawing begins at the anchor, goes on along the edges, and its close stands for the last of them.
pub fn pieces(polygon: &Polygon) -> Vec<Fields> {
    let to = |word, cell: &(i64, i64)| Fields { col: cell.0 as u16, row: cell.1 as u16, ..said(word) };
    let (anchor, ends) = polygon.met.split_first().expect("the anchor is met");
    let mut pieces = vec![to(MOVE, anchor)];
    if let Some((_last, ends)) = ends.split_last() {
        pieces.extend(ends.iter().map(|end| to(LINE, end)));
    }
    pieces.push(said(CLOSE));
    pieces
}

/// What is said of a position, also past the last piece.
pub fn piece(polygon: &Polygon, position: u16) -> Fields {
    pieces(polygon).get(usize::from(position)).copied().unwrap_or(said(NONE))
}

/// The point of a move or a line, as the bits of two floats.
pub fn point(piece: Fields) -> Option<[u32; 2]> {
    [MOVE, LINE].contains(&piece.word).then(|| [piece.col, piece.row].map(raised))
}

/// The bits of the float that is a number raised by one half. Twice that is whole and has at most 17 binary digits, all of which a float keeps:
/// the first by its exponent, 127 for a digit that counts one, and the others as they are.
fn raised(number: u16) -> u32 {
    let twice = 2 * u32::from(number) + 1;
    let others = 31 - twice.leading_zeros();
    (126 + others) << 23 | (twice - (1 << others)) << (23 - others)
}

#[cfg(test)]
mod tests {
    use super::*;

    #[test]
    fn every_number_is_raised_by_one_half() {
        for number in 0..=u16::MAX {
            assert_eq!(f32::from_bits(raised(number)), f32::from(number) + 0.5);
        }
    }
}
