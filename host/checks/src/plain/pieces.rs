//! A piece of the drawing of edges, by a walk along those before it.

use robequarry::codec::{CLOSE, LINE, MOVE, NONE};

use crate::reply::said;
use crate::{Fields, Point};

pub fn piece(anchor: Point, edges: &[i16], position: u16) -> Fields {
    let (position, close) = (usize::from(position), (edges.len() / 2).max(1));
    if position >= close {
        return said(if position == close { CLOSE } else { NONE });
    }
    let mut at = anchor;
    for edge in edges.chunks_exact(2).take(position) {
        at = Point::new(at.col.wrapping_add_signed(edge[0]), at.row.wrapping_add_signed(edge[1]));
    }
    Fields { col: at.col, row: at.row, ..said(if position == 0 { MOVE } else { LINE }) }
}

/// Writes the point of a move or a line.
#[inline]
pub fn write_point(piece: Fields, point: &mut [f32; 2]) {
    if let MOVE | LINE = piece.word {
        *point = [f32::from(piece.col) + 0.5, f32::from(piece.row) + 0.5];
    }
}
