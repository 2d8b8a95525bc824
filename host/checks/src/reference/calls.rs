//! The test and the loose query (contract 6).

use robequarry::codec::{INSIDE, OUTSIDE};
use robequarry::limits::{LAST_CELL, LONGEST_LIST};

use super::border::{is_clockwise, pieces, reading};
use super::cells::Enclosed;
use super::edges::{bad_turning, in_hull};
use super::walk;
use crate::reply::{numbered, placed, said, taken};
use crate::{Fields, Point};

/// What a test replies if the buffer is long enough, and the edges, which are none unless it is taken.
pub struct Tested {
    pub reply: Fields,
    pub edges: Vec<(i32, i32)>,
}

/// The test (contract 6.1), refusal 10 left out.
pub fn test(start: Point, letters: &[u8]) -> Tested {
    let refused = |reply| Tested { reply, edges: Vec::new() };
    // 1 to 6.
    if let Some(reply) = walk::refusal(start, letters) {
        return refused(reply);
    }
    // Everything else is about the clockwise reading; a place is that of the same letter in the list as sent.
    let reading = reading(start, letters);
    let sent = |place: usize| if is_clockwise(start, letters) { place } else { letters.len() - 1 - place };
    let pieces = pieces(start, &reading);
    // 8: the first back-step, piece after piece.
    for piece in &pieces {
        if let Some(place) = piece.back_step() {
            return refused(Fields { piece: piece.number, ..placed(8, sent(place)) });
        }
    }
    // 9: the first dent, piece after piece, and the lowest missing cell.
    let enclosed = Enclosed::of(start, letters);
    for piece in &pieces {
        if let Some(dent) = piece.dent() {
            let (col, row) = enclosed.missing().expect("a dented outline has a missing cell");
            return refused(Fields {
                piece: piece.number,
                length: dent.length as u16,
                col: col as u16,
                row: row as u16,
                ..placed(9, sent(dent.place))
            });
        }
    }
    let edges: Vec<(i32, i32)> = pieces.iter().flat_map(|piece| piece.edges()).collect();
    let (col, row) = enclosed.anchor();
    Tested { reply: taken(edges.len(), Point::new(col as u16, row as u16)), edges }
}

/// The test with a buffer for edges, two numbers an edge.
pub fn test_into(start: Point, letters: &[u8], buffer: &mut [i16]) -> Fields {
    let tested = test(start, letters);
    // 10: space for two numbers of each edge.
    if buffer.len() < 2 * tested.edges.len() {
        return placed(10, tested.edges.len());
    }
    for (pair, &(cols, rows)) in buffer.chunks_exact_mut(2).zip(&tested.edges) {
        pair[0] = i16::try_from(cols).expect("an edge fits the chart");
        pair[1] = i16::try_from(rows).expect("an edge fits the chart");
    }
    tested.reply
}

/// Refusal 11, of one cell.
pub fn off_chart(cell: Point) -> bool {
    cell.col > LAST_CELL || cell.row > LAST_CELL
}

/// The loose query (contract 6.2).
pub fn loose_query(anchor: Point, edges: &[i16], cell: Point) -> Fields {
    // 10: the count of numbers.
    if edges.len() % 2 == 1 || edges.len() > LONGEST_LIST {
        return numbered(10);
    }
    // 11: the anchor and the cell.
    if off_chart(anchor) || off_chart(cell) {
        return numbered(11);
    }
    // 16: the edges lead once round.
    if bad_turning(edges) {
        return numbered(16);
    }
    said(if in_hull(anchor, edges, cell) { INSIDE } else { OUTSIDE })
}
