//! The rows of an outline, as a holder and a pile keep them.

use robequarry::limits::SIDE;

use super::chart::WIDTH;
use crate::Point;

pub const ROWS: usize = SIDE as usize;

/// Of each row the first enclosed column, and the one after the last; the same where no cell of the row is enclosed.
#[derive(Clone, PartialEq)]
pub struct Spans {
    pub first: [u8; ROWS],
    pub past: [u8; ROWS],
}

/// What a letter adds to the number of a corner, its row times the width and its column.
const STEPS: [u16; 4] = [1, WIDTH as u16, 1u16.wrapping_neg(), (WIDTH as u16).wrapping_neg()];

impl Spans {
    pub const NONE: Spans = Spans { first: [0; ROWS], past: [0; ROWS] };

    /// Writes the rows of an outline that is taken: each from one vertical side along it to the other.
    pub fn put(&mut self, start: Point, letters: &[u8]) {
        let (mut up, mut down) = ([0u8; WIDTH], [0u8; WIDTH]);
        let mut number = start.row * WIDTH as u16 + start.col;
        for &letter in letters {
            let next = number.wrapping_add(STEPS[usize::from(letter & 3)]);
            match letter {
                1 => up[usize::from(number) / WIDTH] = number as u8,
                3 => down[usize::from(next) / WIDTH] = number as u8,
                _ => {}
            }
            number = next;
        }
        for (row, (&one, &other)) in up.iter().zip(&down).take(ROWS).enumerate() {
            self.first[row] = one.min(other);
            self.past[row] = one.max(other);
        }
    }

    /// Whether a cell is among the columns of its row.
    #[inline]
    pub fn has(&self, cell: Point) -> bool {
        let row = usize::from(cell.row);
        u16::from(self.first[row]) <= cell.col && cell.col < u16::from(self.past[row])
    }
}
