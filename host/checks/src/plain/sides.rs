//! The sides along each row of an outline past refusal 6, and the rows of its hull.

use robequarry::limits::LAST_CORNER;

use super::chart::WIDTH;
use super::climb::{Columns, STEPS};
use crate::Point;

/// Of each row the columns of its first, its second and its last side.
pub struct Sides {
    pub first: Columns,
    pub second: Columns,
    pub last: Columns,
}

impl Sides {
    pub fn new(start: Point, letters: &[u8]) -> Self {
        let right = i32::from(LAST_CORNER);
        let mut sides = Sides { first: [right; WIDTH], second: [right; WIDTH], last: [0; WIDTH] };
        let mut number = start.row * WIDTH as u16 + start.col;
        for &letter in letters {
            let next = number.wrapping_add(STEPS[usize::from(letter & 3)]);
            if letter % 2 == 1 {
                sides.put(usize::from(number.min(next)) / WIDTH, i32::from(number) % WIDTH as i32);
            }
            number = next;
        }
        sides
    }

    /// A side more along a row. No two of them have the same column.
    fn put(&mut self, row: usize, col: i32) {
        self.second[row] = self.second[row].min(self.first[row].max(col));
        self.first[row] = self.first[row].min(col);
        self.last[row] = self.last[row].max(col);
    }

    /// The last sides, seen from the right.
    pub fn mirrored(&self) -> Columns {
        mirrored(&self.last)
    }
}

pub fn mirrored(columns: &Columns) -> Columns {
    columns.map(|col| i32::from(LAST_CORNER) - col)
}

/// The row from which the edge of a hull leaves that spans a row, where the edge that spans the row below leaves row `i`.
#[inline]
pub fn spanning(next: &[u8; WIDTH], i: usize, row: usize) -> usize {
    let j = usize::from(next[i]);
    if row <= j {
        i
    } else {
        j
    }
}
