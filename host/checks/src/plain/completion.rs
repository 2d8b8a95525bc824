//! The border of the hull of an outline past refusal 6: where each row of the hull begins and ends, and the letters round them.

use super::chart::survey;
use super::climb::{crossing, tangents, Columns};
use super::sides::{mirrored, spanning, Sides};
use crate::reply::{completed, numbered};
use crate::{Fields, Point};

pub fn complete(start: Point, letters: &[u8], buffer: &mut [u8]) -> Fields {
    let corners = match survey(start, letters) {
        Ok(corners) => corners,
        Err(refusal) => return refusal,
    };
    // A hull has the columns and rows of its cells, and W is theirs.
    let west = corners.corner;
    let count = 2 * usize::from(corners.top - corners.bottom) + 2 * usize::from(corners.right - west.col);
    if buffer.len() < count {
        return numbered(18);
    }
    let (bottom, top) = (usize::from(corners.bottom), usize::from(corners.top));
    let sides = Sides::new(start, letters);
    let first = left_ends(&sides.first, bottom, top);
    let last = mirrored(&left_ends(&sides.mirrored(), bottom, top));
    round(&first, &last, bottom, top, west.row.into(), &mut buffer[..count]);
    completed(count, west)
}

/// Of each row the first column that is not left of the hull.
fn left_ends(first: &Columns, bottom: usize, top: usize) -> Columns {
    let next = tangents(first, bottom, top);
    let mut ends = *first;
    let mut i = bottom;
    for (row, end) in ends.iter_mut().enumerate().take(top).skip(bottom + 1) {
        i = spanning(&next, i, row);
        let j = usize::from(next[i]);
        if row < j {
            *end = crossing(first, i, j, row);
        }
    }
    ends
}

/// Writes the letters round rows, clockwise from the left end of row `west`.
pub fn round(first: &Columns, last: &Columns, bottom: usize, top: usize, west: usize, buffer: &mut [u8]) {
    let mut pen = Pen { buffer, at: 0 };
    for row in west..top - 1 {
        pen.put(1);
        pen.across(first[row], first[row + 1]);
    }
    pen.put(1);
    pen.across(first[top - 1], last[top - 1]);
    for row in (bottom + 1..top).rev() {
        pen.put(3);
        pen.across(last[row], last[row - 1]);
    }
    pen.put(3);
    pen.across(last[bottom], first[bottom]);
    for row in bottom..west {
        pen.put(1);
        pen.across(first[row], first[row + 1]);
    }
}

/// A buffer, and where the next letter is written.
struct Pen<'a> {
    buffer: &'a mut [u8],
    at: usize,
}

impl Pen<'_> {
    #[inline]
    fn put(&mut self, letter: u8) {
        self.buffer[self.at] = letter;
        self.at += 1;
    }

    /// Rights or lefts from one column to another.
    #[inline]
    fn across(&mut self, from: i32, to: i32) {
        let letter = if from < to { 0 } else { 2 };
        for _ in 0..from.abs_diff(to) {
            self.put(letter);
        }
    }
}
