//! The lowest missing cell of an outline past refusal 8, from the ends of its rows.

use robequarry::limits::LAST_CORNER;

use super::border::Turn;
use super::chart::WIDTH;
use crate::Point;

/// What a letter adds to the number of a corner, its row times the width and its column.
pub const STEPS: [u16; 4] = [1, WIDTH as u16, 1u16.wrapping_neg(), (WIDTH as u16).wrapping_neg()];

/// A column for each row, the corners' last row included.
pub type Columns = [i32; WIDTH];

/// For each row the first column, and the column after the last.
struct Rows {
    first: Columns,
    past: Columns,
}

/// The lowest missing cell, leftmost in its row, of letters walked from W that have a dent.
pub fn missing_cell(turn: &Turn) -> Point {
    let rows = Rows::new(turn.west, turn.letters());
    let (bottom, top) = (usize::from(turn.bottom), usize::from(turn.top));
    let left = climb(&rows.first, bottom, top);
    let mirrored = rows.past.map(|col| i32::from(LAST_CORNER) - col);
    let right = climb(&mirrored, bottom, top);
    match (left, right) {
        (Some((col, row)), Some((_, other))) if row <= other => Point::new(col as u16, row as u16),
        (Some((col, row)), None) => Point::new(col as u16, row as u16),
        // Of a gap at the right side only the cell next to the row counts.
        (_, Some((_, row))) => Point::new(rows.past[row] as u16, row as u16),
        (None, None) => unreachable!("a dent leaves a missing cell"),
    }
}

impl Rows {
    fn new(west: Point, letters: &[u8]) -> Self {
        let mut rows = Rows { first: [0; WIDTH], past: [0; WIDTH] };
        let mut number = west.row * WIDTH as u16 + west.col;
        for &letter in letters {
            let next = number.wrapping_add(STEPS[usize::from(letter & 3)]);
            match letter {
                1 => rows.first[usize::from(number) / WIDTH] = i32::from(number) % WIDTH as i32,
                3 => rows.past[usize::from(next) / WIDTH] = i32::from(number) % WIDTH as i32,
                _ => {}
            }
            number = next;
        }
        rows
    }
}

/// Up the left side of the hull: the leftmost cell in the hull of the first row that begins right of it.
fn climb(first: &Columns, bottom: usize, top: usize) -> Option<(i32, usize)> {
    let next = tangents(first, bottom, top);
    let mut i = bottom;
    while i + 1 < top {
        let j = usize::from(next[i]);
        if let Some(row) = (i + 1..j).find(|&row| is_gap(first, i, j, row)) {
            return Some((crossing(first, i, j, row), row));
        }
        i = j;
    }
    None
}

/// For each row the row above it to which the line from it leans furthest left, the last among equals. It is met on the way up, from row to row so found, and a
/// row passed by is not looked at again. The next row of the way stays in hand, and how far left the line leans.
pub fn tangents(first: &Columns, bottom: usize, top: usize) -> [u8; WIDTH] {
    let mut next = [0; WIDTH];
    let last = top.saturating_sub(1);
    let mut above = last;
    for i in (bottom..last).rev() {
        let from = first[i];
        let mut j = i + 1;
        let (mut near, mut left) = (1, first[j] - from);
        while j < last {
            let (far, further) = (above as i32 - i as i32, first[above] - from);
            if left * far < further * near {
                break;
            }
            (j, near, left) = (above, far, further);
            above = usize::from(next[j]);
        }
        next[i] = j as u8;
        above = j;
    }
    next
}

/// Whether a row begins right of the first column that is not left of the line from row `i` to row `j`.
fn is_gap(first: &Columns, i: usize, j: usize, row: usize) -> bool {
    crosses_before(first, i, j, row, first[row])
}

/// Whether the first column of a row that is not left of that line is before another: with no division.
pub fn crosses_before(first: &Columns, i: usize, j: usize, row: usize, col: i32) -> bool {
    let (below, above, height) = ((row - i) as i32, (j - row) as i32, (j - i) as i32);
    above * first[i] + below * first[j] + height - 1 < col * height
}

/// The first column of a row that is not left of the line from row `i` to row `j`.
pub fn crossing(first: &Columns, i: usize, j: usize, row: usize) -> i32 {
    let (below, above, height) = ((row - i) as i32, (j - row) as i32, (j - i) as i32);
    (above * first[i] + below * first[j] + height - 1) / height
}
