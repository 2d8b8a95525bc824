//! Letters walked from corner to corner, on the chart or off it.

use robequarry::limits::{LAST_CORNER, LAST_LETTER};
use robequarry::{Edges, Outline};

/// A corner, or a cell by its lower left corner, on the chart or off it: column, then row.
pub type Point = (i32, i32);

/// Where a letter steps to; one above 3 goes nowhere.
pub fn step((col, row): Point, letter: u8) -> Point {
    match letter {
        0 => (col + 1, row),
        1 => (col, row + 1),
        2 => (col - 1, row),
        3 => (col, row - 1),
        _ => (col, row),
    }
}

/// The letter's direction in a word.
pub fn direction(letter: u8) -> &'static str {
    match letter {
        0 => "right",
        1 => "up",
        2 => "left",
        3 => "down",
        _ => "no letter",
    }
}

pub fn start(outline: &Outline) -> Point {
    (outline.start.col.into(), outline.start.row.into())
}

/// The corners from a start on, one more than there are letters.
pub fn corners(from: Point, letters: &[u8]) -> Vec<Point> {
    let mut met = vec![from];
    for &letter in letters {
        met.push(step(met[met.len() - 1], letter));
    }
    met
}

/// Whether a closed walk is clockwise: up leaves W, the lowest corner of the leftmost column (contract 2.2).
pub fn clockwise(outline: &Outline) -> bool {
    let mut corner = start(outline);
    let (mut west, mut leaves) = (corner, 0);
    for &letter in &outline.letters {
        if corner <= west {
            (west, leaves) = (corner, letter);
        }
        corner = step(corner, letter);
    }
    leaves == 1
}

pub fn on_chart((col, row): Point) -> bool {
    let numbers = 0..=i32::from(LAST_CORNER);
    numbers.contains(&col) && numbers.contains(&row)
}

/// The corners of an outline up to the first that is off the chart, and up to the first byte that is no letter.
pub fn walkable(outline: &Outline) -> Vec<Point> {
    let letters = outline.letters.iter().take_while(|&&letter| letter <= LAST_LETTER).copied().collect::<Vec<u8>>();
    let mut met = corners(start(outline), &letters);
    if let Some(off) = met.iter().position(|&corner| !on_chart(corner)) {
        met.truncate(off + 1);
    }
    met
}

/// The cells at which edges meet, the anchor at both ends; the anchor alone where there is no edge.
pub fn corner_cells(edges: &Edges) -> Vec<Point> {
    let mut cell: Point = (edges.anchor().col.into(), edges.anchor().row.into());
    let mut cells = vec![cell];
    for (cols, rows) in edges.steps() {
        cell = (cell.0 + i32::from(cols), cell.1 + i32::from(rows));
        cells.push(cell);
    }
    cells
}
