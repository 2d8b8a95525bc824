//! The walk (contract 1), and refusals 1 to 6 (contract 5.2).

use std::collections::HashSet;

use robequarry::limits::{LAST_CORNER, LAST_LETTER, LONGEST, SHORTEST};

use crate::reply::{numbered, placed};
use crate::{Fields, Point};

/// A corner that a walk reaches, on the chart or off it.
pub type Corner = (i32, i32);

/// The columns and rows that a letter steps (contract 1.3).
pub fn step(letter: u8) -> (i32, i32) {
    match letter {
        0 => (1, 0),
        1 => (0, 1),
        2 => (-1, 0),
        3 => (0, -1),
        _ => unreachable!("refusal 3 comes before any walk"),
    }
}

/// The corners of a walk: the start, then the corner that each letter reaches.
pub fn corners(start: Point, letters: &[u8]) -> Vec<Corner> {
    let mut at = (i32::from(start.col), i32::from(start.row));
    let mut corners = vec![at];
    for &letter in letters {
        let (cols, rows) = step(letter);
        at = (at.0 + cols, at.1 + rows);
        corners.push(at);
    }
    corners
}

/// Contract 1.2.
fn on_chart((col, row): Corner) -> bool {
    let numbers = 0..=i32::from(LAST_CORNER);
    numbers.contains(&col) && numbers.contains(&row)
}

/// Refusal 2, of a start.
pub fn is_bad_start(start: Point) -> bool {
    start.col > LAST_CORNER || start.row > LAST_CORNER
}

/// Refusal 3, of one byte.
pub fn is_no_letter(byte: u8) -> bool {
    byte > LAST_LETTER
}

/// The first of refusals 1 to 6 that applies.
pub fn refusal(start: Point, letters: &[u8]) -> Option<Fields> {
    // 1: the count of letters.
    if letters.len() < SHORTEST || letters.len() > LONGEST {
        return Some(numbered(1));
    }
    // 2: the start.
    if is_bad_start(start) {
        return Some(numbered(2));
    }
    // 3: the first byte that is no letter.
    if let Some(place) = letters.iter().position(|&byte| is_no_letter(byte)) {
        return Some(placed(3, place));
    }
    let corners = corners(start, letters);
    // 4: the first letter that steps off the chart. The letter at a place reaches the corner after it.
    if let Some(place) = corners[1..].iter().position(|&corner| !on_chart(corner)) {
        return Some(placed(4, place));
    }
    // 5: whether the walk closes.
    if corners.last() != corners.first() {
        return Some(numbered(5));
    }
    // 6: the first letter, but for the last one, at whose corner the walk has been. It has been at its start.
    let mut met = HashSet::from([corners[0]]);
    let others = &corners[1..letters.len()];
    if let Some(place) = others.iter().position(|&corner| !met.insert(corner)) {
        return Some(placed(6, place));
    }
    None
}
