//! The lowest missing cell of an outline past refusal 6, and three cells that show it: up the rows, with the edge of the hull that spans
//! the row on either side.

use robequarry::codec::NONE;
use robequarry::limits::{LAST_CORNER, WITNESS_NUMBERS};

use super::chart::survey;
use super::climb::{crosses_before, crossing, tangents};
use super::sides::{spanning, Sides};
use crate::reply::{found, numbered, said};
use crate::{Fields, Point};

/// A missing cell, and three cells whose triangle holds it.
struct Shown {
    missing: Point,
    cells: [Point; 3],
}

pub fn witness(start: Point, letters: &[u8], buffer: &mut [u16]) -> Fields {
    let corners = match survey(start, letters) {
        Ok(corners) => corners,
        Err(refusal) => return refusal,
    };
    if buffer.len() < WITNESS_NUMBERS {
        return numbered(10);
    }
    let sides = Sides::new(start, letters);
    match lowest(&sides, corners.bottom.into(), corners.top.into()) {
        None => said(NONE),
        Some(Shown { missing, cells }) => {
            for (pair, cell) in buffer.chunks_exact_mut(2).zip(cells) {
                pair.copy_from_slice(&[cell.col, cell.row]);
            }
            found(missing)
        }
    }
}

fn lowest(sides: &Sides, bottom: usize, top: usize) -> Option<Shown> {
    // One row alone is one run.
    if bottom + 1 == top {
        return None;
    }
    let mirror = sides.mirrored();
    let (left, right) = (tangents(&sides.first, bottom, top), tangents(&mirror, bottom, top));
    let first = |row: usize| cell(sides.first[row], row);
    let last = |row: usize| cell(sides.last[row] - 1, row);
    let (mut i, mut k) = (bottom, bottom);
    for row in bottom..top {
        (i, k) = (spanning(&left, i, row), spanning(&right, k, row));
        let (j, n) = (usize::from(left[i]), usize::from(right[k]));
        // Before the row's first cell, in its first gap, or after its last cell.
        if crosses_before(&sides.first, i, j, row, sides.first[row]) {
            let missing = cell(crossing(&sides.first, i, j, row), row);
            return Some(Shown { missing, cells: [first(i), first(j), first(row)] });
        }
        let col = sides.second[row];
        if col < sides.last[row] {
            return Some(Shown { missing: cell(col, row), cells: [first(row), last(row), last(row)] });
        }
        if crosses_before(&mirror, k, n, row, i32::from(LAST_CORNER) - col) {
            return Some(Shown { missing: cell(col, row), cells: [last(k), last(n), last(row)] });
        }
    }
    None
}

fn cell(col: i32, row: usize) -> Point {
    Point::new(col as u16, row as u16)
}
