//! Every closed simple walk in a small block of cells, with every start and in both directions.

use crate::{Outline, Point};

/// Every outline along the corners of a block of `size` by `size` cells whose lower left cell is `at`.
pub fn outlines(size: usize, at: Point) -> impl Iterator<Item = Outline> {
    cycles(size).into_iter().flat_map(move |cycle| {
        let back: Vec<usize> = cycle.iter().rev().copied().collect();
        every_start(size, at, cycle).chain(every_start(size, at, back))
    })
}

/// The cycle as an outline from each of its corners.
fn every_start(size: usize, at: Point, cycle: Vec<usize>) -> impl Iterator<Item = Outline> {
    let letters: Vec<u8> = (0..cycle.len()).map(|i| letter(size, cycle[i], cycle[(i + 1) % cycle.len()])).collect();
    (0..cycle.len()).map(move |i| {
        let (row, col) = (cycle[i] / (size + 1), cycle[i] % (size + 1));
        let start = Point::new(at.col + col as u16, at.row + row as u16);
        Outline { start, letters: [&letters[i..], &letters[..i]].concat() }
    })
}

/// The letter that leads from a corner to its neighbour. Corners are numbered row by row from the bottom.
fn letter(size: usize, from: usize, to: usize) -> u8 {
    match (from < to, from.abs_diff(to) == size + 1) {
        (true, false) => 0,
        (true, true) => 1,
        (false, false) => 2,
        (false, true) => 3,
    }
}

/// Every cycle once, as the corners along it. It begins at its lowest number and first goes right, so one direction is left.
pub fn cycles(size: usize) -> Vec<Vec<usize>> {
    let mut found = Vec::new();
    for first in 0..(size + 1) * (size + 1) {
        if (first + 1) % (size + 1) != 0 {
            extend(size, &mut vec![first, first + 1], &mut found);
        }
    }
    found
}

/// Goes on from a path's last corner in every way that meets no corner twice and none below the first.
fn extend(size: usize, path: &mut Vec<usize>, found: &mut Vec<Vec<usize>>) {
    let (first, last) = (path[0], path[path.len() - 1]);
    for next in neighbours(size, last) {
        if next == first && path.len() > 2 {
            found.push(path.clone());
        } else if next > first && !path.contains(&next) {
            path.push(next);
            extend(size, path, found);
            path.pop();
        }
    }
}

fn neighbours(size: usize, corner: usize) -> impl Iterator<Item = usize> {
    let side = size + 1;
    let (row, col) = (corner / side, corner % side);
    let right = (col + 1 < side).then_some(corner + 1);
    let up = (row + 1 < side).then_some(corner + side);
    let left = (col > 0).then(|| corner - 1);
    let down = (row > 0).then(|| corner - side);
    [right, up, left, down].into_iter().flatten()
}

#[cfg(test)]
mod tests {
    use super::*;

    #[test]
    fn counts_of_cycles() {
        let counts = [1, 2, 3].map(|size| cycles(size).len());
        assert_eq!(counts, [1, 13, 213]);
    }
}
