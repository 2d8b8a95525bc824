//! The usual way to test convexity, the benchmark's second rival: the hull of the cells by a monotone chain, the lattice points
//! in it by Pick's theorem, and whether they are as many as the cells. Every cell lies in the hull, so they are more exactly if the
//! hull holds a cell that is not marked.
//!
//! It decides what the test decides, whether the outline is taken, and no more: it finds no place, no missing cell and no edges of
//! factors. The hull of all cells is the form in which the test is mostly written. The hull of the border cells alone is the
//! same hull from fewer cells; it needs their count from elsewhere, which is the area within the walk.

use crate::{plain, Point};

/// A cell as row and column: the enclosed cells then come in order, and sorting them costs little.
type Cell = (i32, i32);

/// Which cells the hull is taken of.
#[derive(Clone, Copy)]
pub enum Of {
    /// All enclosed cells.
    Enclosed,
    /// Those along the border, which have the same hull.
    Border,
}

/// Whether the outline is past refusals 1 to 6 and its hull holds no more cells than it encloses.
pub fn is_convex(start: Point, letters: &[u8], of: Of) -> bool {
    if plain::survey(start, letters).is_err() {
        return false;
    }
    // The area counts the enclosed cells, which are on the right hand of a clockwise walk and on the left hand of any other.
    let area = area(start, letters);
    let cells = match of {
        Of::Enclosed => enclosed_cells(start, letters),
        Of::Border => border_cells(start, letters, area < 0),
    };
    lattice_points(&hull(cells)) == area.abs()
}

/// The area within a closed walk, above 0 if it runs anticlockwise.
fn area(start: Point, letters: &[u8]) -> i64 {
    let mut row = i64::from(start.row);
    let mut sum = 0;
    for letter in letters {
        match letter {
            0 => sum -= row,
            1 => row += 1,
            2 => sum += row,
            _ => row -= 1,
        }
    }
    sum
}

/// The corner that each letter leaves, as row and column, with the letter.
fn steps(start: Point, letters: &[u8]) -> impl Iterator<Item = (i32, i32, u8)> + '_ {
    let (mut row, mut col) = (i32::from(start.row), i32::from(start.col));
    letters.iter().map(move |&letter| {
        let from = (row, col, letter);
        match letter {
            0 => col += 1,
            1 => row += 1,
            2 => col -= 1,
            _ => row -= 1,
        }
        from
    })
}

/// The enclosed cell beside each letter: to its right, or to its left.
fn border_cells(start: Point, letters: &[u8], clockwise: bool) -> Vec<Cell> {
    let right = |(row, col, letter)| match letter {
        0 => (row - 1, col),
        1 => (row, col),
        2 => (row, col - 1),
        _ => (row - 1, col - 1),
    };
    let left = |(row, col, letter)| match letter {
        0 => (row, col),
        1 => (row, col - 1),
        2 => (row - 1, col - 1),
        _ => (row - 1, col),
    };
    if clockwise {
        steps(start, letters).map(right).collect()
    } else {
        steps(start, letters).map(left).collect()
    }
}

/// All enclosed cells, row by row: between a side and the next.
fn enclosed_cells(start: Point, letters: &[u8]) -> Vec<Cell> {
    let mut ends: Vec<Cell> = Vec::with_capacity(letters.len());
    for (row, col, letter) in steps(start, letters) {
        match letter {
            1 => ends.push((row, col)),
            3 => ends.push((row - 1, col)),
            _ => {}
        }
    }
    ends.sort_unstable();
    let mut cells = Vec::new();
    for pair in ends.chunks_exact(2) {
        let row = pair[0].0;
        cells.extend((pair[0].1..pair[1].1).map(|col| (row, col)));
    }
    cells
}

/// Above 0 if the way from p by q to x turns left.
fn turn(p: Cell, q: Cell, x: Cell) -> i32 {
    (q.0 - p.0) * (x.1 - p.1) - (q.1 - p.1) * (x.0 - p.0)
}

/// The corners of the hull, round it, by a monotone chain.
fn hull(mut cells: Vec<Cell>) -> Vec<Cell> {
    cells.sort_unstable();
    cells.dedup();
    if cells.len() < 3 {
        return cells;
    }
    let mut corners: Vec<Cell> = Vec::with_capacity(64);
    let mut base = 0;
    for &x in cells.iter() {
        add_corner(&mut corners, base, x);
    }
    corners.pop();
    base = corners.len();
    for &x in cells.iter().rev() {
        add_corner(&mut corners, base, x);
    }
    corners.pop();
    corners
}

/// Adds a point to a half of the chain, which begins at `base`, without those that no longer turn left.
fn add_corner(corners: &mut Vec<Cell>, base: usize, x: Cell) {
    while corners.len() >= base + 2 && turn(corners[corners.len() - 2], corners[corners.len() - 1], x) <= 0 {
        corners.pop();
    }
    corners.push(x);
}

fn greatest_common_divisor(mut a: i32, mut b: i32) -> i32 {
    while b != 0 {
        (a, b) = (b, a % b);
    }
    a.abs()
}

/// The lattice points in a polygon or on its border, by Pick's theorem. It may be flat.
fn lattice_points(corners: &[Cell]) -> i64 {
    let mut twice_area = 0;
    let mut on_border = 0;
    for (i, p) in corners.iter().enumerate() {
        let q = corners[(i + 1) % corners.len()];
        twice_area += i64::from(p.0 * q.1 - q.0 * p.1);
        on_border += i64::from(greatest_common_divisor(q.0 - p.0, q.1 - p.1));
    }
    (twice_area + on_border) / 2 + 1
}

#[cfg(test)]
mod tests {
    use super::*;
    use crate::reference::calls;
    use crate::walks::outlines;

    /// Over every outline in a 3 by 3 block, both ways agree with the test.
    #[test]
    fn hull_and_count_is_the_test() {
        for outline in outlines(3, Point::new(4, 2)) {
            let taken = calls::test(outline.start, &outline.letters).reply.number == 0;
            for of in [Of::Enclosed, Of::Border] {
                assert_eq!(is_convex(outline.start, &outline.letters, of), taken, "{outline:?}");
            }
        }
    }
}
