//! The witness (contract 6.5) and the completion (contract 6.6).
//!
//! The missing cell is searched for among all cells, and the three cells are corners of the hull: it is cut into triangles, and one of
//! them holds the cell. Any three cells that [`shows`] accepts are as good. The completion is the walk round the cells of the hull.

use robequarry::codec::NONE;
use robequarry::limits::WITNESS_NUMBERS;

use super::cells::{in_triangle, Cell, Enclosed, Hull};
use super::tracing::walk_round;
use super::walk;
use crate::reply::{completed, found, numbered, said};
use crate::{Fields, Point};

/// The witness, with a buffer for the numbers of its three cells.
pub fn witness(start: Point, letters: &[u8], buffer: &mut [u16]) -> Fields {
    // 1 to 6.
    if let Some(reply) = walk::refusal(start, letters) {
        return reply;
    }
    // 10: space for three cells.
    if buffer.len() < WITNESS_NUMBERS {
        return numbered(10);
    }
    let enclosed = Enclosed::of(start, letters);
    let Some(missing) = enclosed.missing() else {
        return said(NONE);
    };
    let cells = triangle(&Hull::of(enclosed.cells().collect()), missing);
    for (pair, (col, row)) in buffer.chunks_exact_mut(2).zip(cells) {
        pair[0] = col as u16;
        pair[1] = row as u16;
    }
    found(point(missing))
}

/// Three corners of a hull whose triangle holds a cell of the hull: the first with each side of the rest.
fn triangle(hull: &Hull, x: Cell) -> [Cell; 3] {
    let corners = hull.corners();
    let first = corners[0];
    let sides = corners.iter().zip(corners.iter().skip(1).chain([&first]));
    let mut triangles = sides.map(|(&p, &q)| [first, p, q]);
    triangles.find(|&[p, q, r]| in_triangle(p, q, r, x)).expect("the triangles are the hull")
}

/// Whether the numbers of three cells show that the cell is missing: the outline encloses the three, and their triangle holds the cell.
pub fn shows(start: Point, letters: &[u8], cell: Point, numbers: &[u16]) -> bool {
    let enclosed = Enclosed::of(start, letters);
    let of = |col: u16, row: u16| (i32::from(col), i32::from(row));
    let cells: Vec<Cell> = numbers.chunks_exact(2).map(|pair| of(pair[0], pair[1])).collect();
    let [p, q, r] = cells[..] else {
        return false;
    };
    cells.iter().all(|&cell| enclosed.has(cell)) && in_triangle(p, q, r, of(cell.col, cell.row))
}

/// The completion, with a buffer for its letters.
pub fn complete(start: Point, letters: &[u8], buffer: &mut [u8]) -> Fields {
    // 1 to 6.
    if let Some(reply) = walk::refusal(start, letters) {
        return reply;
    }
    let enclosed = Enclosed::of(start, letters);
    let hull = Hull::of(enclosed.cells().collect());
    // W of the hull's cells is that of the outline: the leftmost column has no cell of the hull below its lowest one.
    let west = enclosed.anchor();
    let round = walk_round(&hull, west).expect("no border is longer than the outline's");
    // 18: the buffer is too short.
    if buffer.len() < round.len() {
        return numbered(18);
    }
    buffer[..round.len()].copy_from_slice(&round);
    completed(round.len(), point(west))
}

fn point((col, row): Cell) -> Point {
    Point::new(col as u16, row as u16)
}

#[cfg(test)]
mod tests {
    use super::*;
    use crate::reference::calls::test;
    use crate::walks::outlines;
    use robequarry::limits::LONGEST;

    /// What contract 6.5 and 6.6 say of both, of every outline of a 3 by 3 block.
    #[test]
    fn what_the_contract_says_of_them() {
        for outline in outlines(3, Point::new(9, 2)) {
            let (start, letters) = (outline.start, &outline.letters[..]);
            let enclosed = Enclosed::of(start, letters);
            let mut cells = [0; WITNESS_NUMBERS];
            let reply = witness(start, letters, &mut cells);
            assert_eq!(reply.word == NONE, test(start, letters).reply.number == 0, "{outline:?}");
            assert!(reply.word == NONE || shows(start, letters, Point::new(reply.col, reply.row), &cells), "{outline:?}");

            let mut buffer = [0; LONGEST];
            let reply = complete(start, letters, &mut buffer);
            let (west, completed) = (Point::new(reply.col, reply.row), &buffer[..reply.place.into()]);
            assert_eq!((reply.number, test(west, completed).reply.number), (0, 0), "{outline:?}");
            let corners = walk::corners(start, letters);
            let extent = |number: fn(&walk::Corner) -> i32| {
                let numbers = || corners.iter().map(number);
                numbers().max().expect("a walk has a corner") - numbers().min().expect("a walk has a corner")
            };
            assert_eq!(completed.len() as i32, 2 * extent(|corner| corner.0) + 2 * extent(|corner| corner.1), "{outline:?}");
            assert!(completed.len() <= letters.len(), "{outline:?}");
            let hull = Hull::of(enclosed.cells().collect());
            let cells: Vec<Cell> = Enclosed::of(west, completed).cells().collect();
            let frame = (0..12).flat_map(|row| (0..20).map(move |col| (col, row)));
            assert!(frame.filter(|&cell| hull.has(cell)).eq(cells), "{outline:?}");
        }
    }
}
