//! Lists of edges: the order of directions (contract 3.16), refusal 16 and the hull of the corner cells (contract 3.17).

use super::cells::{Cell, Hull};
use crate::Point;

/// The columns and rows of an edge.
pub type Step = (i32, i32);

/// A list as edges; an odd number at its end is none.
pub fn steps(edges: &[i16]) -> impl Iterator<Item = Step> + Clone + '_ {
    edges.chunks_exact(2).map(|edge| (i32::from(edge[0]), i32::from(edge[1])))
}

/// The cells that the edges meet from an anchor, which comes first.
pub fn corner_cells(anchor: Point, edges: &[i16]) -> Vec<Cell> {
    let mut at = (i32::from(anchor.col), i32::from(anchor.row));
    let mut cells = vec![at];
    for (cols, rows) in steps(edges) {
        at = (at.0 + cols, at.1 + rows);
        cells.push(at);
    }
    cells
}

/// The quarter of a direction, clockwise from up, and the tangent of its angle there, from 0: the first direction of a quarter is
/// in it, the last is not.
fn bearing((cols, rows): Step) -> (u8, i32, i32) {
    match (cols, rows) {
        (0.., 1..) => (0, cols, rows),
        (1.., ..=0) => (1, -rows, cols),
        (..=0, ..=-1) => (2, -cols, -rows),
        _ => (3, rows, -cols),
    }
}

/// Whether the round from up meets one direction sooner than another (contract 3.16).
pub fn sooner(one: Step, other: Step) -> bool {
    let ((quarter, across, along), (quarter2, across2, along2)) = (bearing(one), bearing(other));
    let turned = i64::from(across) * i64::from(along2);
    quarter < quarter2 || quarter == quarter2 && turned < i64::from(across2) * i64::from(along)
}

/// Refusal 16.
pub fn bad_turning(edges: &[i16]) -> bool {
    let some_nil = steps(edges).any(|step| step == (0, 0));
    let sum = steps(edges).fold((0, 0), |sum, step| (sum.0 + step.0, sum.1 + step.1));
    let rises = steps(edges).zip(steps(edges).skip(1)).all(|(one, next)| sooner(one, next));
    some_nil || sum != (0, 0) || !rises
}

/// Whether the corner cells' hull holds a cell (contract 3.17).
pub fn in_hull(anchor: Point, edges: &[i16], cell: Point) -> bool {
    Hull::of(corner_cells(anchor, edges)).has((i32::from(cell.col), i32::from(cell.row)))
}
