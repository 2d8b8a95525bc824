//! The loose query.

use robequarry::codec::{INSIDE, OUTSIDE};
use robequarry::limits::{LAST_CELL, LONGEST_LIST};

use crate::reply::{numbered, said};
use crate::{Fields, Point};

pub fn loose_query(anchor: Point, edges: &[i16], cell: Point) -> Fields {
    if edges.len() % 2 == 1 || edges.len() > LONGEST_LIST {
        return numbered(10);
    }
    if is_off_chart(anchor) || is_off_chart(cell) {
        return numbered(11);
    }
    if !leads_once_round(edges) {
        return numbered(16);
    }
    said(if is_inside(anchor, edges, cell) { INSIDE } else { OUTSIDE })
}

/// Whether a cell is none of the chart's.
pub fn is_off_chart(cell: Point) -> bool {
    cell.col > LAST_CELL || cell.row > LAST_CELL
}

/// No edge is zero, each direction comes sooner than the next, clockwise from up, and the edges sum to zero.
pub fn leads_once_round(edges: &[i16]) -> bool {
    let mut last = None;
    let (mut x, mut y) = (0, 0);
    for edge in edges.chunks_exact(2) {
        let (dx, dy) = (i64::from(edge[0]), i64::from(edge[1]));
        if (dx, dy) == (0, 0) || last.is_some_and(|last| !sooner(last, (dx, dy))) {
            return false;
        }
        last = Some((dx, dy));
        x += dx;
        y += dy;
    }
    (x, y) == (0, 0)
}

/// Of an earlier half round, or of the same half and the other clockwise of it.
fn sooner((dx, dy): (i64, i64), (ex, ey): (i64, i64)) -> bool {
    let (first, other) = (in_first_half(dx, dy), in_first_half(ex, ey));
    if first != other {
        return first;
    }
    dy * ex - dx * ey > 0
}

/// From up, included, to down, excluded.
fn in_first_half(dx: i64, dy: i64) -> bool {
    dx > 0 || (dx == 0 && dy > 0)
}

/// On the right of every edge, or on it, and within the extremes of the walk.
pub fn is_inside(anchor: Point, edges: &[i16], cell: Point) -> bool {
    let (c, r) = (i64::from(cell.col), i64::from(cell.row));
    let (mut x, mut y) = (i64::from(anchor.col), i64::from(anchor.row));
    let (mut left, mut right, mut bottom, mut top) = (x, x, y, y);
    for edge in edges.chunks_exact(2) {
        let (dx, dy) = (i64::from(edge[0]), i64::from(edge[1]));
        if dy * (c - x) - dx * (r - y) < 0 {
            return false;
        }
        x += dx;
        y += dy;
        left = left.min(x);
        right = right.max(x);
        bottom = bottom.min(y);
        top = top.max(y);
    }
    left <= c && c <= right && bottom <= r && r <= top
}
