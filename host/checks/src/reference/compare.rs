//! The comparison (contract 6.4), by the sets of cells in the two hulls.

use std::collections::BTreeSet;

use robequarry::codec::{CROSSING, EQUAL, FIRST_WITHIN, NO_COMMON, SECOND_WITHIN};
use robequarry::limits::{LAST_CELL, LONGEST_LIST};

use super::cells::{Cell, Hull};
use super::edges::{bad_turning, corner_cells};
use crate::case::Polygon;
use crate::reply::{compared, placed};
use crate::Fields;

/// The cells of the hull, each tested by itself: every one lies between the corner cells.
fn cells(polygon: &Polygon) -> BTreeSet<Cell> {
    let corners = corner_cells(polygon.anchor, &polygon.edges);
    let cols = corners.iter().map(|cell| cell.0);
    let rows = corners.iter().map(|cell| cell.1);
    let (left, right) = (cols.clone().min().expect("the anchor"), cols.max().expect("the anchor"));
    let (bottom, top) = (rows.clone().min().expect("the anchor"), rows.max().expect("the anchor"));
    let hull = Hull::of(corners);
    let all = (left..=right).flat_map(|col| (bottom..=top).map(move |row| (col, row)));
    all.filter(|&cell| hull.has(cell)).collect()
}

fn on_chart((col, row): Cell) -> bool {
    let last = i32::from(LAST_CELL);
    (0..=last).contains(&col) && (0..=last).contains(&row)
}

/// 10, 11 of the anchor, 16, then 11 of the walk.
pub fn refusal(Polygon { anchor, edges }: &Polygon) -> Option<u16> {
    let corners = corner_cells(*anchor, edges);
    if edges.len() % 2 == 1 || edges.len() > LONGEST_LIST {
        Some(10)
    } else if !on_chart(corners[0]) {
        Some(11)
    } else if bad_turning(edges) {
        Some(16)
    } else if !corners.into_iter().all(on_chart) {
        Some(11)
    } else {
        None
    }
}

pub fn compare(first: &Polygon, second: &Polygon) -> Fields {
    if let Some(number) = refusal(first) {
        return placed(number, 1);
    }
    if let Some(number) = refusal(second) {
        return placed(number, 2);
    }
    let (one, other) = (cells(first), cells(second));
    match (one.is_subset(&other), other.is_subset(&one), one.is_disjoint(&other)) {
        (true, true, _) => compared(EQUAL, 1),
        (true, false, _) => compared(FIRST_WITHIN, 1),
        (false, true, _) => compared(SECOND_WITHIN, 2),
        (false, false, true) => compared(NO_COMMON, 0),
        (false, false, false) => compared(CROSSING, 0),
    }
}
