//! The cells in edges, and those in which two sets differ.

use std::collections::BTreeSet;

use robequarry::limits::LAST_CELL;
use robequarry::{Cell, Edges, Refusal};

use crate::story::Rows;
use crate::walk::{corner_cells, Point};

/// Cells by row and then column, so that the lowest comes first.
pub type Cells = BTreeSet<(i32, i32)>;

/// The cells of the chart that a loose query calls inside, or why the list is refused.
pub fn inside(edges: &Edges) -> Result<Cells, Refusal> {
    // The library looks at the whole list before it looks at the cell.
    edges.contains(edges.anchor())?;
    let corners = corner_cells(edges);
    let range = |number: fn(&Point) -> i32| {
        let (low, high) = (corners.iter().map(number).min(), corners.iter().map(number).max());
        low.unwrap_or(0).max(0)..=high.unwrap_or(0).min(i32::from(LAST_CELL))
    };
    let (cols, rows) = (range(|corner| corner.0), range(|corner| corner.1));
    let mut cells = Cells::new();
    for row in rows {
        for col in cols.clone() {
            if edges.contains(Cell::new(col as u16, row as u16))? {
                cells.insert((row, col));
            }
        }
    }
    Ok(cells)
}

pub fn of_rows(rows: &Rows) -> Cells {
    let run = |row: i32, &(first, last): &(i32, i32)| (first..=last).map(move |col| (row, col));
    rows.iter().flat_map(|(&row, runs)| runs.iter().flat_map(move |ends| run(row, ends))).collect()
}

/// The cells of the first alone, and those of the second alone, as columns and rows.
pub fn apart(first: &Cells, second: &Cells) -> (Vec<Point>, Vec<Point>) {
    let turned = |(row, col): &(i32, i32)| (*col, *row);
    (first.difference(second).map(turned).collect(), second.difference(first).map(turned).collect())
}
