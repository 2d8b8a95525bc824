//! A corner or a cell where it does not matter which.

use robequarry::{Cell, Corner};

/// A corner or a cell, on the chart or off it.
#[derive(Clone, Copy, Debug, Default, PartialEq, Eq, Hash)]
pub struct Point {
    pub col: u16,
    pub row: u16,
}

impl Point {
    pub const fn new(col: u16, row: u16) -> Self {
        Point { col, row }
    }
}

impl From<Corner> for Point {
    #[inline]
    fn from(Corner { col, row }: Corner) -> Self {
        Point { col, row }
    }
}

impl From<Cell> for Point {
    #[inline]
    fn from(Cell { col, row }: Cell) -> Self {
        Point { col, row }
    }
}

impl From<Point> for Corner {
    #[inline]
    fn from(Point { col, row }: Point) -> Self {
        Corner { col, row }
    }
}

impl From<Point> for Cell {
    #[inline]
    fn from(Point { col, row }: Point) -> Self {
        Cell { col, row }
    }
}
