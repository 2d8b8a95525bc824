//! Where the chart's columns and rows lie on the paper.

use robequarry::limits::SIDE;

use crate::walk::Point;

/// A window of the chart, in corner columns and rows, and its place on the paper in pixels.
pub struct Frame {
    pub left: f64,
    pub right: f64,
    pub bottom: f64,
    pub top: f64,
    pub scale: f64,
    /// The window's upper left corner on the paper.
    pub x: f64,
    pub y: f64,
    /// The columns of what is drawn on.
    columns: u16,
}

/// Pixels round what is drawn, for labels.
const MARGIN: f64 = 44.0;

impl Frame {
    /// A window round these corners: its sides at most so many pixels, a cell's side at most `cell`.
    pub fn round(corners: &[Point], columns: u16, most: f64, cell: f64) -> Self {
        let cols = corners.iter().map(|corner| f64::from(corner.0));
        let rows = corners.iter().map(|corner| f64::from(corner.1));
        let least = |numbers: &mut dyn Iterator<Item = f64>| numbers.fold(f64::INFINITY, f64::min);
        let greatest = |numbers: &mut dyn Iterator<Item = f64>| numbers.fold(f64::NEG_INFINITY, f64::max);
        let (left, right) = (least(&mut cols.clone()), greatest(&mut cols.clone()));
        let (bottom, top) = (least(&mut rows.clone()), greatest(&mut rows.clone()));
        let ((left, right), (bottom, top)) = (wide_enough(left, right), wide_enough(bottom, top));
        let wide = (right - left).max(top - bottom);
        let scale = ((most - 2.0 * MARGIN) / wide).min(cell);
        let margin = MARGIN / scale;
        Frame {
            left: left - margin,
            right: right + margin,
            bottom: bottom - margin,
            top: top + margin,
            scale,
            x: 0.0,
            y: 0.0,
            columns,
        }
    }

    /// Puts the window's upper left corner on the paper.
    pub fn put(&mut self, x: f64, y: f64) {
        (self.x, self.y) = (x, y);
    }

    pub fn width(&self) -> f64 {
        (self.right - self.left) * self.scale
    }

    pub fn height(&self) -> f64 {
        (self.top - self.bottom) * self.scale
    }

    /// A point of the chart on the paper.
    pub fn at(&self, (col, row): (f64, f64)) -> (f64, f64) {
        (self.x + (col - self.left) * self.scale, self.y + (self.top - row) * self.scale)
    }

    pub fn corner(&self, (col, row): Point) -> (f64, f64) {
        self.at((col.into(), row.into()))
    }

    pub fn centre(&self, (col, row): Point) -> (f64, f64) {
        self.at((f64::from(col) + 0.5, f64::from(row) + 0.5))
    }

    /// The part of the chart in the window: left, right, bottom, top.
    pub fn chart(&self) -> [f64; 4] {
        let (columns, rows) = (f64::from(self.columns), f64::from(SIDE));
        [self.left.max(0.0), self.right.min(columns), self.bottom.max(0.0), self.top.min(rows)]
    }

    /// The columns that get a number.
    pub fn column_ticks(&self, room: f64) -> Vec<i32> {
        self.ticks(self.columns, self.left, self.right, room)
    }

    /// The rows that get a number.
    pub fn row_ticks(&self, room: f64) -> Vec<i32> {
        self.ticks(SIDE, self.bottom, self.top, room)
    }

    /// Columns, or rows, between two ends that get a number: far enough apart for `room` pixels each.
    fn ticks(&self, count: u16, low: f64, high: f64, room: f64) -> Vec<i32> {
        let step = [1, 2, 5, 10, 20, 50].into_iter().find(|&step| f64::from(step) * self.scale >= room).unwrap_or(100);
        let wide = |n: &i32| f64::from(*n) + 0.5 >= low && f64::from(*n) + 0.5 <= high;
        (0..i32::from(count)).filter(|n| n % step == 0).filter(wide).collect()
    }
}

/// Two ends that are at least two columns or rows apart.
fn wide_enough(low: f64, high: f64) -> (f64, f64) {
    let more = (2.0 - (high - low)).max(0.0) / 2.0;
    (low - more, high + more)
}
