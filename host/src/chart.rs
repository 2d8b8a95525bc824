use core::fmt;
use core::hash::{Hash, Hasher};

/// A corner of the chart: column and row from 0 to [`LAST_CORNER`](crate::limits::LAST_CORNER).
///
/// Any two numbers make one; a test refuses a start that is off the chart.
#[derive(Clone, Copy, Debug, PartialEq, Eq, Hash)]
pub struct Corner {
    /// Counted from the left.
    pub col: u16,
    /// Counted from the bottom.
    pub row: u16,
}

/// A cell of the chart: column and row from 0 to [`LAST_CELL`](crate::limits::LAST_CELL). Its lower left corner has the same two
/// numbers.
///
/// Any two numbers make one; a query refuses a cell that is off the chart.
#[derive(Clone, Copy, Debug, PartialEq, Eq, Hash)]
pub struct Cell {
    /// Counted from the left.
    pub col: u16,
    /// Counted from the bottom.
    pub row: u16,
}

/// Angle and load as two sensors give them, in chart units: the centre of a cell is at its whole column and row. Two readings are equal
/// if they have the same bits: one that is not a number equals itself, and 0 is not −0.
///
/// Any floats make one; a number that is NaN, infinite, below 0 or above [`LAST_CELL`](crate::limits::LAST_CELL) is refused.
#[derive(Clone, Copy, Debug)]
pub struct Reading {
    /// The angle, in columns.
    pub angle: f32,
    /// The load, in rows.
    pub load: f32,
}

impl Corner {
    /// The corner in this column and row.
    pub const fn new(col: u16, row: u16) -> Self {
        Corner { col, row }
    }
}

impl Cell {
    /// The cell in this column and row.
    pub const fn new(col: u16, row: u16) -> Self {
        Cell { col, row }
    }
}

impl Reading {
    /// A reading of these two floats.
    pub const fn new(angle: f32, load: f32) -> Self {
        Reading { angle, load }
    }

    /// The reading whose floats have these bits.
    pub fn from_bits(angle: u32, load: u32) -> Self {
        Reading { angle: f32::from_bits(angle), load: f32::from_bits(load) }
    }

    /// The bits of both floats.
    pub fn bits(self) -> (u32, u32) {
        (self.angle.to_bits(), self.load.to_bits())
    }
}

impl PartialEq for Reading {
    fn eq(&self, other: &Self) -> bool {
        self.bits() == other.bits()
    }
}

impl Eq for Reading {}

impl Hash for Reading {
    fn hash<H: Hasher>(&self, state: &mut H) {
        self.bits().hash(state);
    }
}

impl fmt::Display for Corner {
    fn fmt(&self, f: &mut fmt::Formatter<'_>) -> fmt::Result {
        write!(f, "({}, {})", self.col, self.row)
    }
}

impl fmt::Display for Cell {
    fn fmt(&self, f: &mut fmt::Formatter<'_>) -> fmt::Result {
        write!(f, "({}, {})", self.col, self.row)
    }
}
