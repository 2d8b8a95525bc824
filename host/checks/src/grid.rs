//! A set of cells, and the border of its part.

use robequarry::limits::SIDE;

use crate::random::Random;

/// A set of cells within a frame of columns and rows from 0. Nothing outside of the frame is in the set.
#[derive(Clone)]
pub struct Grid {
    pub width: i32,
    pub height: i32,
    marks: Vec<bool>,
}

/// The eight neighbours of a cell, round it; those at even places share a side with it.
const RING: [(i32, i32); 8] = [(1, 0), (1, 1), (0, 1), (-1, 1), (-1, 0), (-1, -1), (0, -1), (1, -1)];

/// What a trace does where two cells of the set meet at a corner alone.
#[derive(Clone, Copy, PartialEq)]
pub enum Pinch {
    /// It stays with the cell that it follows.
    Part,
    /// It crosses over to the other one.
    Join,
}

impl Grid {
    pub fn new(width: i32, height: i32) -> Self {
        Grid { width, height, marks: vec![false; (width * height) as usize] }
    }

    /// The cells of a frame for which a rule holds.
    pub fn of(width: i32, height: i32, rule: impl Fn(i32, i32) -> bool) -> Self {
        let mut grid = Grid::new(width, height);
        for (col, row) in cells(width, height) {
            grid.put(col, row, rule(col, row));
        }
        grid
    }

    /// The cells of the chart for which a rule holds.
    pub fn of_chart(rule: impl Fn(i32, i32) -> bool) -> Self {
        Grid::of(i32::from(SIDE), i32::from(SIDE), rule)
    }

    fn within(&self, col: i32, row: i32) -> bool {
        (0..self.width).contains(&col) && (0..self.height).contains(&row)
    }

    pub fn has(&self, col: i32, row: i32) -> bool {
        self.within(col, row) && self.marks[(row * self.width + col) as usize]
    }

    /// Puts a cell of the frame into the set, or takes it out.
    pub fn put(&mut self, col: i32, row: i32, mark: bool) {
        self.marks[(row * self.width + col) as usize] = mark;
    }

    /// The cell of the set that is lowest in the leftmost column.
    fn first(&self) -> Option<(i32, i32)> {
        (0..self.width).flat_map(|col| (0..self.height).map(move |row| (col, row))).find(|&(col, row)| self.has(col, row))
    }

    /// Whether taking a cell out of the set, or putting it in, keeps set and rest each in one part, with a border that meets no
    /// corner twice: round the cell, its neighbours of either kind are one run, and each run has one that shares a side.
    pub fn is_simple(&self, col: i32, row: i32) -> bool {
        let ring = RING.map(|(c, r)| self.has(col + c, row + r));
        let changes = (0..8).filter(|&i| ring[i] != ring[(i + 1) % 8]).count();
        let by_side = [true, false].map(|kind| (0..8).step_by(2).any(|i| ring[i] == kind));
        changes == 2 && by_side == [true, true]
    }

    /// Cells of the frame on either side of the set's border.
    pub fn border(&self) -> Vec<(i32, i32)> {
        let sides = |(col, row): (i32, i32)| RING.iter().step_by(2).map(move |(c, r)| (col + c, row + r));
        cells(self.width, self.height)
            .filter(|&cell| sides(cell).any(|(c, r)| self.has(c, r) != self.has(cell.0, cell.1)))
            .collect()
    }

    /// Changes some cells at the border. If `simply`, only those that leave it a simple one.
    pub fn flip(&mut self, random: &mut Random, count: usize, simply: bool) {
        let border = self.border();
        if border.is_empty() {
            return;
        }
        for _ in 0..count {
            let (col, row) = border[random.below(border.len())];
            if !simply || self.is_simple(col, row) {
                self.put(col, row, !self.has(col, row));
            }
        }
    }

    /// The outer border of the part that has the lowest cell of the leftmost column: its start, in the frame's columns and rows,
    /// and letters, clockwise. None if the set is empty.
    pub fn trace(&self, pinch: Pinch) -> Option<((i32, i32), Vec<u8>)> {
        let start = self.first()?;
        let mut letters = vec![1];
        let (mut col, mut row) = (start.0, start.1 + 1);
        while (col, row) != start {
            let letter = self.turn(col, row, letters[letters.len() - 1], pinch);
            let (c, r) = RING[2 * usize::from(letter)];
            (col, row) = (col + c, row + r);
            letters.push(letter);
        }
        Some((start, letters))
    }

    /// The letter that leaves a corner, which was reached by a letter with the set on its right.
    fn turn(&self, col: i32, row: i32, letter: u8, pinch: Pinch) -> u8 {
        // The cells ahead, on the left and on the right.
        let [left, right] = match letter {
            0 => [(col, row), (col, row - 1)],
            1 => [(col - 1, row), (col, row)],
            2 => [(col - 1, row - 1), (col - 1, row)],
            _ => [(col, row - 1), (col - 1, row - 1)],
        };
        match (self.has(left.0, left.1), self.has(right.0, right.1)) {
            (true, true) => (letter + 1) % 4,
            (false, true) => letter,
            (false, false) => (letter + 3) % 4,
            (true, false) if pinch == Pinch::Join => (letter + 1) % 4,
            (true, false) => (letter + 3) % 4,
        }
    }
}

/// The cells of a frame: row by row from the bottom, each from the left.
fn cells(width: i32, height: i32) -> impl Iterator<Item = (i32, i32)> {
    (0..height).flat_map(move |row| (0..width).map(move |col| (col, row)))
}

#[cfg(test)]
mod tests {
    use super::*;
    use crate::reference::walk::refusal;
    use crate::Point;

    /// Cells that `is_simple` allows to change leave a border that meets no corner twice.
    #[test]
    fn simple_flips_keep_the_border_simple() {
        let mut random = Random::new(1);
        let mut grid = Grid::of(9, 9, |col, row| (3..6).contains(&col) && (3..6).contains(&row));
        for _ in 0..2000 {
            grid.flip(&mut random, 1, true);
            let ((col, row), letters) = grid.trace(Pinch::Part).expect("the set never gets empty");
            assert_eq!(refusal(Point::new(col as u16, row as u16), &letters), None);
        }
    }
}
