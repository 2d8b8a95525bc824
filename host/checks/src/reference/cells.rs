//! Enclosed cells, their hull and the missing cell (contract 2.4 to 2.7), and the anchor (contract 3.13).

use super::border::reading;
use super::walk::corners;
use crate::Point;

/// A cell, or the point at its centre.
pub type Cell = (i32, i32);

/// Of the steps along the height of the cell's row, up to its column, how many more go up than down.
fn ups_minus_downs(start: Point, letters: &[u8], (col, row): Cell) -> i32 {
    let corners = corners(start, letters);
    let mut sum = 0;
    for (place, &letter) in letters.iter().enumerate() {
        let (from, to) = (corners[place], corners[place + 1]);
        let runs_along = from.1.min(to.1) == row && from.0 <= col;
        match letter {
            1 if runs_along => sum += 1,
            3 if runs_along => sum -= 1,
            _ => {}
        }
    }
    sum
}

/// Whether an outline past refusals 1 to 6 encloses a cell, by its clockwise reading (contract 2.4).
pub fn encloses(start: Point, letters: &[u8], cell: Cell) -> bool {
    ups_minus_downs(start, &reading(start, letters), cell) == 1
}

/// All the enclosed cells of an outline past refusals 1 to 6, between its lowest and highest columns and rows: none lies elsewhere.
pub struct Enclosed {
    left: i32,
    bottom: i32,
    width: i32,
    height: i32,
    /// Row by row from the bottom, each from the left.
    marks: Vec<bool>,
}

impl Enclosed {
    /// Counts each cell's row once for all its columns.
    pub fn of(start: Point, letters: &[u8]) -> Self {
        let letters = &reading(start, letters)[..];
        let corners = corners(start, letters);
        let left = corners.iter().map(|c| c.0).min().unwrap_or(0);
        let right = corners.iter().map(|c| c.0).max().unwrap_or(0);
        let bottom = corners.iter().map(|c| c.1).min().unwrap_or(0);
        let top = corners.iter().map(|c| c.1).max().unwrap_or(0);
        let (width, height) = (right - left, top - bottom);

        // For each row, the corner column of each up (+1) and down (-1) that runs along it.
        let mut runs = vec![Vec::new(); height as usize];
        for (place, &letter) in letters.iter().enumerate() {
            let (from, to) = (corners[place], corners[place + 1]);
            match letter {
                1 => runs[(from.1 - bottom) as usize].push((from.0, 1)),
                3 => runs[(to.1 - bottom) as usize].push((from.0, -1)),
                _ => {}
            }
        }
        let mut marks = Vec::with_capacity((width * height) as usize);
        for run in &runs {
            for col in left..right {
                let sum: i32 = run.iter().filter(|(at, _)| *at <= col).map(|(_, sign)| sign).sum();
                marks.push(sum == 1);
            }
        }
        Enclosed { left, bottom, width, height, marks }
    }

    pub fn has(&self, (col, row): Cell) -> bool {
        let (c, r) = (col - self.left, row - self.bottom);
        (0..self.width).contains(&c) && (0..self.height).contains(&r) && self.marks[(r * self.width + c) as usize]
    }

    /// Every cell between the lowest and highest columns and rows: row by row from the bottom, each from the left.
    fn frame(&self) -> impl Iterator<Item = Cell> + '_ {
        let cols = self.left..self.left + self.width;
        (self.bottom..self.bottom + self.height).flat_map(move |row| cols.clone().map(move |col| (col, row)))
    }

    /// The enclosed cells: row by row from the bottom, each from the left.
    pub fn cells(&self) -> impl Iterator<Item = Cell> + '_ {
        self.frame().filter(|&cell| self.has(cell))
    }

    /// The anchor (contract 3.13): least column, then least row.
    pub fn anchor(&self) -> Cell {
        self.cells().min().expect("a clockwise outline encloses a cell")
    }

    /// The lowest missing cell (contract 2.7).
    pub fn missing(&self) -> Option<Cell> {
        let hull = Hull::of(self.cells().collect());
        self.frame().find(|&cell| !self.has(cell) && hull.has(cell))
    }
}

/// The points of all triangles of the given points: their convex hull, by its corners anticlockwise. It may be flat.
pub struct Hull {
    corners: Vec<Cell>,
}

/// Twice the area of the triangle p q x: above 0 if x is left of the way from p to q, 0 if on its line.
fn area(p: Cell, q: Cell, x: Cell) -> i64 {
    let (ux, uy) = (i64::from(q.0 - p.0), i64::from(q.1 - p.1));
    let (vx, vy) = (i64::from(x.0 - p.0), i64::from(x.1 - p.1));
    ux * vy - uy * vx
}

impl Hull {
    /// Monotone chain: the points from left to right, then back, each time leaving out what is not a left turn.
    pub fn of(mut points: Vec<Cell>) -> Self {
        points.sort_unstable();
        points.dedup();
        if points.len() < 3 {
            return Hull { corners: points };
        }
        let mut corners = half(points.iter());
        corners.extend(half(points.iter().rev()));
        Hull { corners }
    }

    /// The corners anticlockwise, from the lowest of the leftmost column on.
    pub fn corners(&self) -> &[Cell] {
        &self.corners
    }

    /// Left of, or on, each side, and within the lowest and highest columns and rows: the latter matters if the hull is flat.
    pub fn has(&self, x: Cell) -> bool {
        let next = self.corners.iter().cycle().skip(1);
        let on_sides = self.corners.iter().zip(next).all(|(&p, &q)| area(p, q, x) >= 0);
        on_sides && within(self.corners.iter().map(|p| p.0), x.0) && within(self.corners.iter().map(|p| p.1), x.1)
    }
}

fn within(numbers: impl Iterator<Item = i32> + Clone, x: i32) -> bool {
    numbers.clone().any(|n| n <= x) && numbers.clone().any(|n| n >= x)
}

/// Whether the triangle of three points, which may be flat, holds x.
pub fn in_triangle(p: Cell, q: Cell, r: Cell, x: Cell) -> bool {
    let sides = [area(p, q, x), area(q, r, x), area(r, p, x)];
    let one_way = sides.iter().all(|&a| a >= 0) || sides.iter().all(|&a| a <= 0);
    one_way && within([p.0, q.0, r.0].into_iter(), x.0) && within([p.1, q.1, r.1].into_iter(), x.1)
}

/// One half of the chain, without its last point.
fn half<'a>(points: impl Iterator<Item = &'a Cell>) -> Vec<Cell> {
    let mut chain: Vec<Cell> = Vec::new();
    for &x in points {
        while let [.., p, q] = chain[..] {
            if area(p, q, x) > 0 {
                break;
            }
            chain.pop();
        }
        chain.push(x);
    }
    chain.pop();
    chain
}

#[cfg(test)]
mod tests {
    use super::*;

    /// Contract 2.5: some three of the points, repeats allowed, whose triangle holds x.
    fn in_some_triangle(points: &[Cell], x: Cell) -> bool {
        let each = || points.iter().copied();
        each().any(|p| each().any(|q| each().any(|r| in_triangle(p, q, r, x))))
    }

    /// Contract 2.5 once more: the cell is a mean of the three with weights that are not all zero. Those of the areas suffice.
    #[test]
    fn a_triangle_is_its_weighted_means() {
        let block: Vec<Cell> = (0..16).map(|i| (i % 4, i / 4)).collect();
        let mean = |[p, q, r]: [Cell; 3], x: Cell| {
            let weights = (0..10).flat_map(|a| (0..10).flat_map(move |b| (0..10).map(move |c| (a, b, c)))).skip(1);
            let is_mean = |(a, b, c): (i32, i32, i32)| {
                a * p.0 + b * q.0 + c * r.0 == (a + b + c) * x.0 && a * p.1 + b * q.1 + c * r.1 == (a + b + c) * x.1
            };
            weights.into_iter().any(is_mean)
        };
        for (i, &p) in block.iter().enumerate() {
            for (j, &q) in block.iter().enumerate().skip(i) {
                for &r in &block[j..] {
                    for &x in &block {
                        assert_eq!(in_triangle(p, q, r, x), mean([p, q, r], x), "{p:?} {q:?} {r:?} {x:?}");
                    }
                }
            }
        }
    }

    /// Every set of cells of a 3 by 3 block, and every cell round it.
    #[test]
    fn the_hull_is_every_triangle() {
        for set in 1u32..512 {
            let points: Vec<Cell> = (0..9).filter(|i| set >> i & 1 == 1).map(|i| (i % 3, i / 3)).collect();
            let hull = Hull::of(points.clone());
            for x in (-1..4).flat_map(|c| (-1..4).map(move |r| (c, r))) {
                assert_eq!(hull.has(x), in_some_triangle(&points, x), "{points:?} {x:?}");
            }
        }
    }

    /// The cells counted row by row are the cells of the definition.
    #[test]
    fn enclosed_cells_are_counted_one_by_one() {
        for outline in crate::walks::outlines(3, Point::new(7, 9)) {
            let (start, letters) = (outline.start, &outline.letters);
            let enclosed = Enclosed::of(start, letters);
            for cell in (5..12).flat_map(|c| (7..14).map(move |r| (c, r))) {
                assert_eq!(enclosed.has(cell), encloses(start, letters, cell));
            }
        }
    }
}
