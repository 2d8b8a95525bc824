//! Random sets of cells, each within a frame of `side` by `side`.

use crate::grid::Grid;
use crate::random::Random;
use crate::reference::cells::Hull;

/// The cells whose centres lie in an ellipse, upright or turned.
pub fn ellipse(random: &mut Random, side: i32) -> Grid {
    let (a, b) = (radius(random, side), radius(random, side));
    let angle = if random.once_in(2) { 0.0 } else { random.fraction() * std::f64::consts::PI };
    let (sin, cos) = angle.sin_cos();
    let half = f64::from(side) / 2.0;
    let (x, y) = (half + random.fraction() - 1.0, half + random.fraction() - 1.0);
    Grid::of(side, side, |col, row| {
        let (c, r) = (f64::from(col) - x, f64::from(row) - y);
        let (u, v) = ((c * cos + r * sin) / a, (r * cos - c * sin) / b);
        u * u + v * v <= 1.0
    })
}

/// Half a side, or less, or a little more.
fn radius(random: &mut Random, side: i32) -> f64 {
    0.6 + f64::from(side) / 2.0 * random.fraction().max(random.fraction())
}

/// The cells in the hull of a few cells.
pub fn polygon(random: &mut Random, side: i32) -> Grid {
    let count = random.from_to(3, 9);
    let mut points = Vec::new();
    for _ in 0..count {
        let point = (random.below(side as usize) as i32, random.below(side as usize) as i32);
        // Some lie on the frame, so that it is filled.
        points.push(match random.below(6) {
            0 => (0, point.1),
            1 => (side - 1, point.1),
            2 => (point.0, 0),
            3 => (point.0, side - 1),
            _ => point,
        });
    }
    let hull = Hull::of(points);
    Grid::of(side, side, |col, row| hull.has((col, row)))
}

/// The cells in a polygon with nearly as many sides as its frame allows: short steps that share no direction, each there and back.
pub fn many_sided(random: &mut Random, side: i32) -> Grid {
    let mut steps: Vec<(i32, i32)> = (1..=12).flat_map(|cols| (-12..=12).map(move |rows| (cols, rows))).collect();
    steps.retain(|&(cols, rows)| (2..=12).all(|d| cols % d != 0 || rows % d != 0));
    steps.push((0, 1));
    steps.sort_by_key(|&(cols, rows)| cols * cols + rows * rows);
    let (mut width, mut height) = (0, 0);
    steps.retain(|&(cols, rows)| {
        let kept = width + cols < side && height + rows.abs() < side && !random.once_in(4);
        if kept {
            (width, height) = (width + cols, height + rows.abs());
        }
        kept
    });
    // Clockwise from up.
    steps.sort_by(|a, b| (a.0 * b.1).cmp(&(a.1 * b.0)));
    let falls: i32 = steps.iter().map(|&(_, rows)| rows.min(0)).sum();
    let mut at = (0, -falls);
    let mut points = vec![at];
    for (cols, rows) in steps.iter().copied().chain(steps.iter().map(|&(cols, rows)| (-cols, -rows))) {
        at = (at.0 + cols, at.1 + rows);
        points.push(at);
    }
    let hull = Hull::of(points);
    Grid::of(side, side, |col, row| hull.has((col, row)))
}

pub fn union(random: &mut Random, side: i32) -> Grid {
    let (one, other) = (ellipse(random, side), polygon(random, side));
    Grid::of(side, side, |col, row| one.has(col, row) || other.has(col, row))
}

/// Rows whose first columns fall and then rise, and whose last columns rise and then fall, each row meeting the next.
pub fn rows_and_columns(random: &mut Random, side: i32) -> Grid {
    let mut grid = Grid::new(side, side);
    let height = random.from_to(1, side as usize);
    let (left_turn, right_turn) = (random.below(height + 1), random.below(height + 1));
    let largest = [1, 2, 4, 1 + side as usize / 4][random.below(4)];
    let mut first = random.below(side as usize) as i32;
    let mut last = random.from_to(first as usize, side as usize - 1) as i32;
    for row in 0..height {
        if row > 0 {
            let (out, back) = (random.below(largest + 1) as i32, random.below(largest + 1) as i32);
            let before = (first, last);
            first = if row < left_turn { (first - out).max(0) } else { (first + out).min(before.1) };
            last = if row < right_turn { (last + back).min(side - 1) } else { (last - back).max(before.0) };
            if last < first {
                break;
            }
        }
        (first..=last).for_each(|col| grid.put(col, row as i32, true));
    }
    grid
}

/// A set that grew cell by cell and stayed simple, in a lump or in thin arms.
pub fn growth(random: &mut Random, side: i32) -> Grid {
    let mut grid = Grid::new(side, side);
    let wanted = random.from_to(1, (side * side) as usize / 2 + 1).min(1500);
    let thin = random.once_in(2);
    let mut edge = vec![(side / 2, side / 2)];
    let mut grown = 0;
    while grown < wanted && !edge.is_empty() {
        let (col, row) = edge.swap_remove(random.below(edge.len()));
        let inside = (0..side).contains(&col) && (0..side).contains(&row);
        if !inside || grid.has(col, row) || (grown > 0 && !grid.is_simple(col, row)) {
            continue;
        }
        let sides = [(col + 1, row), (col, row + 1), (col - 1, row), (col, row - 1)];
        let touching = sides.iter().filter(|side| grid.has(side.0, side.1)).count();
        if thin && touching > 1 && !random.once_in(8) {
            continue;
        }
        grid.put(col, row, true);
        grown += 1;
        edge.extend(sides);
    }
    grid
}

/// The set with some cells at its border flipped, which mostly leaves it a simple one.
pub fn flipped(random: &mut Random, mut grid: Grid) -> Grid {
    let count = [1, 1, 1, 2, 3, 8][random.below(6)];
    let simply = !random.once_in(6);
    grid.flip(random, count, simply);
    grid
}
