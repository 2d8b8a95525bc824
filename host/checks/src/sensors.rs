//! Readings as sensors might give them, and as none should: on edges, beside corners, next to the chart's ends, subnormal, infinite,
//! no number.

use robequarry::limits::LAST_CELL;
use robequarry::Reading;

use crate::random::Random;
use crate::reference::readings::Polygon;

/// Two numbers, most often near one of the polygon's edges.
pub fn reading(random: &mut Random, polygon: &Polygon) -> Reading {
    let (x, y) = near(random, polygon);
    let (angle, load) = (beside(random, x), beside(random, y));
    match random.below(12) {
        0 | 1 => Reading::from_bits(pattern(random), pattern(random)),
        2 => Reading::from_bits(angle, pattern(random)),
        3 => Reading::from_bits(pattern(random), load),
        _ => Reading::from_bits(angle, load),
    }
}

/// A point on an edge, at its ends or beyond them, or off it by so much that its side value is 1/64 or 1/32, as nearly as floats can;
/// without an edge, the cell's centre.
fn near(random: &mut Random, polygon: &Polygon) -> (f32, f32) {
    if polygon.edges.is_empty() {
        let (col, row) = polygon.met[0];
        return (col as f32, row as f32);
    }
    let edge = polygon.edges[random.below(polygon.edges.len())];
    let [col, row, cols, rows] = [edge.from.0, edge.from.1, edge.step.0, edge.step.1].map(|number| number as f64);
    let along = match random.below(5) {
        0 => 0.0,
        1 => 1.0,
        2 => random.below(17) as f64 / 16.0,
        _ => 1.5 * random.fraction() - 0.25,
    };
    let value = [0.0, 1.0, 1.0, -1.0, -1.0, 2.0, -2.0][random.below(7)] / 64.0;
    // One number is a float already, and the other is the one that makes this value of it.
    if cols != 0.0 && (rows == 0.0 || random.once_in(2)) {
        let x = (col + along * cols) as f32;
        (x, (row + (rows * (f64::from(x) - col) - value) / cols) as f32)
    } else {
        let y = (row + along * rows) as f32;
        ((col + (cols * (f64::from(y) - row) + value) / rows) as f32, y)
    }
}

/// The pattern of a number, or one near it; of 0 or one just above it where the number is below.
fn beside(random: &mut Random, number: f32) -> u32 {
    let reach = [0, 0, 0, 1, 4, 1 << 9, 1 << 13, 1 << 17][random.below(8)];
    let steps = random.below(2 * reach + 1) as i64 - reach as i64;
    (i64::from(number.max(0.0).to_bits()) + steps).max(0) as u32
}

/// A pattern of any class.
fn pattern(random: &mut Random) -> u32 {
    let last = f32::from(LAST_CELL);
    match random.below(12) {
        // Any bits at all.
        0 => random.any() as u32,
        // 0 and the numbers next to it, of either sign.
        1 => (random.below(2) as u32) << 31 | random.below(3) as u32,
        // Subnormal, and just above.
        2 => random.below(1 << 24) as u32,
        // At either side of the last cell.
        3 => beside(random, last),
        // Infinite, the largest finite number, the patterns of no number; of either sign.
        4 => {
            (random.below(2) as u32) << 31
                | [0x7f80_0000, 0x7f7f_ffff, 0x7f80_0001, 0x7fbf_ffff, 0x7fc0_0000, 0x7fff_ffff][random.below(6)]
        }
        // A negative number of the chart's size.
        5 => (-last * random.fraction() as f32).to_bits(),
        // The centre of a cell, and between two.
        6 | 7 => (random.from_to(0, usize::from(LAST_CELL)) as f32).to_bits(),
        8 => (random.below(2 * usize::from(LAST_CELL) + 1) as f32 / 2.0).to_bits(),
        _ => (last * random.fraction() as f32).to_bits(),
    }
}
