//! Random outlines on the whole chart: the borders of drawn sets of cells.

mod cells;
mod letters;

use robequarry::limits::{LAST_CELL, LAST_CORNER, LONGEST, MOST_NUMBERS, SIDE};

use crate::grid::{Grid, Pinch};
use crate::random::Random;
use crate::reference::cells::Enclosed;
use crate::{plain, polygons, Outline, Point};

/// What is drawn.
#[derive(Clone, Copy, Debug, PartialEq)]
pub enum Shape {
    Ellipse,
    Polygon,
    ManySided,
    FlippedEllipse,
    FlippedPolygon,
    Union,
    RowsAndColumns,
    Words,
    Growth,
    Comb,
}

impl Shape {
    pub const ALL: [Shape; 10] = [
        Shape::Ellipse,
        Shape::Polygon,
        Shape::ManySided,
        Shape::FlippedEllipse,
        Shape::FlippedPolygon,
        Shape::Union,
        Shape::RowsAndColumns,
        Shape::Words,
        Shape::Growth,
        Shape::Comb,
    ];

    pub fn name(self) -> &'static str {
        match self {
            Shape::Ellipse => "ellipses",
            Shape::Polygon => "polygons",
            Shape::ManySided => "polygons of many sides",
            Shape::FlippedEllipse => "ellipses, border cells flipped",
            Shape::FlippedPolygon => "polygons, border cells flipped",
            Shape::Union => "ellipse and polygon in one",
            Shape::RowsAndColumns => "rows and columns without gaps",
            Shape::Words => "four words round a rectangle",
            Shape::Growth => "grown simple sets",
            Shape::Comb => "combs near the longest outline",
        }
    }

    /// An outline somewhere on the chart, from anywhere on its border, one way or the other.
    pub fn draw(self, random: &mut Random) -> Outline {
        let side = side(random);
        self.draw_in(random, side)
    }

    /// An outline somewhere on the chart, of cells within a frame of this side. A comb has its own.
    pub fn draw_in(self, random: &mut Random, side: i32) -> Outline {
        let letters = match self {
            Shape::Words => letters::four_words(random, side),
            Shape::Comb => letters::comb(random),
            _ => {
                let grid = self.cells(random, side);
                border(random, &grid)
            }
        };
        let outline = put_on_chart(random, letters);
        let place = random.below(outline.letters.len());
        let outline = rotated(&outline, place);
        if random.once_in(2) {
            reversed(&outline)
        } else {
            outline
        }
    }

    /// The cells of a shape that is drawn by its cells.
    fn cells(self, random: &mut Random, side: i32) -> Grid {
        match self {
            Shape::Ellipse => cells::ellipse(random, side),
            Shape::Polygon => cells::polygon(random, side),
            Shape::ManySided => cells::many_sided(random, side),
            Shape::FlippedEllipse => {
                let grid = cells::ellipse(random, side);
                cells::flipped(random, grid)
            }
            Shape::FlippedPolygon => {
                let grid = cells::polygon(random, side);
                cells::flipped(random, grid)
            }
            Shape::Union => cells::union(random, side),
            Shape::RowsAndColumns => cells::rows_and_columns(random, side),
            Shape::Growth => cells::growth(random, side),
            Shape::Words | Shape::Comb => unreachable!("drawn by their letters"),
        }
    }
}

/// A side of the frame: most are small, some reach the longest outlines, few are as wide as the chart.
fn side(random: &mut Random) -> i32 {
    let (least, most) = match random.below(200) {
        0..=119 => (1, 12),
        120..=179 => (4, 32),
        180..=194 => (16, 90),
        195..=198 => (90, LONGEST / 4),
        _ => (LONGEST / 4, usize::from(SIDE)),
    };
    random.from_to(least, most) as i32
}

/// The outline that walks the same border from the place's corner on.
pub fn rotated(outline: &Outline, place: usize) -> Outline {
    let (before, after) = outline.letters.split_at(place);
    let start = end(outline.start, before);
    Outline { start, letters: [after, before].concat() }
}

/// The outline that walks the same border the other way round.
pub fn reversed(outline: &Outline) -> Outline {
    Outline { start: outline.start, letters: outline.letters.iter().rev().map(|letter| letter ^ 2).collect() }
}

/// Where a walk ends.
fn end(start: Point, letters: &[u8]) -> Point {
    let mut at = start;
    for letter in letters {
        match letter {
            0 => at.col += 1,
            1 => at.row += 1,
            2 => at.col -= 1,
            _ => at.row -= 1,
        }
    }
    at
}

/// The letters of a set's border, or of one cell's if the set is empty.
fn border(random: &mut Random, grid: &Grid) -> Vec<u8> {
    let pinch = if random.once_in(8) { Pinch::Join } else { Pinch::Part };
    grid.trace(pinch).map_or(vec![1, 0, 3, 2], |(_, letters)| letters)
}

/// Puts closed letters on the chart: anywhere that they fit, often at its border.
fn put_on_chart(random: &mut Random, letters: Vec<u8>) -> Outline {
    let (cols, rows) = (extremes(&letters, 0), extremes(&letters, 1));
    let start = Point::new(shift(random, cols), shift(random, rows));
    Outline { start, letters }
}

/// How far letters reach, back and forth, from where they start: columns for 0, rows for 1.
fn extremes(letters: &[u8], forth: u8) -> (i32, i32) {
    let (mut at, mut low, mut high) = (0, 0, 0);
    for &letter in letters.iter().filter(|&&letter| letter % 2 == forth) {
        at += if letter == forth { 1 } else { -1 };
        low = low.min(at);
        high = high.max(at);
    }
    (low, high)
}

/// A start from which the extremes stay on the chart, or at its border if it is too narrow.
fn shift(random: &mut Random, (low, high): (i32, i32)) -> u16 {
    let last = i32::from(LAST_CORNER);
    let (least, most) = (-low, last - high);
    let shift = match random.below(6) {
        0 => least,
        1 => most,
        _ if least < most => random.from_to(least as usize, most as usize) as i32,
        _ => least,
    };
    shift.clamp(0, last) as u16
}

/// A bar of one row or one column, or a single cell, anywhere.
pub fn bar(random: &mut Random) -> Outline {
    let length = if random.once_in(4) { 1 } else { random.from_to(2, usize::from(SIDE)) };
    let [across, back] = if random.once_in(2) { [length, 1] } else { [1, length] };
    let sides = [(1, back), (0, across), (3, back), (2, across)];
    let letters = sides.iter().flat_map(|&(letter, times)| std::iter::repeat_n(letter, times)).collect();
    put_on_chart(random, letters)
}

/// An outline that is taken: a bar or a cell, one of few and long edges, or one that is drawn.
pub fn any_taken(random: &mut Random) -> Outline {
    loop {
        let outline = match random.below(8) {
            0 => bar(random),
            1 | 2 => match polygons::outline(random) {
                Some(outline) => outline,
                None => continue,
            },
            shape => [Shape::Ellipse, Shape::Polygon, Shape::ManySided, Shape::Words][shape % 4].draw(random),
        };
        if plain::test(outline.start, &outline.letters, &mut [0; MOST_NUMBERS]).number == 0 {
            return outline;
        }
    }
}

/// The outline of all cells of the chart, from its lower left corner.
pub fn whole_chart() -> Outline {
    let (_, letters) = Grid::of_chart(|_, _| true).trace(Pinch::Part).expect("there are cells");
    Outline { start: Point::new(0, 0), letters }
}

/// An upright ellipse in the middle of the chart with this many letters; begun anywhere.
pub fn round_outline(random: &mut Random, letters: usize) -> Outline {
    let half = letters as f64 / 8.0;
    let middle = f64::from(LAST_CELL) / 2.0;
    loop {
        let longer = (random.fraction() * 0.3 * half).min(middle + 0.4 - half);
        let (a, b) = (half + longer, half - longer);
        let (x, y) = (middle - 0.4 + random.fraction() * 0.8, middle - 0.4 + random.fraction() * 0.8);
        let grid = Grid::of_chart(|col, row| ((f64::from(col) - x) / a).hypot((f64::from(row) - y) / b) <= 1.0);
        let Some(((col, row), traced)) = grid.trace(Pinch::Part) else {
            continue;
        };
        if traced.len() == letters {
            let outline = Outline { start: Point::new(col as u16, row as u16), letters: traced };
            let place = random.below(letters);
            return rotated(&outline, place);
        }
    }
}

/// The outline of the same cells but for one at the border, which is put in or taken out and leaves the border a simple one.
pub fn with_a_cell_flipped(random: &mut Random, outline: &Outline) -> Outline {
    let enclosed = Enclosed::of(outline.start, &outline.letters);
    let mut grid = Grid::of_chart(|col, row| enclosed.has((col, row)));
    grid.flip(random, 1, true);
    let ((col, row), letters) = grid.trace(Pinch::Part).expect("a simple flip empties no set");
    let outline = Outline { start: Point::new(col as u16, row as u16), letters };
    let place = random.below(outline.letters.len());
    rotated(&outline, place)
}
