//! What the contract says on the way to a verdict, of an outline that meets none of refusals 1 to 6: the clockwise form, four
//! pieces, their factors, the enclosed cells and the missing ones. The verdict itself, the edges, the anchor and the named cell are the
//! library's; the tests hold this story to them.

use std::collections::BTreeMap;

use robequarry::Outline;

use crate::walk::{corners, start, Point};
use crate::words::{factors, is_christoffel, laters, Factor};

/// The names of the corners at which pieces 1 to 4 begin.
pub const NAMES: [&str; 4] = ["W", "N", "E", "S"];

/// The earlier and the later letter of pieces 1 to 4 (contract 3.4).
pub const LETTERS: [[u8; 2]; 4] = [[0, 1], [3, 0], [2, 3], [1, 2]];

/// From a corner of pieces 1 to 4, past their first letter, to the cell at the same point of the piece's word.
const TO_CELL: [Point; 4] = [(0, -1), (-1, -1), (-1, 0), (0, 0)];

pub struct Story {
    pub clockwise: bool,
    /// The clockwise form started at W (contract 3.2).
    pub border: Vec<u8>,
    /// The corners of the border, W at both ends.
    pub corners: Vec<Point>,
    /// Where W stands in the clockwise form.
    west: usize,
    pub pieces: [Piece; 4],
    pub rows: Rows,
}

/// A part of the border, counted in letters from W. It may be read on past W, where N, E and S do not follow each other.
pub struct Piece {
    /// 1 to 4.
    pub number: usize,
    pub from: usize,
    pub letters: Vec<u8>,
    /// How many letters of the piece stand before its first back-step.
    pub back_step: Option<usize>,
    /// The letters without the first, `true` for the later one; of a piece with a back-step none.
    pub word: Vec<bool>,
    pub factors: Vec<Factor>,
}

/// Of each row the enclosed cells, as runs from a first to a last column.
pub type Rows = BTreeMap<i32, Vec<(i32, i32)>>;

impl Story {
    /// The story of an outline that meets none of refusals 1 to 6.
    pub fn of(outline: &Outline) -> Self {
        let sent = corners(start(outline), &outline.letters);
        let count = outline.letters.len();
        let west_sent = least(&sent[..count], |(col, row)| (col, row));
        let clockwise = outline.letters[west_sent] == 1;
        let form: Vec<u8> = match clockwise {
            true => outline.letters.clone(),
            false => outline.letters.iter().rev().map(|letter| letter ^ 2).collect(),
        };
        let west = if clockwise { west_sent } else { (count - west_sent) % count };
        let border = [&form[west..], &form[..west]].concat();
        let met = corners(sent[west_sent], &border);
        let pieces = pieces(&border, &met);
        let rows = rows(&border, &met);
        Story { clockwise, border, corners: met, west, pieces, rows }
    }

    /// The index in the list as sent of the border's letter i (contract 5.3).
    pub fn sent(&self, i: usize) -> usize {
        let count = self.border.len();
        let place = (self.west + i) % count;
        if self.clockwise {
            place
        } else {
            count - 1 - place
        }
    }

    /// The border's letter that was sent at a place.
    pub fn on_border(&self, place: usize) -> usize {
        let count = self.border.len();
        let place = if self.clockwise { place } else { count - 1 - place };
        (place + count - self.west) % count
    }

    /// The corners of the border from a letter on, one more than letters; past W where that is needed.
    pub fn corners_of(&self, from: usize, letters: usize) -> Vec<Point> {
        (from..=from + letters).map(|i| self.corners[i % self.border.len()]).collect()
    }

    /// The cells from centre to centre along letters of a piece's word.
    pub fn cells_of(&self, piece: usize, from: usize, letters: usize) -> Vec<Point> {
        let (col, row) = TO_CELL[piece - 1];
        self.corners_of(from, letters).into_iter().map(|(c, r)| (c + col, r + row)).collect()
    }

    /// The border's letter with which a factor begins.
    pub fn factor_from(&self, piece: usize, factor: Factor) -> usize {
        self.pieces[piece - 1].from + 1 + factor.at
    }

    /// Columns and rows of the step that all repeats of a factor take together (contract 3.12).
    pub fn edge(&self, piece: usize, factor: Factor) -> Point {
        let cells = self.cells_of(piece, self.factor_from(piece, factor), factor.length * factor.times);
        let (first, last) = (cells[0], cells[cells.len() - 1]);
        (last.0 - first.0, last.1 - first.1)
    }

    /// Whether N, E and S follow W in this order, so that the pieces are the border once.
    pub fn pieces_are_the_border(&self) -> bool {
        self.pieces.iter().map(|piece| piece.letters.len()).sum::<usize>() == self.border.len()
    }

    pub fn cells(&self) -> usize {
        self.rows.values().flatten().map(|(first, last)| (last - first + 1) as usize).sum()
    }

    /// Cells of the hull that are not enclosed, from the lowest row up, each row from the left (contract 2.6).
    pub fn missing(&self) -> Vec<Point> {
        missing(&self.rows)
    }

    /// The cells that another encloses too.
    pub fn common(&self, other: &Story) -> Rows {
        let alone = |row: i32, runs: &[(i32, i32)]| {
            let cells = runs.iter().flat_map(|&(first, last)| first..=last);
            joined(cells.filter(|&col| other.encloses((col, row))))
        };
        let rows = self.rows.iter().map(|(&row, runs)| (row, alone(row, runs)));
        rows.filter(|(_, runs)| !runs.is_empty()).collect()
    }

    /// The cells of this outline that another does not enclose, from the lowest row up, each row from the left.
    pub fn cells_beyond(&self, other: &Story) -> Vec<Point> {
        let run = |row: i32, (first, last): (i32, i32)| (first..=last).map(move |col| (col, row));
        let cells = self.rows.iter().flat_map(|(&row, runs)| runs.iter().flat_map(move |&ends| run(row, ends)));
        cells.filter(|&cell| !other.encloses(cell)).collect()
    }

    pub fn encloses(&self, cell: Point) -> bool {
        holds(&self.rows, cell)
    }
}

/// Whether a set of cells has a cell.
pub fn holds(rows: &Rows, (col, row): Point) -> bool {
    rows.get(&row).is_some_and(|runs| runs.iter().any(|&(first, last)| first <= col && col <= last))
}

/// Columns in rising order as runs.
pub fn joined(cols: impl Iterator<Item = i32>) -> Vec<(i32, i32)> {
    let mut runs: Vec<(i32, i32)> = Vec::new();
    for col in cols {
        match runs.last_mut() {
            Some((_, last)) if *last + 1 == col => *last = col,
            _ => runs.push((col, col)),
        }
    }
    runs
}

/// The missing cells of any set of cells, in one part or several, from the lowest row up, each row from the left (contract 2.6).
pub fn missing(rows: &Rows) -> Vec<Point> {
    let (Some((&bottom, _)), Some((&top, _))) = (rows.first_key_value(), rows.last_key_value()) else {
        return Vec::new();
    };
    let ends = rows.iter().flat_map(|(&row, runs)| [(runs[0].0, row), (runs[runs.len() - 1].1, row)]);
    let hull = hull(ends.collect());
    let left = rows.values().map(|runs| runs[0].0).min().unwrap_or(0);
    let right = rows.values().map(|runs| runs[runs.len() - 1].1).max().unwrap_or(0);
    let frame = (bottom..=top).flat_map(|row| (left..=right).map(move |col| (col, row)));
    frame.filter(|&cell| !holds(rows, cell) && in_hull(&hull, cell)).collect()
}

impl Piece {
    /// The letters of one copy of a factor.
    pub fn copy(&self, factor: Factor) -> &[bool] {
        &self.word[factor.at..factor.at + factor.length]
    }

    /// The first factor that is no Christoffel word (contract 3.11).
    pub fn dent(&self) -> Option<Factor> {
        self.factors.iter().copied().find(|&factor| !is_christoffel(self.copy(factor)))
    }

    /// How many earlier and later letters a word has.
    pub fn counts(word: &[bool]) -> (usize, usize) {
        (word.len() - laters(word), laters(word))
    }
}

/// The corner that comes first in an order.
fn least(met: &[Point], order: impl Fn(Point) -> Point) -> usize {
    (0..met.len()).min_by_key(|&i| order(met[i])).expect("a walk has a corner")
}

/// The border from W to N, on to E, to S and to W (contract 3.3).
fn pieces(border: &[u8], met: &[Point]) -> [Piece; 4] {
    let count = border.len();
    let left = &met[..count];
    // N: the top row's leftmost; E: the rightmost column's highest; S: the bottom row's rightmost.
    let cut = [
        0,
        least(left, |(col, row)| (-row, col)),
        least(left, |(col, row)| (-col, -row)),
        least(left, |(col, row)| (row, -col)),
    ];
    std::array::from_fn(|k| {
        let (from, to) = (cut[k], cut[(k + 1) % 4]);
        let letters: Vec<u8> = (0..(to + count - from) % count).map(|i| border[(from + i) % count]).collect();
        let back_step = letters.iter().position(|letter| !LETTERS[k].contains(letter));
        let word: Vec<bool> = match back_step {
            None => letters.iter().skip(1).map(|&letter| letter == LETTERS[k][1]).collect(),
            Some(_) => Vec::new(),
        };
        let factors = factors(&word);
        Piece { number: k + 1, from, letters, back_step, word, factors }
    })
}

/// Each row's runs, from its ups to its downs (contract 2.4).
fn rows(border: &[u8], met: &[Point]) -> Rows {
    let mut sides: BTreeMap<i32, Vec<i32>> = BTreeMap::new();
    for (i, _) in border.iter().enumerate().filter(|(_, &letter)| letter % 2 == 1) {
        sides.entry(met[i].1.min(met[i + 1].1)).or_default().push(met[i].0);
    }
    let run = |pair: &[i32]| (pair[0], pair[1] - 1);
    let runs = |mut cols: Vec<i32>| {
        cols.sort_unstable();
        cols.chunks_exact(2).map(run).collect()
    };
    sides.into_iter().map(|(row, cols)| (row, runs(cols))).collect()
}

/// Above 0 if x is left of the way from p to q, 0 if on its line.
fn side(p: Point, q: Point, x: Point) -> i32 {
    (q.0 - p.0) * (x.1 - p.1) - (q.1 - p.1) * (x.0 - p.0)
}

/// The corners of a hull, anticlockwise: a monotone chain there and back.
fn hull(mut points: Vec<Point>) -> Vec<Point> {
    points.sort_unstable();
    points.dedup();
    if points.len() < 3 {
        return points;
    }
    let there = half(points.iter());
    let back = half(points.iter().rev());
    [there, back].concat()
}

/// One half of the chain, without its last point.
fn half<'a>(points: impl Iterator<Item = &'a Point>) -> Vec<Point> {
    let mut chain: Vec<Point> = Vec::new();
    for &x in points {
        while chain.len() > 1 && side(chain[chain.len() - 2], chain[chain.len() - 1], x) <= 0 {
            chain.pop();
        }
        chain.push(x);
    }
    chain.pop();
    chain
}

/// Left of every side; on a flat hull also between its ends.
fn in_hull(hull: &[Point], x: Point) -> bool {
    let next = hull.iter().cycle().skip(1);
    let within = |low: i32, high: i32, n: i32| low.min(high) <= n && n <= low.max(high);
    let flat = hull.len() < 3;
    let on_sides = hull.iter().zip(next).all(|(&p, &q)| side(p, q, x) >= 0);
    let (first, last) = (hull[0], hull[hull.len() - 1]);
    on_sides && (!flat || within(first.0, last.0, x.0) && within(first.1, last.1, x.1))
}
