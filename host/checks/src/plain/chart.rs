//! Refusals 1 to 6 and the corners W, N, E and S, in one walk.

use robequarry::limits::{LAST_CORNER, LAST_LETTER, LONGEST, SHORTEST};

use crate::reply::{numbered, placed};
use crate::{Fields, Point};

/// Corners in a row, which is a power of 2, and on the chart.
pub const WIDTH: usize = LAST_CORNER as usize + 1;
const CORNERS: usize = WIDTH * WIDTH;

/// Whether a corner is none of the chart's.
pub fn is_off_chart(corner: Point) -> bool {
    corner.col > LAST_CORNER || corner.row > LAST_CORNER
}

/// W, N, E and S: the place of the letter that leaves each, the corner W, the rows of S and N, and the column of E.
pub struct Corners {
    pub west: usize,
    pub north: usize,
    pub east: usize,
    pub south: usize,
    pub corner: Point,
    pub bottom: u16,
    pub top: u16,
    pub right: u16,
}

/// The first of refusals 1 to 6 that applies, or the corners.
pub fn survey(start: Point, letters: &[u8]) -> Result<Corners, Fields> {
    if letters.len() < SHORTEST || letters.len() > LONGEST {
        return Err(numbered(1));
    }
    if is_off_chart(start) {
        return Err(numbered(2));
    }
    // All letters at once, and one by one only where there is a place to find.
    if letters.iter().fold(0, |all, &letter| all | letter) > LAST_LETTER {
        let place = letters.iter().position(|&letter| letter > LAST_LETTER);
        return Err(placed(3, place.unwrap_or_default()));
    }
    if is_open(letters) {
        return Err(open(start, letters));
    }
    walk(start, letters)
}

/// Whether the steps of the letters do not add up to zero modulo 256: then the walk does not close.
fn is_open(letters: &[u8]) -> bool {
    let step = |letter: u8, forward: u8, back: u8| u8::from(letter == forward).wrapping_sub(u8::from(letter == back));
    let (mut cols, mut rows) = (0u8, 0u8);
    for &letter in letters {
        cols = cols.wrapping_add(step(letter, 0, 2));
        rows = rows.wrapping_add(step(letter, 1, 3));
    }
    cols != 0 || rows != 0
}

/// A corner by columns and then by rows, ten bits for the row and for the place: W has the least number, E the greatest, and one off the chart shows in the bits above the
/// lowest eight of its column or its row. And by rows from the top and then by columns, eight bits each, and its place: N has the least, S the greatest.
const COL_STEPS: [u32; 4] = [(1 << 20) + 1, (1 << 10) + 1, (1u32 << 20).wrapping_neg() + 1, (1u32 << 10).wrapping_neg() + 1];
const ROW_STEPS: [u32; 4] = [(1 << 16) + 1, (1u32 << 24).wrapping_neg() + 1, (1u32 << 16).wrapping_neg() + 1, (1 << 24) + 1];
const OFF_CHART: u32 = 0xF00C_0000;

/// The number of the start by columns.
fn first_number(start: Point) -> u32 {
    u32::from(start.col) << 20 | u32::from(start.row) << 10
}

/// Refusals 4, 5 and 6 and the corners in one walk. One bit for each corner met, those of neighbours in different words.
fn walk(start: Point, letters: &[u8]) -> Result<Corners, Fields> {
    const WORDS: usize = CORNERS / 64;
    let mut met = [0u64; WORDS];
    let first = first_number(start);
    let mut by_col = first;
    let mut by_row = u32::from(LAST_CORNER - start.row) << 24 | u32::from(start.col) << 16;
    let (mut west, mut north, mut east, mut south) = (by_col, by_row, by_col, by_row);
    for (place, &letter) in letters.iter().enumerate() {
        let number = (by_row >> 16) as usize;
        let word = &mut met[number % WORDS];
        let bit = 1 << (number / WORDS);
        if *word & bit != 0 {
            return Err(touched(first, letters, place, by_col));
        }
        *word |= bit;
        west = west.min(by_col);
        north = north.min(by_row);
        east = east.max(by_col);
        south = south.max(by_row);
        by_col = by_col.wrapping_add(COL_STEPS[usize::from(letter & 3)]);
        by_row = by_row.wrapping_add(ROW_STEPS[usize::from(letter & 3)]);
        if by_col & OFF_CHART != 0 {
            return Err(placed(4, place));
        }
    }
    if by_col >> 10 != first >> 10 {
        return Err(numbered(5));
    }
    Ok(Corners {
        west: west as usize % 1024,
        north: usize::from(north as u16),
        east: east as usize % 1024,
        south: usize::from(south as u16),
        corner: Point::new((west >> 20) as u16, (west >> 10) as u16 % 1024),
        bottom: LAST_CORNER - (south >> 24) as u16,
        top: LAST_CORNER - (north >> 24) as u16,
        right: (east >> 20) as u16,
    })
}

/// Of a walk that does not close: the first letter that leaves the chart is refused, or the walk.
#[cold]
fn open(start: Point, letters: &[u8]) -> Fields {
    match walk_on(letters, 0, first_number(start)) {
        Ok(_) => numbered(5),
        Err(place) => placed(4, place),
    }
}

/// Of a walk that met the corner at a place before: the rest leaves the chart, or ends elsewhere, or the letter that led there is refused.
#[cold]
fn touched(first: u32, letters: &[u8], from: usize, by_col: u32) -> Fields {
    match walk_on(letters, from, by_col) {
        Err(place) => placed(4, place),
        Ok(end) if end >> 10 != first >> 10 => numbered(5),
        Ok(_) => placed(6, from - 1),
    }
}

/// The number at the end of a walk from a place on, or the place of the first letter that leaves the chart.
fn walk_on(letters: &[u8], from: usize, mut by_col: u32) -> Result<u32, usize> {
    for (place, &letter) in letters.iter().enumerate().skip(from) {
        by_col = by_col.wrapping_add(COL_STEPS[usize::from(letter & 3)]);
        if by_col & OFF_CHART != 0 {
            return Err(place);
        }
    }
    Ok(by_col)
}
