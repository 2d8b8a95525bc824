//! The border written back from an anchor and edges (contract 6.3).
//!
//! An outline that is taken encloses the cells that its edges hold (contract 8.4), and no other outline goes round them. So the cells in
//! the hull of the corner cells are walked round, and the walk is tested.

use robequarry::limits::{LONGEST, LONGEST_LIST, SIDE};

use super::border::reading;
use super::calls::{off_chart, test};
use super::cells::{Cell, Hull};
use super::edges::{bad_turning, corner_cells, steps};
use super::walk::corners;
use crate::reply::{numbered, placed};
use crate::{Fields, Outline, Point};

/// The border, with a buffer for its letters.
pub fn border(anchor: Point, edges: &[i16], buffer: &mut [u8]) -> Fields {
    // 10: the count of numbers.
    if edges.len() % 2 == 1 || edges.len() > LONGEST_LIST {
        return numbered(10);
    }
    // 11: the anchor.
    if off_chart(anchor) {
        return numbered(11);
    }
    // 16: the edges lead once round.
    if bad_turning(edges) {
        return numbered(16);
    }
    // 17: the test takes no outline with this anchor and these edges.
    let Some(letters) = outline_with(anchor, edges) else {
        return numbered(17);
    };
    // 18: the buffer is too short.
    if buffer.len() < letters.len() {
        return numbered(18);
    }
    buffer[..letters.len()].copy_from_slice(&letters);
    placed(0, letters.len())
}

/// The letters, clockwise from W, of the taken outline that has this anchor and these edges.
pub fn outline_with(anchor: Point, edges: &[i16]) -> Option<Vec<u8>> {
    let cells = corner_cells(anchor, edges);
    let on_chart = |x: i32| (0..i32::from(SIDE)).contains(&x);
    if !cells.iter().all(|&(col, row)| on_chart(col) && on_chart(row)) {
        return None;
    }
    let hull = Hull::of(cells);
    let letters = walk_round(&hull, (i32::from(anchor.col), i32::from(anchor.row)))?;
    let tested = test(anchor, &letters);
    let same = tested.reply.number == 0
        && (tested.reply.col, tested.reply.row) == (anchor.col, anchor.row)
        && tested.edges.iter().copied().eq(steps(edges));
    same.then_some(letters)
}

/// The border of an outline that is taken: the same walk, clockwise and from W on.
pub fn border_of(outline: &Outline) -> Outline {
    let letters = reading(outline.start, &outline.letters);
    let corners = corners(outline.start, &letters);
    let place = (0..letters.len()).min_by_key(|&place| corners[place]).expect("an outline has letters");
    let start = Point::new(corners[place].0 as u16, corners[place].1 as u16);
    Outline { start, letters: [&letters[place..], &letters[..place]].concat() }
}

/// The walk round the cells of a hull with the cells on its right hand, which leaves a cell's lower left corner upward; none if it is longer
/// than any outline.
pub fn walk_round(hull: &Hull, start: Cell) -> Option<Vec<u8>> {
    const STEPS: [Cell; 4] = [(1, 0), (0, 1), (-1, 0), (0, -1)];
    // Of a corner (0, 0), the cell left of the way ahead for each letter; the one right of it is that of the letter one turn to the right.
    const LEFT: [Cell; 4] = [(0, 0), (-1, 0), (-1, -1), (0, -1)];
    let (mut at, mut letter) = (start, 1);
    let mut letters = Vec::new();
    while letters.len() < LONGEST {
        letters.push(letter as u8);
        at = (at.0 + STEPS[letter].0, at.1 + STEPS[letter].1);
        if at == start {
            return Some(letters);
        }
        let has = |(col, row): Cell| hull.has((at.0 + col, at.1 + row));
        let right = (letter + 3) % 4;
        letter = match (has(LEFT[letter]), has(LEFT[right])) {
            (true, _) => (letter + 1) % 4,
            (false, true) => letter,
            (false, false) => right,
        };
    }
    None
}
