//! The border written back from an anchor and edges: each edge by the remainders of its rise, then the test.

use robequarry::limits::{LONGEST, LONGEST_LIST, MOST_NUMBERS};

use super::border::PAIRS;
use super::loose::{is_off_chart, leads_once_round};
use super::test::{find_edges, Edges};
use crate::reply::{numbered, placed};
use crate::{Fields, Point};

pub fn border(anchor: Point, edges: &[i16], buffer: &mut [u8]) -> Fields {
    if edges.len() % 2 == 1 || edges.len() > LONGEST_LIST {
        return numbered(10);
    }
    if is_off_chart(anchor) {
        return numbered(11);
    }
    if !leads_once_round(edges) {
        return numbered(16);
    }
    let count = 4 + edges.iter().map(|&number| usize::from(number.unsigned_abs())).sum::<usize>();
    if count > LONGEST {
        return numbered(17);
    }
    let mut letters = [0; LONGEST];
    build(edges, &mut letters);
    let letters = &letters[..count];
    if !is_taken_as(anchor, letters, edges) {
        return numbered(17);
    }
    if buffer.len() < count {
        return numbered(18);
    }
    buffer[..count].copy_from_slice(letters);
    placed(0, count)
}

/// The quadrant of a direction, from up clockwise, the first direction of each included.
fn quadrant(cols: i16, rows: i16) -> usize {
    match (cols, rows) {
        (0.., 1..) => 0,
        (1.., _) => 1,
        (_, ..=-1) => 2,
        _ => 3,
    }
}

/// Writes the letters of edges that lead once round.
fn build(edges: &[i16], letters: &mut [u8]) {
    let (mut at, mut piece) = (1, 0);
    letters[0] = PAIRS[0].later;
    let mut begin = |letters: &mut [u8], at: &mut usize, to: usize| {
        while piece < to {
            piece += 1;
            letters[*at] = PAIRS[piece].later;
            *at += 1;
        }
    };
    for edge in edges.chunks_exact(2) {
        let k = quadrant(edge[0], edge[1]);
        begin(letters, &mut at, k);
        let (cols, rows) = (usize::from(edge[0].unsigned_abs()), usize::from(edge[1].unsigned_abs()));
        let (run, rise) = if k % 2 == 0 { (cols, rows) } else { (rows, cols) };
        let mut remainder = 0;
        for letter in &mut letters[at..at + run + rise] {
            let grows = remainder < run;
            *letter = if grows { PAIRS[k].earlier } else { PAIRS[k].later };
            remainder = if grows { remainder + rise } else { remainder - run };
        }
        at += run + rise;
    }
    begin(letters, &mut at, 3);
}

/// Whether the letters are an outline that is taken with this anchor and these edges.
fn is_taken_as(anchor: Point, letters: &[u8], edges: &[i16]) -> bool {
    let mut found = Edges { numbers: [0; MOST_NUMBERS], count: 0 };
    find_edges(anchor, letters, &mut found) == Ok(anchor) && found.list() == edges
}
