//! The library's pile in plain Rust: a layer as the runs of its rows, a section by the lines through the ends of two runs. What it keeps
//! is as large as the library's but for the place of a check in steps. The calls that are measured are no part of their caller.

use robequarry::codec::{INSIDE, OUTSIDE};
use robequarry::limits::{IMAGE, LAST_CELL, LAYERS, LONGEST, MOST_NUMBERS};
use robequarry::PileCall;

use super::chart::WIDTH;
use super::climb::Columns;
use super::completion::round;
use super::images;
use super::spans::{Spans, ROWS};
use super::test::{find_edges, Edges};
use crate::reply::{numbered, said, taken};
use crate::{Fields, Point};

const DEPTH: usize = LAYERS as usize;

pub struct Pile {
    layers: [Spans; DEPTH],
    passed: bool,
}

impl Default for Pile {
    fn default() -> Self {
        Pile { layers: [Spans::NONE; DEPTH], passed: false }
    }
}

impl Pile {
    pub fn call(&mut self, call: &PileCall) -> Fields {
        match call {
            PileCall::Set(layer, outline) => self.set(*layer, outline.start.into(), &outline.letters),
            PileCall::SetEmpty(layer) => self.empty(*layer),
            PileCall::Check => self.check(),
            PileCall::Query(layer, cell) => self.query(*layer, (*cell).into()),
            PileCall::Restore(layer, image) => self.restore(*layer, image),
        }
    }

    #[inline(never)]
    pub fn set(&mut self, layer: u8, start: Point, letters: &[u8]) -> Fields {
        let Some(spans) = self.layers.get_mut(usize::from(layer)) else {
            return numbered(22);
        };
        let mut edges = Edges { numbers: [0; MOST_NUMBERS], count: 0 };
        match find_edges(start, letters, &mut edges) {
            Err(refusal) => refusal,
            Ok(anchor) => {
                spans.put(start, letters);
                self.passed = false;
                taken(edges.count, anchor)
            }
        }
    }

    #[inline(never)]
    pub fn empty(&mut self, layer: u8) -> Fields {
        let Some(spans) = self.layers.get_mut(usize::from(layer)) else {
            return numbered(22);
        };
        *spans = Spans::NONE;
        self.passed = false;
        numbered(0)
    }

    #[inline(never)]
    pub fn query(&self, layer: u8, cell: Point) -> Fields {
        let Some(spans) = self.layers.get(usize::from(layer)) else {
            return numbered(22);
        };
        if !self.passed {
            return numbered(12);
        }
        if cell.col > LAST_CELL || cell.row > LAST_CELL {
            return numbered(11);
        }
        said(if spans.has(cell) { INSIDE } else { OUTSIDE })
    }

    /// The image of a layer is written to `buffer`.
    #[inline(never)]
    pub fn save(&self, layer: u8, buffer: &mut [u8]) -> Fields {
        let Some(spans) = self.layers.get(usize::from(layer)) else {
            return numbered(22);
        };
        let mut letters = [0; LONGEST];
        let Some((start, count)) = border(spans, &mut letters) else {
            return numbered(27);
        };
        if buffer.len() < IMAGE {
            return numbered(18);
        }
        images::write(start, &letters[..count], buffer);
        numbered(0)
    }

    #[inline(never)]
    pub fn restore(&mut self, layer: u8, bytes: &[u8]) -> Fields {
        if layer >= LAYERS {
            return numbered(22);
        }
        match images::read(bytes) {
            None => numbered(26),
            Some((_, [])) => self.empty(layer),
            Some((start, letters)) => self.set(layer, start, letters),
        }
    }

    #[inline(never)]
    pub fn check(&mut self) -> Fields {
        let dented = |kind, at| Fields { number: 21, piece: kind, place: at as u16, ..Fields::default() };
        let reach = self.reach();
        let column = first_dented(|at| self.column(&reach, at as u8));
        let dent = column.map(|at| dented(0, at)).or_else(|| first_dented(|at| self.row(at)).map(|at| dented(1, at)));
        self.passed = dent.is_none();
        dent.unwrap_or_default()
    }

    /// The section at a column. The rows of a layer with that column are among those that it reaches.
    fn column(&self, reach: &Section, col: u8) -> Section {
        let mut section = Section::EMPTY;
        for (l, spans) in self.layers.iter().enumerate() {
            let has = |&row: &usize| spans.first[row] <= col && col < spans.past[row];
            let rows = usize::from(reach.lo[l])..usize::from(reach.past[l]);
            if let Some(low) = rows.clone().find(has) {
                let high = (low..rows.end).rev().find(has).unwrap_or(low);
                (section.lo[l], section.past[l]) = (low as u8, high as u8 + 1);
            }
        }
        section
    }

    fn row(&self, row: usize) -> Section {
        let of = |column: fn(&Spans) -> &[u8; ROWS]| self.layers.each_ref().map(|spans| column(spans)[row]);
        Section { lo: of(|spans| &spans.first), past: of(|spans| &spans.past) }
    }

    /// The rows of each layer that have a cell.
    fn reach(&self) -> Section {
        let mut reach = Section::EMPTY;
        for (l, spans) in self.layers.iter().enumerate() {
            let has_cell = |&row: &usize| spans.first[row] < spans.past[row];
            if let Some(low) = (0..ROWS).find(has_cell) {
                let high = (low..ROWS).rev().find(has_cell).unwrap_or(low);
                (reach.lo[l], reach.past[l]) = (low as u8, high as u8 + 1);
            }
        }
        reach
    }
}

/// Writes the border of the outline whose rows these are: its start and the count of its letters, which is 0 for rows without cells. None if
/// a test takes no outline with these rows.
fn border(spans: &Spans, letters: &mut [u8; LONGEST]) -> Option<(Point, usize)> {
    let has_cell = |row: &usize| spans.first[*row] < spans.past[*row];
    let Some(bottom) = (0..ROWS).find(has_cell) else {
        return (*spans == Spans::NONE).then_some((Point::new(0, 0), 0));
    };
    let top = (0..ROWS).rev().find(has_cell).map_or(bottom, |last| last) + 1;
    let west = (bottom..top).min_by_key(|&row| spans.first[row])?;
    let (mut first, mut last): (Columns, Columns) = ([0; WIDTH], [0; WIDTH]);
    for row in bottom..top {
        (first[row], last[row]) = (spans.first[row].into(), spans.past[row].into());
    }
    // The letters up and down, and those across from each row to the next.
    let across = |ends: &Columns| (bottom + 1..top).map(|row| ends[row].abs_diff(ends[row - 1]) as usize).sum::<usize>();
    let ends = [bottom, top - 1].map(|row| first[row].abs_diff(last[row]) as usize);
    let count = 2 * (top - bottom) + across(&first) + across(&last) + ends[0] + ends[1];
    let written = letters.get_mut(..count)?;
    round(&first, &last, bottom, top, west, written);
    let start = Point::new(spans.first[west].into(), west as u16);
    find_edges(start, written, &mut Edges { numbers: [0; MOST_NUMBERS], count: 0 }).ok()?;
    let mut own = Spans::NONE;
    own.put(start, written);
    (own == *spans).then_some((start, count))
}

/// Of each layer the first marked number, and the one after the last; the same where there is none.
#[derive(Clone, Copy, PartialEq)]
struct Section {
    lo: [u8; DEPTH],
    past: [u8; DEPTH],
}

impl Section {
    const EMPTY: Section = Section { lo: [0; DEPTH], past: [0; DEPTH] };

    fn is_clear(&self) -> bool {
        (0..DEPTH).all(|j| self.is_whole(j))
    }

    /// The hull has no cell in layer `j`, or all of them are in the layer's run.
    fn is_whole(&self, j: usize) -> bool {
        let run = |l: usize| (u32::from(self.lo[l]), u32::from(self.past[l]));
        let (first, past) = run(j);
        let (mut low, mut high) = if first < past { (first, past) } else { (ROWS as u32, 0) };
        for i in 0..j {
            let (lo, hi) = run(i);
            if lo >= hi {
                continue;
            }
            for k in j + 1..DEPTH {
                let (other_lo, other_hi) = run(k);
                if other_lo >= other_hi {
                    continue;
                }
                let (near, far, d) = ((j - i) as u32, (k - j) as u32, (k - i) as u32);
                let below = far * lo + near * other_lo;
                let over = far * (hi - 1) + near * (other_hi - 1);
                // A quotient is computed only where it moves a bound.
                if below + d <= d * low {
                    low = below.div_ceil(d);
                }
                if d * high <= over {
                    high = over / d + 1;
                }
            }
        }
        high <= low || (first <= low && high <= past)
    }
}

/// The first place whose section is dented. A section that is the same as the one before it is not tested again.
fn first_dented(section: impl Fn(usize) -> Section) -> Option<usize> {
    let mut last = section(0);
    if !last.is_clear() {
        return Some(0);
    }
    (1..ROWS).find(|&at| {
        let next = section(at);
        let is_dented = next != last && !next.is_clear();
        last = next;
        is_dented
    })
}
