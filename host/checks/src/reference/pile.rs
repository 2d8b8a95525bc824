//! A pile (contract 12): sixteen sets of cells, and each section's hull by the cells of all its layers.

use robequarry::codec::{INSIDE, OUTSIDE};
use robequarry::limits::{IMAGE, LAYERS, LONGEST_LIST, SIDE};
use robequarry::PileCall;

use super::calls::{off_chart, test_into};
use super::cells::{Enclosed, Hull};
use super::images::{image, outline_in};
use super::tracing::border_of;
use crate::reply::{numbered, said};
use crate::{Fields, Outline, Point};

pub struct Pile {
    layers: Vec<Option<Layer>>,
    passed: bool,
}

/// An outline, and the cells that it encloses.
struct Layer {
    outline: Outline,
    cells: Enclosed,
}

impl Default for Pile {
    fn default() -> Self {
        Pile { layers: (0..LAYERS).map(|_| None).collect(), passed: false }
    }
}

impl Pile {
    pub fn call(&mut self, call: &PileCall) -> Fields {
        match call {
            PileCall::Set(layer, _)
            | PileCall::SetEmpty(layer)
            | PileCall::Query(layer, _)
            | PileCall::Restore(layer, _)
                if *layer >= LAYERS =>
            {
                numbered(22)
            }
            PileCall::Set(layer, outline) => {
                let outline = Outline { start: outline.start.into(), letters: outline.letters.clone() };
                self.set(*layer, outline)
            }
            PileCall::Restore(layer, bytes) => match outline_in(bytes) {
                None => numbered(26),
                Some(outline) if outline.letters.is_empty() => {
                    self.put(*layer, None);
                    Fields::default()
                }
                Some(outline) => self.set(*layer, outline),
            },
            PileCall::SetEmpty(layer) => {
                self.put(*layer, None);
                Fields::default()
            }
            PileCall::Check => {
                let dent = self.first_dent();
                self.passed = dent.is_none();
                dent.unwrap_or_default()
            }
            PileCall::Query(..) if !self.passed => numbered(12),
            PileCall::Query(_, cell) if off_chart(Point::from(*cell)) => numbered(11),
            PileCall::Query(layer, cell) => {
                let inside = self.has(usize::from(*layer), i32::from(cell.col), i32::from(cell.row));
                said(if inside { INSIDE } else { OUTSIDE })
            }
        }
    }

    /// The image of the border of what a layer holds, or of an empty layer. None if there is no such layer.
    pub fn image(&self, layer: u8) -> Option<[u8; IMAGE]> {
        let layer = self.layers.get(usize::from(layer))?;
        Some(image(layer.as_ref().map(|layer| border_of(&layer.outline)).as_ref()))
    }

    fn set(&mut self, layer: u8, outline: Outline) -> Fields {
        let reply = test_into(outline.start, &outline.letters, &mut [0; LONGEST_LIST]);
        if reply.number == 0 {
            let cells = Enclosed::of(outline.start, &outline.letters);
            self.put(layer, Some(Layer { outline, cells }));
        }
        reply
    }

    fn put(&mut self, layer: u8, held: Option<Layer>) {
        self.layers[usize::from(layer)] = held;
        self.passed = false;
    }

    fn has(&self, layer: usize, col: i32, row: i32) -> bool {
        self.layers[layer].as_ref().is_some_and(|layer| layer.cells.has((col, row)))
    }

    /// Columns before rows, each from 0.
    fn first_dent(&self) -> Option<Fields> {
        let side = i32::from(SIDE);
        let column = |at| is_dented(|layer, row| self.has(layer, at, row));
        let row = |at| is_dented(|layer, col| self.has(layer, col, at));
        let found = |kind, at| Fields { number: 21, piece: kind, place: at as u16, ..Fields::default() };
        let columns = (0..side).find(|&at| column(at)).map(|at| found(0, at));
        columns.or_else(|| (0..side).find(|&at| row(at)).map(|at| found(1, at)))
    }
}

/// The marked cells' hull holds a cell of the section that is not marked.
fn is_dented(marked: impl Fn(usize, i32) -> bool) -> bool {
    let side = i32::from(SIDE);
    let cells = || (0..i32::from(LAYERS)).flat_map(|layer| (0..side).map(move |at| (layer, at)));
    let marks: Vec<_> = cells().filter(|&(layer, at)| marked(layer as usize, at)).collect();
    if marks.is_empty() {
        return false;
    }
    let (low, high) = (marks.iter().map(|m| m.1).min().unwrap_or(0), marks.iter().map(|m| m.1).max().unwrap_or(0));
    let hull = Hull::of(marks);
    let open = |&(layer, at): &(i32, i32)| (low..=high).contains(&at) && !marked(layer as usize, at);
    cells().filter(open).any(|cell| hull.has(cell))
}
