//! A pile from a file: each outline a layer, and the sections through them.

use std::ops::RangeInclusive;

use robequarry::limits::LAYERS;
use robequarry::{Pile, Refusal, SectionKind, Verdict};

use crate::engine;
use crate::input::Entry;
use crate::story::{holds, joined, missing, Rows};
use crate::verdict::{count, Said};
use crate::walk::Point;

/// A section through all layers (contract 12.2). Its columns are layers.
pub struct Section {
    pub kind: SectionKind,
    /// The column or the row at which it is.
    pub at: u16,
    pub marked: Rows,
}

impl Section {
    /// The section of these layers, each with the cells that it marks.
    fn of(layers: &[Rows], kind: SectionKind, at: u16) -> Self {
        let marks = |layer: &Rows, along: i32| match kind {
            SectionKind::Column => holds(layer, (at.into(), along)),
            SectionKind::Row => holds(layer, (along, at.into())),
        };
        let run = |along: i32| joined((0..).zip(layers).filter(|(_, layer)| marks(layer, along)).map(|(number, _)| number));
        let rows = bounds(layers, !across(kind)).map(|along| (along, run(along)));
        Section { kind, at, marked: rows.filter(|(_, runs)| !runs.is_empty()).collect() }
    }

    /// The cells that are missing from it, each as a layer and a row, or a layer and a column.
    pub fn missing(&self) -> Vec<Point> {
        missing(&self.marked)
    }

    pub fn title(&self) -> String {
        let (kind, _) = self.names();
        format!("The section at {kind} {}", self.at)
    }

    /// The same for a plot whose axes have no names.
    pub fn heading(&self) -> String {
        let (kind, along) = self.names();
        format!("At {kind} {}: layers across, {along}s up", self.at)
    }

    /// What it is at, and what its rows are.
    fn names(&self) -> (&'static str, &'static str) {
        match self.kind {
            SectionKind::Column => ("column", "row"),
            SectionKind::Row => ("row", "column"),
        }
    }

    pub fn said(&self) -> Said {
        let missing = self.missing();
        let (_, along) = self.names();
        match missing.first() {
            None => Said { what: "not dented".to_string(), place: "no cell is missing".to_string() },
            Some((layer, other)) => {
                let more = match missing.len() {
                    1 => String::new(),
                    n => format!("; {} in all", count(n, "cell")),
                };
                Said { what: "dented".to_string(), place: format!("layer {layer} lacks {along} {other}{more}") }
            }
        }
    }
}

/// Whether sections of a kind are numbered across the chart, by columns.
fn across(kind: SectionKind) -> bool {
    kind == SectionKind::Column
}

/// The columns, or the rows, between which all cells of some layers lie.
fn bounds(layers: &[Rows], columns: bool) -> RangeInclusive<i32> {
    let runs = || layers.iter().flatten().filter_map(|(_, runs)| Some((runs.first()?.0, runs.last()?.1)));
    let rows = || layers.iter().flat_map(|layer| layer.keys().copied());
    let (low, high) = match columns {
        true => (runs().map(|run| run.0).min(), runs().map(|run| run.1).max()),
        false => (rows().min(), rows().max()),
    };
    low.unwrap_or(0)..=high.unwrap_or(0)
}

/// Why a file is no pile.
pub enum Refused {
    /// An outline is refused: its layer.
    Layer(usize, Refusal),
    /// The file has more outlines than a pile has layers.
    TooMany,
}

/// Sixteen layers from a file. An outline without letters is an empty layer, and so are those that the file does not have.
pub struct Layers {
    pile: Pile,
    rows: Vec<Rows>,
}

impl Layers {
    /// Sets the layers in the library's pile, and says each verdict; an empty layer has none.
    pub fn set(entries: &[Entry], mut say: impl FnMut(usize, &Entry, Option<&Verdict>)) -> Result<Self, Refused> {
        let (mut pile, mut rows) = (Pile::new(), vec![Rows::new(); LAYERS.into()]);
        if entries.len() > rows.len() {
            return Err(Refused::TooMany);
        }
        let mut refused = None;
        for (layer, entry) in entries.iter().enumerate() {
            if entry.outline.letters.is_empty() {
                say(layer, entry, None);
                continue;
            }
            say(layer, entry, Some(&entry.outline.test()));
            match pile.set(layer as u8, &entry.outline) {
                Ok(_) => rows[layer] = engine::rows(&entry.outline).expect("what a pile takes a holder takes"),
                Err(refusal) => refused = refused.or(Some(Refused::Layer(layer, refusal))),
            }
        }
        match refused {
            Some(refused) => Err(refused),
            None => Ok(Layers { pile, rows }),
        }
    }

    /// The library's check.
    pub fn check(&mut self) -> Result<(), Refusal> {
        self.pile.check()
    }

    pub fn section(&self, kind: SectionKind, at: u16) -> Section {
        Section::of(&self.rows, kind, at)
    }

    /// Every dented section, columns and then rows. One that marks no cell is not dented.
    pub fn dented(&self) -> Vec<Section> {
        self.sections().filter(|section| !section.missing().is_empty()).collect()
    }

    /// The section at a column, and that at a row, with the most marked cells.
    pub fn largest(&self) -> [Section; 2] {
        [SectionKind::Column, SectionKind::Row].map(|kind| {
            let cells = |section: &Section| section.marked.values().flatten().map(|(a, b)| b - a + 1).sum::<i32>();
            let of_kind = self.sections().filter(|section| section.kind == kind);
            // The first of those that have as many.
            of_kind.reduce(|best, next| if cells(&next) > cells(&best) { next } else { best }).expect("there are sections")
        })
    }

    fn sections(&self) -> impl Iterator<Item = Section> + '_ {
        let kinds = [SectionKind::Column, SectionKind::Row].into_iter();
        let numbers = |kind| bounds(&self.rows, across(kind));
        kinds.flat_map(move |kind| numbers(kind).map(move |at| self.section(kind, at as u16)))
    }
}
