//! Many outlines on one sheet, with one legend for all of them.

use robequarry::{Outline, Verdict};

use super::drawing::Drawing;
use super::frame::Frame;
use super::legend::{self, legend, signs, Sign};
use super::plot::plot;
use super::svg::Svg;
use super::{COLUMN, MARGIN, PATTERNS, STYLE};
use crate::explain::wrapped;
use crate::verdict::Said;
use crate::walk::Point;

/// The room of the numbers beside and below a plot.
const NUMBERS: f64 = 30.0;

/// The room of a tile's name and verdict.
const HEAD: f64 = 58.0;

/// The side of a cell.
const CELL: f64 = 40.0;

/// One of the outlines of a sheet.
pub struct Tile<'a> {
    pub title: &'a str,
    pub outline: &'a Outline,
    pub verdict: &'a Verdict,
    /// Cells of the block that are marked as added.
    pub added: Vec<Point>,
}

/// A drawing with its name and what is said of it.
pub struct Panel {
    pub title: String,
    pub what: String,
    pub place: String,
    pub drawing: Drawing,
}

impl Panel {
    fn of(tile: &Tile) -> Self {
        let said = Said::of(tile.outline, tile.verdict);
        let drawing = Drawing { added: tile.added.clone(), ..Drawing::of(tile.outline, tile.verdict) };
        Panel { title: tile.title.to_string(), what: said.what, place: said.place, drawing }
    }
}

/// A sheet with so many tiles in a row; `most` is the side of a plot.
pub fn sheet(title: &str, tiles: &[Tile], columns: usize, most: f64) -> String {
    panels(title, &tiles.iter().map(Panel::of).collect::<Vec<_>>(), columns, most)
}

/// The same of any drawings.
pub fn panels(title: &str, tiles: &[Panel], columns: usize, most: f64) -> String {
    let drawings: Vec<&Drawing> = tiles.iter().map(|tile| &tile.drawing).collect();
    let frame = |drawing: &&Drawing| Frame::round(&drawing.corners(), drawing.plane.columns(), most, CELL);
    let mut frames: Vec<Frame> = drawings.iter().map(frame).collect();
    let width = NUMBERS + most + MARGIN;
    let end = place(&mut frames, columns, width, most);
    let keys = keys(&drawings, &frames);

    let whole = MARGIN + width * columns as f64;
    let key_columns = (((whole - 2.0 * MARGIN) / COLUMN) as usize).max(1);
    let height = end + 16.0 + legend::height(keys.len(), key_columns) + MARGIN;
    let mut svg = Svg::new(whole, height, title, STYLE, PATTERNS);
    for (i, (tile, (drawing, frame))) in tiles.iter().zip(drawings.iter().zip(&frames)).enumerate() {
        svg.open("g", &[("id", &format!("tile-{i}"))]);
        heading(&mut svg, tile, MARGIN + width * (i % columns) as f64, frame.y - HEAD, width - MARGIN);
        plot(&mut svg, drawing, frame, false);
        svg.close();
    }
    legend(&mut svg, &keys, MARGIN, end + 16.0, key_columns, COLUMN);
    svg.end()
}

/// Puts the frames in rows, each in the middle of its tile, and gives where the last row ends.
fn place(frames: &mut [Frame], columns: usize, width: f64, most: f64) -> f64 {
    let mut top = MARGIN;
    for row in frames.chunks_mut(columns) {
        let height = row.iter().map(Frame::height).fold(0.0, f64::max);
        for (column, frame) in row.iter_mut().enumerate() {
            let x = MARGIN + width * column as f64 + NUMBERS + (most - frame.width()) / 2.0;
            frame.put(x, top + HEAD);
        }
        top += HEAD + height + NUMBERS + 10.0;
    }
    top - 10.0
}

/// The signs of all drawings, each once.
fn keys(drawings: &[&Drawing], frames: &[Frame]) -> Vec<Sign> {
    let mut keys: Vec<Sign> = drawings.iter().zip(frames).flat_map(|(drawing, frame)| signs(drawing, frame)).collect();
    keys.sort_unstable();
    keys.dedup();
    keys
}

/// A tile's name and its verdict in two lines.
fn heading(svg: &mut Svg, tile: &Panel, x: f64, y: f64, width: f64) {
    let fits = (width / 7.4) as usize;
    let place = tile.place.split(';').next().unwrap_or_default();
    svg.words("tile", x, y + 12.0, &wrapped(&tile.title, fits)[0]);
    for (line, words) in wrapped(&tile.what, fits).iter().chain(&wrapped(place, fits)).take(2).enumerate() {
        svg.words("said", x, y + 31.0 + 16.0 * line as f64, words);
    }
}
