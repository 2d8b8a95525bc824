//! What the signs of a picture mean: those that it has, and no other.

use super::drawing::{Drawing, Kind};
use super::frame::Frame;
use super::plot::{arrow, badge, cross, named, step, tip, CHORD_DASHES, DASHES, EDGE, FACTOR, PIECE, TRIANGLE_DASHES};
use super::svg::{px, Svg};
use crate::story::{LETTERS, NAMES};
use crate::walk::direction;

/// Pixels from one line of a legend to the next.
pub const LINE: f64 = 22.0;

/// The room of a sign, before its words.
const SIGN: f64 = 46.0;

#[derive(Clone, Copy, PartialEq, Eq, PartialOrd, Ord)]
pub enum Sign {
    Cells,
    Both,
    First,
    Second,
    Piece(usize),
    Edges,
    FirstEdges,
    Others,
    Anchor,
    Start,
    Missing,
    Named,
    Triangle,
    Factor,
    Chord,
    Added,
    Step,
    Spot,
    Gap,
    Walk,
    Off,
}

/// The signs of a drawing, in the order of the legend.
pub fn signs(drawing: &Drawing, frame: &Frame) -> Vec<Sign> {
    let [left, right, bottom, top] = frame.chart();
    let off = left > frame.left || right < frame.right || bottom > frame.bottom || top < frame.top;
    let fault = drawing.fault.as_ref().map(|fault| &fault.kind);
    let has = !drawing.rows.is_empty();
    let alone = |which: usize| drawing.alone.as_ref().is_some_and(|alone| !alone[which].is_empty());
    let mut signs: Vec<(Sign, bool)> = vec![
        (Sign::Cells, has && drawing.alone.is_none()),
        (Sign::Both, has && drawing.alone.is_some()),
        (Sign::First, alone(0)),
        (Sign::Second, alone(1)),
    ];
    signs.extend((1..=4).map(|n| (Sign::Piece(n), drawing.pieces.iter().any(|(number, _)| *number == n))));
    signs.extend([
        (Sign::Edges, drawing.edges.len() > 1 && drawing.alone.is_none()),
        (Sign::FirstEdges, drawing.edges.len() > 1 && drawing.alone.is_some()),
        (Sign::Others, drawing.others.len() > 1),
        (Sign::Anchor, !drawing.edges.is_empty()),
        (Sign::Start, drawing.start.is_some()),
        (Sign::Missing, !drawing.missing.is_empty()),
        (Sign::Named, drawing.named.is_some()),
        (Sign::Triangle, !drawing.triangle.is_empty()),
        (Sign::Factor, !drawing.factor.is_empty()),
        (Sign::Chord, !drawing.factor.is_empty()),
        (Sign::Added, !drawing.added.is_empty()),
        (Sign::Step, matches!(fault, Some(Kind::Step(..)))),
        (Sign::Spot, matches!(fault, Some(Kind::Corner(..)))),
        (Sign::Gap, matches!(fault, Some(Kind::Gap(..)))),
        (Sign::Walk, drawing.walk.len() > 1),
        (Sign::Off, off),
    ]);
    signs.into_iter().filter(|(_, has)| *has).map(|(sign, _)| sign).collect()
}

impl Sign {
    fn words(self) -> String {
        match self {
            Sign::Cells => "marked cells: the block".to_string(),
            Sign::Both => "cells of both blocks".to_string(),
            Sign::First => "cell of the first block alone".to_string(),
            Sign::Second => "cell of the second block alone".to_string(),
            Sign::Piece(n) => {
                let [earlier, later] = LETTERS[n - 1].map(direction);
                format!("piece {n}, {} to {}: {earlier}, {later}", NAMES[n - 1], NAMES[n % 4])
            }
            Sign::Edges => "edges of the hull".to_string(),
            Sign::FirstEdges => "edges of the first hull".to_string(),
            Sign::Others => "edges of the second hull".to_string(),
            Sign::Anchor => "anchor, where the edges begin".to_string(),
            Sign::Start => "start of the outline as sent".to_string(),
            Sign::Missing => "missing cell: in the hull only".to_string(),
            Sign::Named => "the lowest one, which is named".to_string(),
            Sign::Triangle => "three marked cells round it".to_string(),
            Sign::Factor => "the dented factor".to_string(),
            Sign::Chord => "its chord".to_string(),
            Sign::Added => "cell that is added".to_string(),
            Sign::Step => "the letter that is refused".to_string(),
            Sign::Spot => "what is refused".to_string(),
            Sign::Gap => "the walk is open here".to_string(),
            Sign::Walk => "walk that is not cut in pieces".to_string(),
            Sign::Off => "off the chart".to_string(),
        }
    }

    /// Draws the sign and its words; `(x, y)` is the left end of the line's middle.
    fn draw(self, svg: &mut Svg, x: f64, y: f64) {
        let ends = ((x, y), (x + SIGN - 10.0, y));
        let middle = (x + (SIGN - 10.0) / 2.0, y);
        match self {
            Sign::Cells | Sign::Both => tile(svg, "cells", middle),
            Sign::First => tile(svg, "first", middle),
            Sign::Second => tile(svg, "second", middle),
            Sign::Off => tile(svg, "off", middle),
            Sign::Missing => tile(svg, "missing", middle),
            Sign::Added => tile(svg, "added", middle),
            Sign::Piece(n) => {
                line(svg, &format!("piece p{n}"), ends, PIECE, DASHES[n - 1]);
                badge(svg, middle, n);
            }
            Sign::Edges | Sign::FirstEdges => {
                line(svg, "edges", ends, EDGE, &[]);
                arrow(svg, "arrow", ends.0, ends.1, 0.62, 6.0);
            }
            Sign::Others => line(svg, "others", ends, EDGE, CHORD_DASHES),
            Sign::Anchor => {
                svg.open("g", &[("stroke-width", &2)]);
                svg.circle("anchor", middle, 6.0);
                svg.close();
                svg.circle("start", middle, 2.0);
            }
            Sign::Start => square(svg, "start", middle, 9.0),
            Sign::Named => named(svg, middle, 8.0),
            Sign::Factor => {
                line(svg, "factor", ends, FACTOR, &[]);
                svg.circle("point", middle, 3.5);
            }
            Sign::Triangle => {
                line(svg, "triangle", ends, EDGE, TRIANGLE_DASHES);
                tip(svg, ends.0);
                tip(svg, ends.1);
            }
            Sign::Chord => line(svg, "chord", ends, EDGE, CHORD_DASHES),
            Sign::Step => step(svg, (x + 4.0, y), (x + 26.0, y)),
            Sign::Spot => cross(svg, middle, 7.0),
            Sign::Gap => line(svg, "gap", ends, FACTOR, CHORD_DASHES),
            Sign::Walk => line(svg, "walk", ends, PIECE - 1.0, &[]),
        }
        svg.words("key", x + SIGN, y + 4.5, &self.words());
    }
}

/// Draws signs in columns of this width, and gives the height.
pub fn legend(svg: &mut Svg, signs: &[Sign], x: f64, y: f64, columns: usize, width: f64) -> f64 {
    let rows = signs.len().div_ceil(columns);
    svg.open("g", &[("class", &"legend")]);
    for (i, sign) in signs.iter().enumerate() {
        let (column, row) = (i / rows, i % rows);
        sign.draw(svg, x + width * column as f64, y + LINE * (row as f64 + 0.5));
    }
    svg.close();
    rows as f64 * LINE
}

pub fn height(signs: usize, columns: usize) -> f64 {
    signs.div_ceil(columns) as f64 * LINE
}

fn line(svg: &mut Svg, class: &str, ends: ((f64, f64), (f64, f64)), width: f64, dashes: &[f64]) {
    let dashes: Vec<String> = dashes.iter().map(|dash| px(*dash)).collect();
    let dashes = if dashes.is_empty() { "none".to_string() } else { dashes.join(" ") };
    svg.open("g", &[("stroke-width", &width), ("stroke-dasharray", &dashes)]);
    svg.path(class, &[ends.0, ends.1]);
    svg.close();
}

fn square(svg: &mut Svg, class: &str, (x, y): (f64, f64), side: f64) {
    let (x, y) = (px(x - side / 2.0), px(y - side / 2.0));
    svg.empty("rect", &[("class", &class), ("x", &x), ("y", &y), ("width", &side), ("height", &side)]);
}

/// A cell of 16 pixels, drawn as in a plot of that scale.
fn tile(svg: &mut Svg, class: &str, (x, y): (f64, f64)) {
    let place = format!("translate({} {}) scale(16)", px(x - 8.0), px(y - 8.0));
    svg.open("g", &[("transform", &place), ("stroke-width", &px(1.0 / 16.0))]);
    svg.empty("rect", &[("class", &class), ("width", &1), ("height", &1)]);
    svg.close();
}
