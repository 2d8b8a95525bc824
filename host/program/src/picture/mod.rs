//! Pictures of outlines, as SVG that stands alone: light or dark by the reader's setting, light in print, and readable without colour.

mod drawing;
mod frame;
mod labels;
mod legend;
mod plot;
mod sheet;
mod svg;

use robequarry::{Edges, Outline, Verdict};

use crate::engine::Help;
use crate::explain::{digits, wrapped};
use crate::pile::Section;
use crate::story::Story;
use crate::verdict::{count, shown, Said};
use drawing::Drawing;
use frame::Frame;
use legend::{legend, signs};
use sheet::{panels, Panel};
pub use sheet::{sheet, Tile};
use svg::Svg;

const STYLE: &str = include_str!("style.css");

/// The hatching of missing cells and the dots of added ones, in columns and rows.
const PATTERNS: &str =
    "<pattern id=\"hatch\" width=\"0.25\" height=\"0.25\" patternUnits=\"userSpaceOnUse\" patternTransform=\"rotate(45)\">\
<line class=\"hatch\" x1=\"0\" y1=\"0\" x2=\"0\" y2=\"0.25\" stroke-width=\"0.08\"/></pattern>
<pattern id=\"dots\" width=\"0.25\" height=\"0.25\" patternUnits=\"userSpaceOnUse\">\
<circle class=\"dots\" cx=\"0.125\" cy=\"0.125\" r=\"0.06\"/></pattern>";

/// What two blocks need, each with lines of its own direction.
const COMPARED: &str = "<pattern id=\"level\" width=\"1\" height=\"0.25\" patternUnits=\"userSpaceOnUse\">\
<line class=\"level\" x1=\"0\" y1=\"0.125\" x2=\"1\" y2=\"0.125\" stroke-width=\"0.08\"/></pattern>
<pattern id=\"upright\" width=\"0.25\" height=\"1\" patternUnits=\"userSpaceOnUse\">\
<line class=\"upright\" x1=\"0.125\" y1=\"0\" x2=\"0.125\" y2=\"1\" stroke-width=\"0.08\"/></pattern>";

const COMPARED_STYLE: &str = include_str!("compared.css");

/// Pixels round everything.
const MARGIN: f64 = 20.0;

/// The room of the rows' numbers and of the axis' name.
const LEFT: f64 = 56.0;

/// The room of the columns' numbers and of the axis' name.
const BELOW: f64 = 46.0;

/// The width of a column of the legend.
const COLUMN: f64 = 262.0;

/// The sides of a plot.
const MOST: f64 = 510.0;

/// The sides of each of two plots.
const SIDE_BY_SIDE: f64 = 420.0;

/// The sides of each of several sections.
const SECTION: f64 = 300.0;

/// The side of a cell.
const CELL: f64 = 56.0;

/// A picture of one outline: its name and verdict, the plot, and a legend.
pub fn picture(title: &str, outline: &Outline, verdict: &Verdict) -> String {
    let said = Said::of(outline, verdict);
    let letters = format!("{} {} {}", outline.start.col, outline.start.row, digits(&outline.letters));
    alone(title, &said, Some((letters, outline.letters.len())), &Drawing::of(outline, verdict))
}

/// The witness of an outline that lacks a cell, and no more.
pub fn witness(title: &str, outline: &Outline, help: &Help) -> String {
    let said = Said { what: "a cell is missing".to_string(), place: shown(&help.witness) };
    alone(title, &said, None, &drawing::witness(outline, help))
}

/// Two taken blocks, one upon the other.
pub fn comparison(title: &str, said: &Said, first: (&Outline, &Edges), second: (&Outline, &Edges)) -> String {
    alone(title, said, None, &drawing::comparison(first, second))
}

/// One section of a pile.
pub fn section(title: &str, section: &Section) -> String {
    alone(title, &section.said(), None, &drawing::section(section))
}

/// Some sections of a pile on a sheet.
pub fn sections(title: &str, sections: &[Section]) -> String {
    let panel = |section: &Section| {
        let Said { what, place } = section.said();
        Panel { title: section.heading(), what, place, drawing: drawing::section(section) }
    };
    panels(title, &sections.iter().map(panel).collect::<Vec<_>>(), sections.len().min(4), SECTION)
}

/// A drawing by itself.
fn alone(title: &str, said: &Said, letters: Option<(String, usize)>, drawing: &Drawing) -> String {
    let mut frame = Frame::round(&drawing.corners(), drawing.plane.columns(), MOST, CELL);
    let signs = signs(drawing, &frame);
    let width = 2.0 * MARGIN + (LEFT + frame.width()).max(2.0 * COLUMN);
    let lines = heading(title, said, letters, width - 2.0 * MARGIN);
    let top = MARGIN + 20.0 * lines.len() as f64 + 8.0;
    let keys = top + frame.height() + BELOW + 8.0;
    let height = keys + legend::height(signs.len(), 2) + MARGIN;

    let name = format!("{title}: {}, {}", said.what, said.place);
    let mut svg = match drawing.alone {
        None => Svg::new(width, height, &name, STYLE, PATTERNS),
        Some(_) => Svg::new(width, height, &name, &[STYLE, COMPARED_STYLE].concat(), &[PATTERNS, "\n", COMPARED].concat()),
    };
    for (i, (class, line)) in lines.iter().enumerate() {
        svg.words(class, MARGIN, MARGIN + 12.0 + 20.0 * i as f64, line);
    }
    let free = width - 2.0 * MARGIN - LEFT - frame.width();
    frame.put(MARGIN + LEFT + free / 2.0, top);
    plot::plot(&mut svg, drawing, &frame, true);
    legend(&mut svg, &signs, MARGIN, keys, 2, COLUMN);
    svg.end()
}

/// An outline that lacks cells beside the smallest convex block that has all of its own, in which the added cells are dotted.
pub fn beside(title: &str, outline: &Outline, verdict: &Verdict, completed: &Outline) -> String {
    let added = Story::of(completed).cells_beyond(&Story::of(outline));
    let instead = format!("Draw this instead: {} added", count(added.len(), "cell"));
    let drawn = Tile { title, outline, verdict, added: Vec::new() };
    let tiles = [drawn, Tile { title: &instead, outline: completed, verdict: &completed.test(), added }];
    sheet(&format!("{title}, and what to draw instead"), &tiles, 2, SIDE_BY_SIDE)
}

/// The lines above a plot, each with its class.
fn heading(title: &str, said: &Said, letters: Option<(String, usize)>, width: f64) -> Vec<(&'static str, String)> {
    let fits = |pixels: f64| (width / pixels) as usize;
    let mut lines: Vec<(&str, String)> = wrapped(title, fits(10.4)).into_iter().map(|line| ("title", line)).collect();
    let verdict = format!("{} - {}", said.what, said.place);
    lines.extend(wrapped(&verdict, fits(7.3)).into_iter().map(|line| ("said", line)));
    let most = fits(7.3);
    if let Some((letters, count)) = letters {
        let letters = match letters.len() <= most {
            true => letters,
            false => format!("{} ... ({count} letters)", &letters[..most - 20]),
        };
        lines.push(("letters", letters));
    }
    lines
}
