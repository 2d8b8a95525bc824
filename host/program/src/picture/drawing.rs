//! What a picture of an outline shows, in corners and cells.

use robequarry::limits::{LAST_CORNER, LAYERS, SIDE};
use robequarry::{Cell, Edges, Outline, Refusal, SectionKind, Verdict};

use crate::engine::{missing, AtWork, Help};
use crate::explain::told;
use crate::pile::Section;
use crate::story::{Piece, Rows, Story, NAMES};
use crate::verdict::at;
use crate::walk::{corner_cells, corners, start, step, walkable, Point};

/// What is drawn on: the chart, or a section through the layers of a pile.
#[derive(Clone, Copy, Default, PartialEq)]
pub enum Plane {
    #[default]
    Chart,
    Section(SectionKind),
}

impl Plane {
    /// How many columns of cells it has. Rows are always as many as the chart's.
    pub fn columns(self) -> u16 {
        match self {
            Plane::Chart => SIDE,
            Plane::Section(_) => LAYERS.into(),
        }
    }

    /// The names of its two axes.
    pub fn axes(self) -> [&'static str; 2] {
        match self {
            Plane::Chart => ["column (knee angle)", "row (shin load)"],
            Plane::Section(SectionKind::Column) => ["layer (walking speed)", "row (shin load)"],
            Plane::Section(SectionKind::Row) => ["layer (walking speed)", "column (knee angle)"],
        }
    }
}

#[derive(Default)]
pub struct Drawing {
    pub plane: Plane,
    /// The enclosed cells.
    pub rows: Rows,
    /// Pieces, by number, with their corners.
    pub pieces: Vec<(usize, Vec<Point>)>,
    /// Corners of what is drawn of the walk but belongs to no piece.
    pub walk: Vec<Point>,
    /// W, N, E and S.
    pub names: Vec<(&'static str, Point)>,
    pub start: Option<Point>,
    /// The points of the hull's drawing, centres of cells in columns and rows; the anchor's is at both ends.
    pub edges: Vec<(f64, f64)>,
    pub missing: Vec<Point>,
    /// The lowest missing cell.
    pub named: Option<Point>,
    /// Three enclosed cells whose triangle holds it.
    pub triangle: Vec<Point>,
    /// The enclosed cells that another drawing lacks, which this one completes.
    pub added: Vec<Point>,
    /// Of two blocks, the cells of the first alone and of the second alone; `rows` are those of both.
    pub alone: Option<[Vec<Point>; 2]>,
    /// The points of the second block's hull.
    pub others: Vec<(f64, f64)>,
    /// The cells along one copy of the dented factor. Its chord joins the ends.
    pub factor: Vec<Point>,
    pub fault: Option<Fault>,
}

/// Why the outline was refused, where that is at one spot.
pub struct Fault {
    pub kind: Kind,
    pub label: String,
}

pub enum Kind {
    /// The step from a corner to the next.
    Step(Point, Point),
    /// A corner.
    Corner(Point),
    /// From where the walk ends to where it started.
    Gap(Point, Point),
}

impl Drawing {
    pub fn of(outline: &Outline, verdict: &Verdict) -> Self {
        if told(verdict) {
            block(outline, verdict)
        } else {
            walk(outline, verdict)
        }
    }

    /// Every corner that is drawn; of a cell, its four.
    pub fn corners(&self) -> Vec<Point> {
        let cell = |&(col, row): &Point| [(col, row), (col + 1, row + 1)];
        let mut all: Vec<Point> =
            self.walk.iter().chain(self.pieces.iter().flat_map(|(_, corners)| corners)).copied().collect();
        let points = self.edges.iter().chain(&self.others);
        let corner_cells: Vec<Point> = points.map(|&(x, y)| (x as i32, y as i32)).collect();
        all.extend(self.missing.iter().chain(&corner_cells).flat_map(cell));
        if self.pieces.is_empty() {
            let run = |(&row, runs): (&i32, &Vec<(i32, i32)>)| [(runs[0].0, row), (runs[runs.len() - 1].1, row)];
            all.extend(self.rows.iter().flat_map(run).flat_map(|end| cell(&end)));
        }
        all.extend(self.start);
        match self.fault {
            Some(Fault { kind: Kind::Step(a, b) | Kind::Gap(a, b), .. }) => all.extend([a, b]),
            Some(Fault { kind: Kind::Corner(corner), .. }) => all.push(corner),
            None => {}
        }
        all
    }
}

/// A block, three of its cells and the missing cell in their triangle.
pub fn witness(outline: &Outline, help: &Help) -> Drawing {
    let point = |cell: Cell| (cell.col.into(), cell.row.into());
    let named = point(help.witness.missing);
    Drawing {
        rows: Story::of(outline).rows,
        missing: vec![named],
        named: Some(named),
        triangle: help.witness.cells.map(point).to_vec(),
        ..Drawing::default()
    }
}

/// Two taken blocks, one upon the other.
pub fn comparison(first: (&Outline, &Edges), second: (&Outline, &Edges)) -> Drawing {
    let (one, other) = (Story::of(first.0), Story::of(second.0));
    let alone = [one.cells_beyond(&other), other.cells_beyond(&one)];
    let centres = |edges: &Edges| {
        let centre = |(col, row): Point| (f64::from(col) + 0.5, f64::from(row) + 0.5);
        corner_cells(edges).into_iter().map(centre).collect()
    };
    Drawing {
        rows: one.common(&other),
        alone: Some(alone),
        edges: centres(first.1),
        others: centres(second.1),
        ..Drawing::default()
    }
}

/// A section of a pile, with the cells that are missing from it.
pub fn section(section: &Section) -> Drawing {
    let missing = section.missing();
    let named = missing.first().copied();
    Drawing { plane: Plane::Section(section.kind), rows: section.marked.clone(), missing, named, ..Drawing::default() }
}

/// Of an outline past refusals 1 to 6: its block.
fn block(outline: &Outline, verdict: &Verdict) -> Drawing {
    let story = Story::of(outline);
    let piece = |piece: &Piece| (piece.number, story.corners_of(piece.from, piece.letters.len()));
    let mut drawing = Drawing { rows: story.rows.clone(), start: Some(start(outline)), ..Drawing::default() };
    drawing.names = story.pieces.iter().zip(NAMES).map(|(piece, name)| (name, story.corners[piece.from])).collect();
    drawing.pieces = story.pieces.iter().map(piece).collect();
    match verdict {
        Ok(_) => {
            let drawn = AtWork::of(outline).and_then(|at_work| at_work.drawing());
            drawing.edges = drawn.expect("what a test takes a holder takes, and draws");
        }
        Err(refusal) => {
            drawing.missing = missing(outline);
            let point = |cell: Cell| (cell.col.into(), cell.row.into());
            let Help { witness, .. } = Help::of(outline).expect("a block that is refused lacks a cell");
            drawing.named = Some(point(witness.missing));
            drawing.triangle = witness.cells.map(point).to_vec();
            reason(&mut drawing, &story, *refusal);
        }
    }
    drawing
}

/// Marks a dent or a back-step.
fn reason(drawing: &mut Drawing, story: &Story, refusal: Refusal) {
    match refusal {
        Refusal::Dent { piece, place, length, .. } => {
            drawing.factor = story.cells_of(piece.into(), story.on_border(place), length);
        }
        Refusal::BackStep { piece, place } => {
            let at = story.on_border(place);
            let kind = Kind::Step(story.corners[at], story.corners[at + 1]);
            drawing.fault = Some(Fault { kind, label: format!("place {place}") });
            // The pieces are known up to the back-step; the rest is drawn plain.
            let known = usize::from(piece);
            let (from, count) = (story.pieces[known - 1].from, story.border.len());
            drawing.pieces.truncate(known);
            drawing.pieces[known - 1].1 = story.corners_of(from, (at + count - from) % count);
            drawing.walk = story.corners_of(at, count - at);
        }
        _ => unreachable!("no other refusal is of a block"),
    }
}

/// The walk of an outline that is refused by one of 1 to 6.
fn walk(outline: &Outline, verdict: &Verdict) -> Drawing {
    let met = walkable(outline);
    let up_to = |place: usize| met[..=place.min(met.len() - 1)].to_vec();
    let (walk, kind, label) = match verdict {
        Err(Refusal::Start) => {
            let off = i32::from(LAST_CORNER) + 1;
            let near = Kind::Corner((met[0].0.min(off), met[0].1.min(off)));
            let fault = Some(Fault { kind: near, label: format!("start {}", at(met[0])) });
            return Drawing { fault, ..Drawing::default() };
        }
        Err(Refusal::Letter { place }) => {
            // The byte may stand behind a letter that leaves the chart.
            let walk = corners(met[0], &outline.letters[..*place]);
            let corner = Kind::Corner(walk[*place]);
            (walk, corner, format!("byte {}, place {place}", outline.letters[*place]))
        }
        Err(Refusal::OffChart { place } | Refusal::Touches { place }) => {
            let walk = up_to(*place);
            let from = walk[walk.len() - 1];
            (walk, Kind::Step(from, step(from, outline.letters[*place])), format!("place {place}"))
        }
        Err(Refusal::NotClosed) => (met.clone(), Kind::Gap(met[met.len() - 1], met[0]), "open".to_string()),
        _ => return Drawing { start: Some(met[0]), walk: met, ..Drawing::default() },
    };
    Drawing { start: Some(met[0]), walk, fault: Some(Fault { kind, label }), ..Drawing::default() }
}
