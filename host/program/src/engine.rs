//! What the commands ask of the library beyond a test. Everything asked here is answered by it.

use robequarry::limits::LAST_CELL;
use robequarry::{Comparison, Edges, Holder, Located, Outline, Piece, Refusal, RefusedList, Witness};

use crate::story::{Rows, Story};
use crate::walk::Point;

/// Whose outline it is on the holder, and where: the knee's, at the first place.
const PARTY: u8 = 0;
const PLACE: u8 = 0;

/// A taken outline at work on a holder.
pub struct AtWork(Holder);

impl AtWork {
    /// Draws the outline letter by letter, as the tablet does.
    pub fn of(outline: &Outline) -> Result<Self, Refusal> {
        let mut holder = Holder::new();
        holder.begin(PARTY, outline.start)?;
        for &letter in &outline.letters {
            holder.add(PARTY, letter)?;
        }
        holder.close(PARTY, PLACE)?;
        Ok(AtWork(holder))
    }

    /// The first and the last column of a row that the outline encloses; none where it has no cell there.
    pub fn row(&self, row: u16) -> Result<Option<(u16, u16)>, Refusal> {
        self.0.row(PARTY, PLACE, row)
    }

    /// The points of the hull's drawing, piece by piece as the tablet's canvas takes it; closed where it has more than one.
    pub fn drawing(&self) -> Result<Vec<(f64, f64)>, Refusal> {
        let mut points = Vec::new();
        for position in 0.. {
            match self.0.piece(PARTY, PLACE, position)? {
                Piece::Move(x, y) | Piece::Line(x, y) => points.push((x.into(), y.into())),
                Piece::Close if points.len() > 1 => points.push(points[0]),
                Piece::Close => {}
                Piece::None => break,
            }
        }
        Ok(points)
    }

    /// Where a reading lies to the outline's hull.
    pub fn reading(&self, angle: f32, load: f32) -> Result<Located, Refusal> {
        self.0.reading(PARTY, PLACE, angle, load)
    }
}

/// The cells of a taken outline, row by row as a controller answers for them.
pub fn rows(outline: &Outline) -> Result<Rows, Refusal> {
    let at_work = AtWork::of(outline)?;
    let mut rows = Rows::new();
    for row in 0..=LAST_CELL {
        if let Some((first, last)) = at_work.row(row)? {
            rows.insert(row.into(), vec![(first.into(), last.into())]);
        }
    }
    Ok(rows)
}

/// The cells that are missing from an outline, from the lowest row up, each row from the left: those that its completion adds.
pub fn missing(outline: &Outline) -> Vec<Point> {
    let added = |help: Help| Story::of(&help.completed).cells_beyond(&Story::of(outline));
    Help::of(outline).map(added).unwrap_or_default()
}

/// The outline that has an anchor and edges, clockwise from W.
pub fn border(edges: &Edges) -> Result<Outline, Refusal> {
    edges.border()
}

/// How the cells of two hulls lie.
pub fn compare<'a>(first: &'a Edges, second: &'a Edges) -> Result<Comparison<'a>, RefusedList> {
    first.compare(second)
}

/// What helps to draw a block again that is not convex.
pub struct Help {
    /// Why it is not.
    pub witness: Witness,
    /// The smallest convex block that has all its cells.
    pub completed: Outline,
}

impl Help {
    /// None where no cell is missing, and where the letters go round no block.
    pub fn of(outline: &Outline) -> Option<Self> {
        let witness = outline.witness().ok().flatten()?;
        let completed = outline.complete().expect("what has a witness has a completion");
        Some(Help { witness, completed })
    }
}
