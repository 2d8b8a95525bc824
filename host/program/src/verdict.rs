//! What the library says of an outline, in words.

use robequarry::limits::{LAST_CORNER, LONGEST, SHORTEST};
use robequarry::text::Escaped;
use robequarry::{Cell, Edges, Outline, Refusal, Verdict, Witness};

use crate::story::{LETTERS, NAMES};
use crate::walk::{clockwise, direction, start, step, Point};

/// A verdict in two parts: what it is, and where.
pub struct Said {
    pub what: String,
    pub place: String,
}

impl Said {
    pub fn of(outline: &Outline, verdict: &Verdict) -> Self {
        match verdict {
            Ok(edges) => taken(edges),
            Err(refusal) => refused(outline, *refusal),
        }
    }
}

pub fn count(n: usize, what: &str) -> String {
    match n {
        0 => format!("no {what}"),
        1 => format!("1 {what}"),
        _ => format!("{n} {what}s"),
    }
}

/// The name under which an outline of a file is spoken of. `name` may be empty.
pub fn described(number: usize, name: &str) -> String {
    match name {
        "" => format!("outline {number}"),
        name => format!("outline {number} ({})", Escaped(name)),
    }
}

pub fn at((col, row): Point) -> String {
    format!("({col}, {row})")
}

/// What a witness shows.
pub fn shown(Witness { missing, cells: [a, b, c] }: &Witness) -> String {
    if b == c {
        return format!("the cell {missing} lies between {a} and {b}, which are both marked");
    }
    format!("the cell {missing} lies in the triangle of {a}, {b}, {c}, which are all marked")
}

/// A piece by its ends and its two letters.
pub fn piece(number: usize) -> String {
    let [earlier, later] = LETTERS[number - 1].map(direction);
    format!("piece {number} ({} to {}: {earlier} and {later})", NAMES[number - 1], NAMES[number % 4])
}

fn taken(edges: &Edges) -> Said {
    let what = TAKEN.to_string();
    let place = format!("{}, anchor {}", count(edges.steps().len(), "edge"), edges.anchor());
    Said { what, place }
}

/// The corner from which a letter steps.
fn leaves(outline: &Outline, place: usize) -> Point {
    outline.letters[..place].iter().fold(start(outline), |corner, &letter| step(corner, letter))
}

fn named(outline: &Outline, place: usize) -> String {
    let letter = outline.letters[place];
    format!("letter {letter} ({}) at place {place}", direction(letter))
}

/// What a taken outline is called.
pub const TAKEN: &str = "taken";

/// What a refusal of a test or a completion means, in few words.
pub fn meaning(number: u16) -> &'static str {
    match number {
        0 => TAKEN,
        1 => "too few or too many letters",
        2 => "the start is off the chart",
        3 => "not a letter",
        4 => "the walk leaves the chart",
        5 => "the walk does not end where it started",
        6 => "the walk meets a corner twice",
        8 => "a back-step, so a cell is missing",
        9 => "a dent",
        // A test with room for every edge meets no other refusal.
        _ => "another refusal",
    }
}

/// The fields of a test's reply that the contract names for it (contract 5.2, 6.1), without the anchor.
pub struct Named {
    pub number: u16,
    pub place: Option<usize>,
    pub piece: Option<u16>,
    pub length: Option<usize>,
    pub cell: Option<Cell>,
}

pub fn fields(verdict: &Verdict) -> Named {
    let number = verdict.as_ref().err().map_or(0, |refusal| refusal.number());
    let none = Named { number, place: None, piece: None, length: None, cell: None };
    match *verdict {
        Ok(ref edges) => Named { place: Some(edges.steps().len()), ..none },
        Err(Refusal::Letter { place } | Refusal::OffChart { place } | Refusal::Touches { place }) => {
            Named { place: Some(place), ..none }
        }
        Err(Refusal::BackStep { piece, place }) => Named { place: Some(place), piece: Some(piece), ..none },
        Err(Refusal::Dent { piece, place, length, missing }) => {
            Named { place: Some(place), piece: Some(piece), length: Some(length), cell: Some(missing), ..none }
        }
        Err(_) => none,
    }
}

/// A letter as the clockwise form has it, with the corner that it then leaves.
fn read(outline: &Outline, place: usize) -> String {
    let leaves = leaves(outline, place);
    if clockwise(outline) {
        return format!("{}, from corner {},", named(outline, place), at(leaves));
    }
    // Read backward the letter leaves the corner that it came to, and has the opposite direction.
    let sent = outline.letters[place];
    let (from, turned) = (at(step(leaves, sent)), direction(sent ^ 2));
    format!("letter {sent} ({}, read backward as {turned}) at place {place}, from corner {from},", direction(sent))
}

/// Where a refusal is, in words.
fn spot(outline: &Outline, refusal: Refusal) -> String {
    match refusal {
        Refusal::Length => format!("{}; an outline has {SHORTEST} to {LONGEST}", count(outline.letters.len(), "letter")),
        Refusal::Start => format!("start {}; corners are numbered 0 to {LAST_CORNER}", at(start(outline))),
        Refusal::Letter { place } => {
            format!("byte {} at place {place}; letters are 0 right, 1 up, 2 left, 3 down", outline.letters[place])
        }
        Refusal::OffChart { place } => {
            format!("{} steps off it from corner {}", named(outline, place), at(leaves(outline, place)))
        }
        Refusal::NotClosed => {
            let last = leaves(outline, outline.letters.len());
            format!("it starts at corner {} and ends at {}", at(start(outline)), at(last))
        }
        Refusal::Touches { place } => {
            let corner = at(step(leaves(outline, place), outline.letters[place]));
            format!("{} comes to {corner} again", named(outline, place))
        }
        Refusal::BackStep { piece: number, place } => format!("{} in {}", read(outline, place), piece(number.into())),
        Refusal::Dent { piece: number, place, length, missing } => {
            let (piece, letters) = (piece(number.into()), count(length, "letter"));
            let run = match clockwise(outline) {
                true => format!("{letters} from place {place}"),
                false => format!("{letters}, counted backward from place {place},"),
            };
            format!("cell {missing} is missing; {run} in {piece}")
        }
        other => other.to_string(),
    }
}

fn refused(outline: &Outline, refusal: Refusal) -> Said {
    let number = refusal.number();
    Said { what: format!("refused, {number}: {}", meaning(number)), place: spot(outline, refusal) }
}
