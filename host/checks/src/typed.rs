//! The typed calls of the crate `robequarry`, with their answers as the fields of the replies from which these came.

use robequarry::codec::{CLOSE, COLUMNS, INSIDE, LINE, MOVE, NONE, OUTSIDE, SAME, TAKEN, UNDECIDED};
use robequarry::{
    Action, Answer, Call, Cell, Closed, Holder, Image, Located, Outline, Piece, Pile, PileCall, Refusal, Reply, SectionKind,
    Taken,
};

use crate::reply::{self, numbered, placed, said};
use crate::Fields;

/// An answer to a call on a holder.
pub fn answered(reply: Reply) -> Fields {
    match reply {
        Ok(Answer::Done) => numbered(0),
        Ok(Answer::Inside) => said(INSIDE),
        Ok(Answer::Outside) => said(OUTSIDE),
        Ok(Answer::Undecided) => said(UNDECIDED),
        Ok(Answer::Columns { first, last }) => columns(first, last),
        Ok(Answer::None) => said(NONE),
        Ok(Answer::Move(cell)) => Fields { col: cell.col, row: cell.row, ..said(MOVE) },
        Ok(Answer::Line(cell)) => Fields { col: cell.col, row: cell.row, ..said(LINE) },
        Ok(Answer::Close) => said(CLOSE),
        Ok(Answer::Taken(outline)) => Fields { word: TAKEN, ..taken(outline) },
        Ok(Answer::Same(outline)) => Fields { word: SAME, ..taken(outline) },
        Err(refusal) => refused(refusal),
    }
}

pub fn refused(refusal: Refusal) -> Fields {
    let number = refusal.number();
    match refusal {
        Refusal::Letter { place } | Refusal::OffChart { place } | Refusal::Touches { place } => placed(number, place),
        Refusal::BackStep { piece, place } => Fields { piece, ..placed(number, place) },
        Refusal::Dent { piece, place, length, missing } => {
            Fields { piece, length: length as u16, col: missing.col, row: missing.row, ..placed(number, place) }
        }
        Refusal::Section { kind, at } => Fields { piece: u16::from(kind == SectionKind::Row), ..placed(number, at.into()) },
        _ => numbered(number),
    }
}

/// A call on a holder by its own function.
pub fn holder_call(holder: &mut Holder, Call { party, action }: Call) -> Fields {
    let done = |result: Result<(), Refusal>| result.map_or_else(refused, |()| numbered(0));
    match action {
        Action::Begin(start) => done(holder.begin(party, start)),
        Action::Add(letter) => done(holder.add(party, letter)),
        Action::Drop => done(holder.drop_draft(party)),
        Action::Clear { place } => done(holder.clear(party, place)),
        Action::Close { place } => holder.close(party, place).map_or_else(refused, closed),
        Action::Query { place, cell } => holder.query(party, place, cell).map_or_else(refused, inside),
        Action::Row { place, row } => match holder.row(party, place, row) {
            Ok(Some((first, last))) => columns(first, last),
            Ok(None) => said(NONE),
            Err(refusal) => refused(refusal),
        },
        Action::Reading { place, reading } => match holder.reading(party, place, reading.angle, reading.load) {
            Ok(Located::Inside) => said(INSIDE),
            Ok(Located::Outside) => said(OUTSIDE),
            Ok(Located::Undecided) => said(UNDECIDED),
            Err(refusal) => refused(refusal),
        },
        Action::Piece { place, position } => match holder.piece(party, place, position) {
            Ok(Piece::Move(x, y)) => Fields { col: cell(x, y).col, row: cell(x, y).row, ..said(MOVE) },
            Ok(Piece::Line(x, y)) => Fields { col: cell(x, y).col, row: cell(x, y).row, ..said(LINE) },
            Ok(Piece::Close) => said(CLOSE),
            Ok(Piece::None) => said(NONE),
            Err(refusal) => refused(refusal),
        },
    }
}

/// A call on a pile by its own function.
pub fn pile_call(pile: &mut Pile, call: &PileCall) -> Fields {
    let done = |result: Result<(), Refusal>| result.map_or_else(refused, |()| numbered(0));
    match call {
        PileCall::Set(layer, outline) => set(pile, *layer, outline),
        PileCall::SetEmpty(layer) => done(pile.empty(*layer)),
        PileCall::Check => done(pile.check()),
        PileCall::Query(layer, cell) => pile.query(*layer, *cell).map_or_else(refused, inside),
        PileCall::Restore(layer, image) => restore(pile, *layer, image),
    }
}

/// Its answer does not name the anchor and the edges, which a set of the same outline does.
fn restore(pile: &mut Pile, layer: u8, image: &[u8]) -> Fields {
    let outline = Image::try_from(image).ok().and_then(|image| image.outline().cloned());
    match (pile.restore(layer, image), outline) {
        (Err(refusal), _) => refused(refusal),
        (Ok(()), None) => numbered(0),
        (Ok(()), Some(outline)) => set(&mut Pile::new(), layer, &outline),
    }
}

fn set(pile: &mut Pile, layer: u8, outline: &Outline) -> Fields {
    pile.set(layer, outline).map_or_else(refused, taken)
}

fn inside(inside: bool) -> Fields {
    said(if inside { INSIDE } else { OUTSIDE })
}

fn columns(first: u16, last: u16) -> Fields {
    Fields { col: first, row: last, ..said(COLUMNS) }
}

fn taken(Taken { edges, anchor }: Taken) -> Fields {
    reply::taken(edges, anchor.into())
}

/// What is at work now.
fn closed(Closed { same, anchor, edges }: Closed) -> Fields {
    Fields { word: if same { SAME } else { TAKEN }, ..taken(Taken { edges, anchor }) }
}

/// What a restore on a holder answers.
pub fn restored(reply: Result<Option<Closed>, Refusal>) -> Fields {
    reply.map_or_else(refused, |work| work.map_or_else(|| numbered(0), closed))
}

/// The cell whose centre a point is.
fn cell(x: f32, y: f32) -> Cell {
    Cell::new((x - 0.5) as u16, (y - 0.5) as u16)
}
