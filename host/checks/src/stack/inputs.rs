//! The inputs whose need of stack is measured, the same in each run.

use robequarry::limits::{
    CALL, IMAGE, LAST_CORNER, LAST_LETTER, LAYERS, LONGEST, LONGEST_LIST, PARTIES, PLACES, REPLY, SHORTEST, SIDE,
    WITNESS_NUMBERS,
};
use robequarry::raw::{HolderMemory, PileMemory};
use robequarry::{Action, Call, Cell, PileCall, Reading};

use crate::case::{Asked, Case, Polygon};
use crate::draw::{reversed, round_outline, whole_chart, with_a_cell_flipped, Shape};
use crate::images::{PileStep, Step};
use crate::live::fresh;
use crate::random::Random;
use crate::reference::calls;
use crate::reference::images::image;
use crate::{garbage, images, piles, polygons, scripts, Outline, Point};

const SEED: u64 = 1;

/// How many inputs of each kind are drawn, beside those that are made on purpose.
const DRAWN: usize = 100;

pub fn all() -> Vec<Case> {
    let mut random = Random::new(SEED);
    let outlines = outlines(&mut random);
    let mut cases: Vec<Case> = outlines.iter().flat_map(tests).collect();
    cases.extend(outlines.iter().flat_map(helps));
    cases.extend(loose_queries(&outlines));
    cases.extend(comparisons(&outlines));
    cases.extend(outlines.iter().map(draw_and_ask));
    cases.extend(outlines.iter().flat_map(pieces));
    for _ in 0..DRAWN {
        cases.push(garbage::spoilt_test(&mut random));
        cases.push(garbage::spoilt_help(&mut random));
        cases.push(garbage::loose(&mut random));
        cases.push(garbage::round_walk(&mut random));
        cases.push(polygons::loose(&mut random));
        cases.push(garbage::border(&mut random));
        cases.push(polygons::border(&mut random));
        cases.push(polygons::pair(&mut random));
        cases.push(scripts::script(&mut random));
    }
    cases
}

/// Lists of calls on a pile: every outline as a layer, with calls that are refused; and lists that are drawn.
pub fn piles() -> Vec<Vec<PileCall>> {
    let mut random = Random::new(SEED);
    let layer = |i: usize| (i % usize::from(LAYERS)) as u8;
    let mut calls = Vec::new();
    for (i, outline) in outlines(&mut random).into_iter().enumerate() {
        let cell = outline.start.into();
        calls.push(PileCall::Set(layer(i), robequarry::Outline::new(outline.start.into(), outline.letters)));
        calls.extend([PileCall::Check, PileCall::Query(layer(i), cell), PileCall::Query(LAYERS, cell)]);
    }
    calls.extend((0..=LAYERS).map(PileCall::SetEmpty));
    calls.extend([PileCall::Check, PileCall::Query(0, Cell::new(SIDE, 0)), PileCall::Query(0, Cell::new(0, 0))]);
    let drawn = (0..DRAWN / 4).map(|_| piles::calls(&mut random));
    std::iter::once(calls).chain(drawn).collect()
}

/// Memory and steps on it: every outline restored, checked and saved, on a fresh holder; and memory of any content.
pub fn images() -> Vec<(Box<HolderMemory>, Vec<Step>)> {
    let mut random = Random::new(SEED);
    let (party, place) = (1, 2);
    let each = |outline: &Outline| {
        let bytes = image(Some(outline)).to_vec();
        let (restore, save) = (Step::Restore { party, place, bytes }, Step::Save { party, place, space: IMAGE });
        let anchor = calls::test(outline.start, &outline.letters).reply;
        let reading = Action::Reading { place, reading: Reading::new(anchor.col.into(), anchor.row.into()) };
        (fresh(), vec![restore.clone(), Step::Check(party, place), save, restore, Step::Call(reading.by(party))])
    };
    let mut inputs: Vec<_> = outlines(&mut random).iter().filter(|outline| has_image(outline)).map(each).collect();
    for _ in 0..DRAWN {
        let memory = images::any_memory(&mut random);
        inputs.push((memory, (0..60).map(|_| images::any_step(&mut random)).collect()));
    }
    inputs
}

/// The same of piles.
pub fn pile_images() -> Vec<(Box<PileMemory>, Vec<PileStep>)> {
    let mut random = Random::new(SEED);
    let each = |outline: &Outline| {
        let restore = PileStep::Restore(3, image(Some(outline)).to_vec());
        (Box::new(PileMemory::filled(0)), vec![restore, PileStep::Save(3, IMAGE)])
    };
    let mut inputs: Vec<_> = outlines(&mut random).iter().filter(|outline| has_image(outline)).map(each).collect();
    for _ in 0..DRAWN / 4 {
        let pile = images::any_pile(&mut random);
        inputs.push((pile, (0..30).map(|_| images::any_pile_step(&mut random)).collect()));
    }
    inputs
}

/// Its letters and its start have space in an image.
fn has_image(outline: &Outline) -> bool {
    outline.letters.len() <= LONGEST && outline.start.col.max(outline.start.row) <= LAST_CORNER
}

/// Outlines that are taken, dented or have a back-step, as long as there are; and one for each refusal before those.
fn outlines(random: &mut Random) -> Vec<Outline> {
    let mut outlines = vec![round_outline(random, 600)];
    outlines.extend((0..8).map(|_| Shape::ManySided.draw_in(random, (LONGEST / 4) as i32)));
    let dented: Vec<Outline> = outlines.iter().map(|outline| dented(random, outline)).collect();
    outlines.extend(dented);
    outlines.push(whole_chart());
    outlines.extend((0..8).map(|_| Shape::Comb.draw(random)));

    let round = round_outline(random, 600);
    let of = |letters: Vec<u8>| Outline { start: round.start, letters };
    // 1 to 6, in this order, 1 in both ways; and an outline that is read backward.
    outlines.push(of(vec![1; SHORTEST - 1]));
    outlines.push(of(vec![1; LONGEST + 1]));
    outlines.push(Outline { start: Point::new(LAST_CORNER + 1, 0), ..round.clone() });
    outlines.push(of([&round.letters[..], &[LAST_LETTER + 1]].concat()));
    outlines.push(of(vec![1; LONGEST]));
    outlines.push(of(round.letters[1..].to_vec()));
    let half = round_outline(random, 300);
    outlines.push(Outline { letters: half.letters.repeat(2), ..half });
    outlines.push(reversed(&round));
    outlines
}

/// The outline with one cell flipped, so that it is dented.
fn dented(random: &mut Random, outline: &Outline) -> Outline {
    loop {
        let flipped = with_a_cell_flipped(random, outline);
        if calls::test(flipped.start, &flipped.letters).reply.number == 9 {
            return flipped;
        }
    }
}

/// A test with space for every edge, and for no edge.
fn tests(outline: &Outline) -> [Case; 2] {
    [LONGEST_LIST, 0].map(|space| Case::Test { outline: outline.clone(), space })
}

/// A witness and a completion with space for what they write, and with none.
fn helps(outline: &Outline) -> [Case; 4] {
    let witness = |space| Case::Witness { outline: outline.clone(), space };
    let complete = |space| Case::Complete { outline: outline.clone(), space };
    [witness(WITNESS_NUMBERS), witness(0), complete(LONGEST), complete(0)]
}

/// The edges of each taken outline at its anchor, which walks all of them, and their border; the longest list; and those that are refused.
fn loose_queries(outlines: &[Outline]) -> Vec<Case> {
    let query = |anchor, edges, cell| Case::Loose { anchor, edges, cell };
    let nowhere = Point::new(0, 0);
    let mut cases = vec![
        query(nowhere, vec![0; LONGEST_LIST], nowhere),
        query(nowhere, vec![i16::MAX; LONGEST_LIST], nowhere),
        query(nowhere, vec![0; LONGEST_LIST + 2], nowhere),
        query(nowhere, vec![0; LONGEST_LIST - 1], nowhere),
        query(nowhere, Vec::new(), Point::new(SIDE, 0)),
    ];
    for outline in outlines {
        let tested = calls::test(outline.start, &outline.letters);
        let anchor = Point::new(tested.reply.col, tested.reply.row);
        let edges: Vec<i16> = tested.edges.iter().flat_map(|&(cols, rows)| [cols as i16, rows as i16]).collect();
        cases.push(query(anchor, edges.clone(), anchor));
        cases.push(Case::Border { anchor, edges: edges.clone(), space: LONGEST });
        cases.push(Case::Border { anchor, edges, space: 0 });
    }
    cases
}

/// The edges of each taken outline with those of the next and with its own, a cell with itself, beside itself and in a square, and those that are refused.
fn comparisons(outlines: &[Outline]) -> Vec<Case> {
    let polygon = |outline: &Outline| {
        let tested = calls::test(outline.start, &outline.letters);
        let edges = tested.edges.iter().flat_map(|&(cols, rows)| [cols as i16, rows as i16]).collect();
        Polygon { anchor: Point::new(tested.reply.col, tested.reply.row), edges }
    };
    let polygons: Vec<Polygon> = outlines.iter().map(polygon).collect();
    let pair = |first: &Polygon, second: &Polygon| Case::Compare { first: first.clone(), second: second.clone() };
    let of = |anchor, edges| Polygon { anchor, edges };
    let cell = of(Point::new(0, 0), Vec::new());
    let square = of(Point::new(0, 0), vec![0, 1, 1, 0, 0, -1, -1, 0]);
    let mut cases = vec![
        pair(&cell, &cell),
        pair(&cell, &square),
        pair(&square, &cell),
        pair(&cell, &of(Point::new(1, 0), Vec::new())),
        pair(&cell, &of(Point::new(0, 0), vec![0; LONGEST_LIST + 2])),
        pair(&of(Point::new(SIDE, 0), Vec::new()), &cell),
    ];
    for (one, next) in polygons.iter().zip(&polygons[1..]) {
        cases.extend([pair(one, next), pair(next, one), pair(one, one)]);
    }
    cases
}

/// An outline drawn and closed twice, and asked about after each close; once more, with a letter and a begin too many; and then the
/// calls that take things away, each where there is something to take and where there is not.
fn draw_and_ask(outline: &Outline) -> Case {
    let place = 1;
    let adds = outline.letters.iter().map(|&letter| Action::Add(letter));
    let begin = Action::Begin(outline.start.into());
    let draw = || std::iter::once(begin).chain(adds.clone());
    let Point { col, row } = outline.start;
    let query = |col, row| Action::Query { place, cell: Cell::new(col, row) };
    let reading = |angle: u16, load: u16| Action::Reading { place, reading: Reading::new(angle.into(), load.into()) };
    let asked = [
        query(col, row),
        query(SIDE, SIDE),
        Action::Query { place: PLACES, cell: outline.start.into() },
        Action::Row { place, row },
        reading(col, row),
        reading(SIDE, SIDE),
        Action::Piece { place, position: 0 },
        Action::Piece { place, position: u16::MAX },
    ];
    let once = || draw().chain([Action::Close { place }]).chain(asked);
    let more = [Action::Add(0), begin, Action::Close { place: PLACES }, begin];
    let away = [Action::Drop, Action::Clear { place }, Action::Drop, Action::Close { place }, Action::Add(0)];
    let actions: Vec<Action> = once().chain(once()).chain(draw()).chain(more).chain(away).chain(asked).collect();
    let bytes =
        Call::script([0, 1, PARTIES].into_iter().flat_map(|party| actions.iter().map(move |action| action.by(party))));
    let space = bytes.len() / CALL * REPLY;
    Case::Script { bytes, space }
}

/// The first piece, the last line, the close and what is past it, with their points; and each refusal.
fn pieces(outline: &Outline) -> Vec<Case> {
    let (party, place) = (1, 3);
    let edges = calls::test(outline.start, &outline.letters).edges.len() as u16;
    let ask = |party, place, position| Case::Piece {
        script: scripts::to_work(outline, 1, 3),
        asked: Asked { party, place, position },
    };
    let mut cases: Vec<Case> = [0, edges.max(1) - 1, edges, edges + 1].map(|position| ask(party, place, position)).to_vec();
    cases.extend([ask(PARTIES, place, 0), ask(party, PLACES, 0)]);
    cases
}

#[cfg(test)]
mod tests {
    use super::*;
    use crate::engine::Plain;
    use crate::plain;
    use crate::tally::Tally;

    /// Every number and every word that some input reaches is reached by one of these.
    #[test]
    fn every_reply_is_reached() {
        let mut tally = Tally::default();
        all().iter().for_each(|case| tally.count(case, &case.run(&Plain)));
        for calls in piles() {
            let mut pile = plain::Pile::default();
            calls.iter().for_each(|call| tally.count_pile(pile.call(call)));
        }
        for (mut memory, steps) in images() {
            steps.iter().for_each(|step| tally.memories.count(step.on_arrays(&mut memory).reply));
        }
        for (mut pile, steps) in pile_images() {
            steps.iter().for_each(|step| tally.memories.count(images::on_any_pile(&mut pile, step).reply));
        }
        // Sound memory is some of the memory of any content.
        let unread = |complaint: &String| complaint.starts_with("images:");
        assert_eq!(
            tally.report().into_iter().filter(|complaint| !unread(complaint)).collect::<Vec<_>>(),
            Vec::<String>::new()
        );
    }
}
