//! Pieces of drawings: the library against the reference, its floats bit by bit, and a drawing against the corners of the hull.

use robequarry::codec::{CLOSE, LINE, MOVE, NONE};
use robequarry::limits::{MOST_EDGES, PARTIES, PLACES, REPLY};
use robequarry::Action;
use robequarry_checks::case::{Asked, Case};
use robequarry_checks::draw::any_taken;
use robequarry_checks::engine::{Engine, Library, Plain, Reference};
use robequarry_checks::live::AtWork;
use robequarry_checks::random::Random;
use robequarry_checks::reference::cells::{Enclosed, Hull};
use robequarry_checks::reference::pieces::{piece, pieces, point};
use robequarry_checks::reference::readings::Polygon;
use robequarry_checks::reply::numbered;
use robequarry_checks::scripts::{self, to_work};
use robequarry_checks::specimens::{self, specimen};
use robequarry_checks::{Fields, Outline};

fn outlines(random: &mut Random) -> Vec<Outline> {
    let mut outlines = specimens::taken();
    outlines.extend((0..60).map(|_| any_taken(random)));
    outlines
}

/// The word of each position and the one after the last, and the cells of moves and lines.
fn drawing(outline: &Outline) -> (Vec<u16>, Vec<(u16, u16)>) {
    let at_work = AtWork::new(outline, 0, 2);
    let mut drawn: Vec<Fields> = Vec::new();
    while drawn.last().is_none_or(|piece| piece.word != NONE) {
        drawn.push(at_work.piece(drawn.len() as u16, &mut [0.0; 2]));
    }
    let cells = drawn.iter().filter(|piece| [MOVE, LINE].contains(&piece.word)).map(|piece| (piece.col, piece.row));
    (drawn.iter().map(|piece| piece.word).collect(), cells.collect())
}

#[test]
fn drawings_of_specimens() {
    let drawing = |name| drawing(&specimen(name));
    assert_eq!(drawing("H1"), (vec![MOVE, CLOSE, NONE], vec![(0, 0)]));
    assert_eq!(drawing("H2"), (vec![MOVE, LINE, CLOSE, NONE], vec![(0, 0), (2, 0)]));
    assert_eq!(drawing("H3"), (vec![MOVE, LINE, LINE, LINE, CLOSE, NONE], vec![(0, 1), (1, 2), (2, 1), (1, 0)]));
    assert_eq!(drawing("H5"), (vec![MOVE, LINE, LINE, CLOSE, NONE], vec![(0, 0), (0, 1), (1, 0)]));
    assert_eq!(drawing("H4"), drawing("H3"));
    assert_eq!(drawing("As many edges").1.len(), MOST_EDGES);
}

/// Each position, the close, what is past it and the last position that there is: by the function with its point, and by the call.
#[test]
fn every_position() {
    for outline in outlines(&mut Random::new(1)) {
        let polygon = Polygon::of(&outline).expect("it is taken");
        let (party, place) = (1, 3);
        let mut at_work = AtWork::new(&outline, party, place);
        let last = pieces(&polygon).len() as u16;
        assert_eq!(usize::from(last), polygon.edges.len().max(1) + 1);
        for position in (0..last + 3).chain([255, 256, 257, 32_767, 32_768, u16::MAX - 1, u16::MAX]) {
            let expected = piece(&polygon, position);
            let before = [-7.25f32; 2];
            let mut found = before;
            assert_eq!(at_work.piece(position, &mut found), expected, "{position} {outline:?}");
            assert_eq!(at_work.call(Action::Piece { place, position }.by(party)), expected, "{position} {outline:?}");
            assert_eq!(
                found.map(f32::to_bits),
                point(expected).unwrap_or(before.map(f32::to_bits)),
                "{position} {outline:?}"
            );
        }
    }
}

/// The points are the corners of the hull of the enclosed cells, clockwise from the anchor.
#[test]
fn a_drawing_runs_round_the_hull() {
    for outline in outlines(&mut Random::new(2)) {
        let enclosed = Enclosed::of(outline.start, &outline.letters);
        let mut corners = Hull::of(enclosed.cells().collect()).corners().to_vec();
        corners[1..].reverse();
        assert_eq!(corners[0], enclosed.anchor());
        let (_, cells) = drawing(&outline);
        assert!(cells.iter().map(|&(col, row)| (i32::from(col), i32::from(row))).eq(corners), "{outline:?}");
    }
}

fn agree(case: &Case) -> Fields {
    let expected = case.run(&Reference);
    for engine in [&Library as &dyn Engine, &Plain] {
        assert_eq!(case.run(engine), expected, "{}: {case}", engine.name());
    }
    expected.reply()
}

/// The point is written at a move and a line, and left at a close, at none and by each refusal.
#[test]
fn points() {
    let (party, place) = (1, 0);
    let script = to_work(&specimen("H3"), party, place);
    let asked = |party, place, position| Asked { party, place, position };
    for (asked, number, word) in [
        (asked(party, place, 0), 0, MOVE),
        (asked(party, place, 3), 0, LINE),
        (asked(party, place, 4), 0, CLOSE),
        (asked(party, place, 5), 0, NONE),
        (asked(PARTIES, place, 0), 19, 0),
        (asked(party, PLACES, 0), 20, 0),
        (asked(party, 1, 0), 12, 0),
    ] {
        let case = Case::Piece { script: script.clone(), asked };
        let reply = agree(&case);
        assert_eq!((reply.number, reply.word), (number, word), "{asked:?}");
        let halves = case.run(&Library).point.iter().all(|&bits| f32::from_bits(bits).fract() == 0.5);
        assert_eq!(halves, [MOVE, LINE].contains(&word), "{asked:?}");
    }
}

#[test]
fn refusals_in_their_order() {
    let mut at_work = AtWork::new(&specimen("H1"), 0, 3);
    let mut ask = |party, place| {
        let called = at_work.call(Action::Piece { place, position: 0 }.by(party));
        let mut reply = [0; REPLY];
        at_work.holder.piece(party, place, 0, &mut [0.0; 2], &mut reply);
        assert_eq!(called, Fields::from(reply));
        called
    };
    assert_eq!(ask(PARTIES, PLACES), numbered(19));
    assert_eq!(ask(u8::MAX, 0), numbered(19));
    assert_eq!(ask(1, PLACES), numbered(20));
    assert_eq!(ask(0, u8::MAX), numbered(20));
    assert_eq!(ask(1, 3), numbered(12));
    assert_eq!(ask(0, 2), numbered(12));
    assert_eq!(ask(0, 3).word, MOVE);
}

/// Any outline and position; the engine of the library holds the holder's memory to what it was.
#[test]
fn every_engine_answers_as_the_book() {
    let random = &mut Random::new(3);
    for _ in 0..400 {
        let outline = any_taken(random);
        let edges = Polygon::of(&outline).expect("it is taken").edges.len();
        agree(&scripts::piece(random, &outline, edges));
    }
}
