//! The story, the words of a verdict and the reading of files, held to the library and to the reference.

use robequarry::{Cell, Corner, Outline, Refusal};
use robequarry_checks::draw::Shape;
use robequarry_checks::random::Random;
use robequarry_checks::reference::cells::Enclosed;
use robequarry_checks::walks::outlines;
use robequarry_checks::Point;
use robequarry_program::explain::{explain, told};
use robequarry_program::story::Story;

/// Everything that a story says of an outline is what the library says of it.
fn holds(start: Point, letters: &[u8]) {
    let outline = Outline::new(Corner::new(start.col, start.row), letters);
    let verdict = outline.test();
    assert!(!explain("outline 0", &outline, &verdict).is_empty());
    if !told(&verdict) {
        return;
    }
    let story = Story::of(&outline);
    let enclosed = Enclosed::of(start, letters);
    let cells: Vec<_> = story
        .rows
        .iter()
        .flat_map(|(&row, runs)| runs.iter().flat_map(move |&(a, b)| (a..=b).map(move |c| (c, row))))
        .collect();
    assert!(enclosed.cells().eq(cells), "{outline:?}");
    assert!((0..letters.len()).all(|i| story.on_border(story.sent(i)) == i), "{outline:?}");

    let missing = story.missing();
    assert_eq!(missing.first().copied(), enclosed.missing(), "{outline:?}");
    let completed = Story::of(&outline.complete().expect("what has a story has a completion"));
    assert_eq!(completed.cells_beyond(&story), missing, "{outline:?}");
    assert_eq!(story.cells_beyond(&completed), [], "{outline:?}");
    let witness = outline.witness().expect("what has a story has a witness, or needs none");
    assert_eq!(witness.map(|witness| (witness.missing.col.into(), witness.missing.row.into())), enclosed.missing());
    let back_step = story.pieces.iter().find_map(|piece| {
        piece.back_step.map(|i| Refusal::BackStep { piece: piece.number as u16, place: story.sent(piece.from + i) })
    });
    let dent = story.pieces.iter().find_map(|piece| {
        let factor = piece.dent()?;
        let place = story.sent(story.factor_from(piece.number, factor));
        let missing = missing.first().map(|&(col, row)| Cell::new(col as u16, row as u16))?;
        Some(Refusal::Dent { piece: piece.number as u16, place, length: factor.length, missing })
    });
    match verdict {
        Err(refusal) => assert_eq!(back_step.or(dent), Some(refusal), "{outline:?}"),
        Ok(edges) => {
            let steps =
                story.pieces.iter().flat_map(|piece| piece.factors.iter().map(|&factor| story.edge(piece.number, factor)));
            assert!(steps.eq(edges.steps().map(|(cols, rows)| (cols.into(), rows.into()))), "{outline:?}");
            assert_eq!(edges.anchor(), Cell::new(story.corners[0].0 as u16, story.corners[0].1 as u16), "{outline:?}");
            assert_eq!((back_step, dent), (None, None));
        }
    }
}

#[test]
fn every_outline_of_3_by_3() {
    for outline in outlines(3, Point::new(7, 0)) {
        holds(outline.start, &outline.letters);
    }
}

#[test]
fn drawings() {
    let mut random = Random::new(27);
    for shape in Shape::ALL {
        for side in (2..40).cycle().take(60) {
            let outline = shape.draw_in(&mut random, side);
            holds(outline.start, &outline.letters);
        }
    }
}
