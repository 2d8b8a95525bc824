//! Witnesses and completions: the library and the plain Rust against the definitions, each buffer as a whole.

use robequarry::limits::{LAST_CORNER, LAST_REFUSAL, LONGEST, WITNESS_NUMBERS};
use robequarry::Cell;
use robequarry_checks::case::Case;
use robequarry_checks::draw::{reversed, whole_chart, Shape};
use robequarry_checks::engine::{Engine, Library, Plain, Reference};
use robequarry_checks::garbage;
use robequarry_checks::random::Random;
use robequarry_checks::reference::cells::{Enclosed, Hull};
use robequarry_checks::walks::outlines;
use robequarry_checks::{Outline, Point};

/// Gives the number that is replied.
fn agree(case: &Case) -> u16 {
    let expected = case.run(&Reference);
    for engine in [&Library as &dyn Engine, &Plain] {
        let outcome = case.run(engine);
        assert!(case.agrees(&expected, &outcome), "{}: {outcome}, not {expected}: {case}", engine.name());
    }
    expected.reply().number
}

fn both(outline: &Outline, cells: usize, letters: usize) -> [u16; 2] {
    let witness = Case::Witness { outline: outline.clone(), space: cells };
    let complete = Case::Complete { outline: outline.clone(), space: letters };
    [agree(&witness), agree(&complete)]
}

#[test]
fn every_outline_of_3_by_3() {
    for at in [Point::new(0, LAST_CORNER - 3), Point::new(LAST_CORNER - 3, 0)] {
        for outline in outlines(3, at) {
            assert_eq!(both(&outline, WITNESS_NUMBERS, outline.letters.len()), [0, 0]);
        }
    }
    assert_eq!(both(&outlines(1, Point::new(4, 4)).next().expect("a cell has an outline"), 5, 3), [10, 18]);
}

/// Drawings of every shape, both ways round, with space and without.
#[test]
fn drawings() {
    let random = &mut Random::new(65);
    for shape in Shape::ALL {
        for side in (2..60).step_by(3) {
            let outline = shape.draw_in(random, side);
            for outline in [reversed(&outline), outline] {
                let count = outline.letters.len();
                both(&outline, WITNESS_NUMBERS, count);
                both(&outline, garbage::cell_space(random), random.below(count));
            }
        }
    }
    both(&whole_chart(), WITNESS_NUMBERS, LONGEST);
}

#[test]
fn spoilt_lists() {
    let random = &mut Random::new(66);
    let mut counts = [0; LAST_REFUSAL as usize + 1];
    for _ in 0..6_000 {
        counts[usize::from(agree(&garbage::spoilt_help(random)))] += 1;
    }
    let reached: Vec<usize> = (0..counts.len()).filter(|&number| counts[number] > 0).collect();
    assert_eq!(reached, [0, 1, 2, 3, 4, 5, 6, 10, 18], "{counts:?}");
}

/// Through the wrapper: what contract 6.5 and 6.6 say, cell by cell.
#[test]
fn what_they_mean() {
    let random = &mut Random::new(67);
    for shape in Shape::ALL {
        for side in [3, 6, 11, 24] {
            let drawn = shape.draw_in(random, side);
            let outline = robequarry::Outline::new(drawn.start.into(), drawn.letters.clone());
            let Ok(completed) = outline.complete() else {
                continue;
            };
            let enclosed = Enclosed::of(drawn.start, &drawn.letters);
            let has = |cell: Cell| enclosed.has((cell.col.into(), cell.row.into()));
            let witness = outline.witness().expect("what is completed has a witness, or needs none");
            assert_eq!(witness.is_none(), outline.test().is_ok(), "{outline:?}");
            if let Some(witness) = witness {
                assert!(witness.cells.into_iter().all(has) && !has(witness.missing) && witness.holds(), "{outline:?}");
            }

            let edges = completed.test().expect("a completion is taken");
            let hull = Hull::of(enclosed.cells().collect());
            for (col, row) in (0..=254).flat_map(|col| (0..=254).map(move |row| (col, row))) {
                let inside = edges.contains(Cell::new(col as u16, row as u16)).expect("it is a cell");
                assert_eq!(inside, hull.has((col, row)), "({col}, {row}) {outline:?}");
            }
            assert_eq!(completed.complete().as_ref(), Ok(&completed));
            assert_eq!(edges.border().as_ref(), Ok(&completed), "clockwise from W");
        }
    }
}
