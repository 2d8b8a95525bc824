//! Every outline in a small block: the library against the reference, and the reference against itself.

use robequarry::codec::INSIDE;
use robequarry::limits::{LAST_CORNER, LAST_REFUSAL};
use robequarry_checks::case::Case;
use robequarry_checks::engine::{Engine, Library, Plain, Reference};
use robequarry_checks::reference::calls::{loose_query, test};
use robequarry_checks::reference::cells::Enclosed;
use robequarry_checks::walks::{cycles, outlines};
use robequarry_checks::Point;

#[test]
fn every_outline_of_3_by_3() {
    for outline in outlines(3, Point::new(0, LAST_CORNER - 3)) {
        let case = Case::Test { outline, space: 40 };
        let expected = case.run(&Reference);
        for engine in [&Library as &dyn Engine, &Plain] {
            assert_eq!(case.run(engine), expected, "{}: {case}", engine.name());
        }
    }
}

/// The counts of a 4 by 4 block: of each number, how many outlines it is replied to.
#[test]
fn counts_of_4_by_4() {
    assert_eq!(cycles(4).len(), 9_349);
    let mut counts = [0; LAST_REFUSAL as usize + 1];
    for outline in outlines(4, Point::new(0, 0)) {
        counts[usize::from(test(outline.start, &outline.letters).reply.number)] += 1;
    }
    assert_eq!(counts.iter().sum::<u32>(), 326_544);
    let reached: Vec<(usize, u32)> = counts.into_iter().enumerate().filter(|&(_, count)| count > 0).collect();
    assert_eq!(reached, [(0, 61_424), (8, 251_360), (9, 13_760)]);
}

/// Past refusal 6, an outline is taken exactly if its hull has no missing cell; its edges then answer for its cells.
#[test]
fn taken_means_no_missing_cell() {
    for outline in outlines(3, Point::new(2, 2)) {
        let tested = test(outline.start, &outline.letters);
        let enclosed = Enclosed::of(outline.start, &outline.letters);
        assert_eq!(tested.reply.number == 0, enclosed.missing().is_none(), "{outline:?}");
        if tested.reply.number == 0 {
            let anchor = Point::new(tested.reply.col, tested.reply.row);
            let edges: Vec<i16> = tested.edges.iter().flat_map(|&(cols, rows)| [cols as i16, rows as i16]).collect();
            for (col, row) in (0..7).flat_map(|col| (0..7).map(move |row| (col, row))) {
                let inside = loose_query(anchor, &edges, Point::new(col, row)).word == INSIDE;
                assert_eq!(inside, enclosed.has((i32::from(col), i32::from(row))), "{outline:?}");
            }
        }
    }
}
