//! Small polygons side by side: the library and counting against sets of cells, and the five words against one another.

use robequarry::codec::{CROSSING, EQUAL, FIRST_WITHIN, NO_COMMON, SECOND_WITHIN};
use robequarry_checks::case::{Case, Polygon};
use robequarry_checks::engine::{Engine, Library, Plain, Reference};
use robequarry_checks::polygons::small;
use robequarry_checks::Point;

fn word(first: &Polygon, second: &Polygon) -> u16 {
    let case = Case::Compare { first: first.clone(), second: second.clone() };
    let expected = case.run(&Reference);
    for engine in [&Library as &dyn Engine, &Plain] {
        assert_eq!(case.run(engine), expected, "{}: {case}", engine.name());
    }
    expected.reply().word
}

/// Every two of them, from one anchor and side by side; exchanged, the two words for within are.
#[test]
fn every_two_and_back() {
    let mut counts = [0; 16];
    let polygons = |col| small().into_iter().map(move |edges| Polygon { anchor: Point::new(col, 4), edges });
    for first in polygons(4) {
        for second in polygons(4).chain(polygons(5)) {
            let (there, back) = (word(&first, &second), word(&second, &first));
            let exchanged = match there {
                FIRST_WITHIN => SECOND_WITHIN,
                SECOND_WITHIN => FIRST_WITHIN,
                word => word,
            };
            assert_eq!(back, exchanged);
            counts[usize::from(there)] += 1;
        }
    }
    for word in [EQUAL, FIRST_WITHIN, SECOND_WITHIN, NO_COMMON, CROSSING] {
        assert!(counts[usize::from(word)] > 0, "{counts:?}");
    }
}

/// Hulls that overlap have no common cell, and hulls have one that is no corner of either.
#[test]
fn it_is_about_cells() {
    let polygon = |col, row, edges: &[i16]| Polygon { anchor: Point::new(col, row), edges: edges.to_vec() };
    let rising = polygon(0, 0, &[1, 1, -1, -1]);
    assert_eq!(word(&rising, &polygon(0, 1, &[1, -1, -1, 1])), NO_COMMON);
    assert_eq!(word(&polygon(0, 0, &[2, 2, -2, -2]), &polygon(0, 1, &[2, 0, -2, 0])), CROSSING);
}
