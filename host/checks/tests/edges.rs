//! Every short list of small edges: the library and its rival against the reference, and the reference against triangles.

use robequarry::codec::INSIDE;
use robequarry_checks::case::Case;
use robequarry_checks::engine::{Engine, Library, Plain, Reference};
use robequarry_checks::reference::calls::loose_query;
use robequarry_checks::reference::edges::corner_cells;
use robequarry_checks::Point;

const ANCHOR: Point = Point::new(4, 4);

/// The cells round the anchor, as far as the edges reach.
fn cells() -> impl Iterator<Item = Point> {
    (1..8).flat_map(|col| (1..8).map(move |row| Point::new(col, row)))
}

/// Every list of this many edges of at most one column and one row.
fn lists(edges: u32) -> impl Iterator<Item = Vec<i16>> {
    let number = |digit: u32| digit as i16 - 1;
    (0..9u32.pow(edges)).map(move |code| (0..2 * edges).map(|i| number(code / 3u32.pow(i) % 3)).collect())
}

#[test]
fn every_short_list() {
    let mut passed = 0;
    for edges in (0..4).flat_map(lists) {
        let reply = |cell| loose_query(ANCHOR, &edges, cell);
        passed += u32::from(reply(ANCHOR).number == 0);
        for cell in cells() {
            let case = Case::Loose { anchor: ANCHOR, edges: edges.clone(), cell };
            let expected = case.run(&Reference);
            for engine in [&Library as &dyn Engine, &Plain] {
                assert_eq!(case.run(engine), expected, "{}: {case}", engine.name());
            }
        }
    }
    // No edge; a half turn for each of four steps and its opposite; a triangle for each of four slanting steps.
    assert_eq!(passed, 1 + 4 + 4);
}

/// Inside is: in the triangle of some three corner cells, repeats allowed. Of the lists of four edges, those that pass.
#[test]
fn inside_is_in_some_triangle() {
    for edges in lists(3).chain(lists(4)) {
        if loose_query(ANCHOR, &edges, ANCHOR).number != 0 {
            continue;
        }
        let corners = corner_cells(ANCHOR, &edges);
        for cell in cells() {
            let x = (i32::from(cell.col), i32::from(cell.row));
            let each = || corners.iter().copied();
            let held = each().any(|p| each().any(|q| each().any(|t| in_triangle(p, q, t, x))));
            assert_eq!(loose_query(ANCHOR, &edges, cell).word == INSIDE, held, "{edges:?} {cell:?}");
        }
    }
}

type Cell = (i32, i32);

/// Some natural weights, not all 0, make x the mean of p, q and t: those of a triangle are its three parts, and a flat one has smaller
/// ones.
fn in_triangle(p: Cell, q: Cell, t: Cell, x: Cell) -> bool {
    let weights = || (0..9).flat_map(|a| (0..9).flat_map(move |b| (0..9).map(move |c| (a, b, c))));
    weights().any(|(a, b, c)| {
        let n = a + b + c;
        n > 0 && n * x.0 == a * p.0 + b * q.0 + c * t.0 && n * x.1 == a * p.1 + b * q.1 + c * t.1
    })
}
