//! Calls on a pile.

use std::hint::black_box;

use robequarry::limits::{LAYERS, REPLY};
use robequarry::raw::PileMemory;
use robequarry_checks::random::Random;
use robequarry_checks::report::Goal;
use robequarry_checks::{plain, Outline, Point};

use super::calls::octagon;
use super::{between, taken, Bench, Timed, DRAWN};

const QUERY: Goal = Goal::AtMost(1.2);
const SET_AND_CHECK: Goal = Goal::AtMost(1.15);

pub fn all(bench: &mut Bench, random: &mut Random) {
    let square = Outline {
        start: Point::new(60, 60),
        letters: [1, 0, 3, 2].into_iter().flat_map(|letter| std::iter::repeat_n(letter, 100)).collect(),
    };
    let squares = Piles::new(|_| square.clone());
    bench.add_call("pile: query", squares.queries(random), Some(QUERY));
    bench.add_call("pile: set", Piles::new(|_| square.clone()).sets(&taken(random, DRAWN)), Some(SET_AND_CHECK));
    // Each layer a cell further in than the one below, all round: no section is the same as its neighbour, and none is dented.
    let pyramid =
        |layer: u8| octagon(Point::new(40 + u16::from(layer), 40 + u16::from(layer)), 70 - 2 * i16::from(layer), 35);
    for (name, piles) in [
        ("pile: check, squares", squares),
        ("pile: check, octagons", Piles::new(pyramid)),
        ("pile: check, empty", Piles::empty()),
    ] {
        bench.add_call(name, piles.checks(), Some(SET_AND_CHECK));
    }
}

/// The library's pile and the rival's, with the same layers. They have passed.
struct Piles {
    library: Box<PileMemory>,
    plain: Box<plain::Pile>,
}

impl Piles {
    fn empty() -> Self {
        Piles { library: Box::new(PileMemory::filled(0)), plain: Box::default() }.checked()
    }

    fn new(layer: impl Fn(u8) -> Outline) -> Self {
        let mut piles = Piles::empty();
        for l in 0..LAYERS {
            let outline = layer(l);
            let Point { col, row } = outline.start;
            let mut reply = [0; REPLY];
            piles.library.set(l, col, row, &outline.letters, &mut reply);
            assert_eq!((reply[0], piles.plain.set(l, outline.start, &outline.letters).number), (0, 0), "a layer is taken");
        }
        piles.checked()
    }

    fn checked(mut self) -> Self {
        let mut reply = [0; REPLY];
        self.library.check(&mut reply);
        assert_eq!((reply[0], self.plain.check().number), (0, 0), "the pile passes");
        self
    }

    fn checks(mut self) -> Timed {
        let mut reply = [0; REPLY];
        between(
            &mut || {
                self.library.check(&mut reply);
                black_box(&reply);
            },
            &mut || {
                black_box(self.plain.check());
            },
        )
    }

    fn queries(&self, random: &mut Random) -> Timed {
        let cells: Vec<Point> = (0..1024).map(|_| random.cell()).collect();
        let layer = black_box(7);
        let mut reply = [0; REPLY];
        let (nanoseconds, ratio) = between(
            &mut || {
                for cell in &cells {
                    self.library.query(layer, cell.col, cell.row, &mut reply);
                    black_box(&reply);
                }
            },
            &mut || {
                for &cell in &cells {
                    black_box(self.plain.query(layer, cell));
                }
            },
        );
        (nanoseconds / cells.len() as f64, ratio)
    }

    fn sets(mut self, outline: &Outline) -> Timed {
        let Outline { start, letters } = outline;
        let layer = black_box(7);
        let mut reply = [0; REPLY];
        between(
            &mut || {
                self.library.set(layer, start.col, start.row, black_box(letters), &mut reply);
                black_box(&reply);
            },
            &mut || {
                black_box(self.plain.set(layer, *start, black_box(letters)));
            },
        )
    }
}
