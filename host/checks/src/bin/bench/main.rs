//! The proved library against its rivals. All figures are of one run. Rivals take turns; a time is the least of many, and a ratio
//! the median of many.
//!
//!     bench            a table, and then the same rows as lines
//!     bench --lines    the lines alone
//!     bench PART       one part alone: outlines, help, lists, edges, calls or piles; also with --lines before it
//!
//! A line has six fields, set apart by tabs: `bench`, a name, a count of letters, the library's nanoseconds a call, and the name and
//! the value of a ratio, or `-` and `-`. The ratios:
//!
//! - `library/plain`: to the library's algorithm in plain Rust
//! - `cells/library` and `border/library`: how many times as long hull-and-count takes, with the hull of all enclosed cells, and
//!   with the hull of the border cells alone
//! - `refusal/taking`: of the library, to the outlines of the same length that were flipped
//! - `witness/refusal` and `completion/refusal`: of the library, to the test that refuses the same outlines by 9
//! - `counting/library`: how many times as long it takes to compare two hulls by testing every cell of both in plain Rust
//! - `600/150` and the like: of the library, to outlines of fewer letters

mod calls;
mod help;
mod piles;

use std::env;
use std::hint::black_box;
use std::process::exit;

use robequarry::limits::{LONGEST, LONGEST_LIST, REPLY, SIDE};
use robequarry_checks::case::Polygon;
use robequarry_checks::draw::{reversed, round_outline, with_a_cell_flipped};
use robequarry_checks::engine::{Engine, Library, Plain};
use robequarry_checks::hull_and_count::{is_convex, Of};
use robequarry_checks::random::Random;
use robequarry_checks::report::{Goal, Ratio, Report, Row};
use robequarry_checks::timing::{race, Race};
use robequarry_checks::{plain, Fields, Outline, Point};

const SEED: u64 = 1;

/// How many lists of a kind take turns, so that no rival learns one by heart.
const SET: usize = 16;

/// Letters of the outlines that are tested.
const LENGTHS: [usize; 4] = [100, 150, 250, 600];

/// Letters of the lists that are no outlines.
const SPOILT_LENGTHS: [usize; 2] = [250, 600];

/// Letters of the longest outlines, and of the one that is drawn and queried.
const DRAWN: usize = 600;

/// The name of the ratio to the library's algorithm in plain Rust.
const TO_PLAIN: &str = "library/plain";

const PLAIN_GOAL: Goal = Goal::AtMost(1.1);
/// Against the hull of all enclosed cells, of the longest outlines, whose blocks are the largest; against that of the border cells.
const CELLS_GOAL: Goal = Goal::AtLeast(15.0);
const BORDER_GOAL: Goal = Goal::AtLeast(2.0);
const REFUSAL_GOAL: Goal = Goal::AtMost(2.0);
/// For four times the letters.
const GROWTH_GOAL: Goal = Goal::AtMost(4.2);

/// The parts, each with random numbers of its own.
const PARTS: [(&str, Part); 6] = [
    ("outlines", Bench::outlines),
    ("help", help::all),
    ("lists", Bench::spoilt_lists),
    ("edges", Bench::edges),
    ("calls", calls::all),
    ("piles", piles::all),
];

type Part = fn(&mut Bench, &mut Random);

fn main() {
    let arguments: Vec<String> = env::args().skip(1).collect();
    let words: Vec<&str> = arguments.iter().map(String::as_str).collect();
    let (lines_only, wanted) = match words[..] {
        ["--lines", ref rest @ ..] => (true, rest),
        ref rest => (false, rest),
    };
    let is_wanted = |name: &str| wanted.is_empty() || wanted == [name];
    let parts: Vec<Part> = PARTS.into_iter().filter(|(name, _)| is_wanted(name)).map(|(_, part)| part).collect();
    if parts.is_empty() {
        eprintln!("bench [--lines] [{}]", PARTS.map(|(name, _)| name).join(" | "));
        exit(2);
    }
    let mut bench = Bench { report: Report::new(lines_only) };
    for part in parts {
        part(&mut bench, &mut Random::new(SEED));
    }
    bench.report.end();
}

/// Lists of letters of one kind.
struct Set {
    name: &'static str,
    /// The letters of each list; a flipped cell may have put in or taken out two.
    letters: usize,
    lists: Vec<Outline>,
}

impl Set {
    fn new(name: &'static str, letters: usize, mut list: impl FnMut() -> Outline) -> Self {
        Set { name, letters, lists: (0..SET).map(|_| list()).collect() }
    }

    /// The same outlines with one cell flipped.
    fn flipped(&self, name: &'static str, random: &mut Random, tries: usize) -> Self {
        Set { name, letters: self.letters, lists: self.lists.iter().map(|outline| dented(random, outline, tries)).collect() }
    }
}

struct Bench {
    report: Report,
}

impl Bench {
    /// Taken ellipses, and the same with one cell flipped: any, or one that leaves a missing cell high up.
    fn outlines(&mut self, random: &mut Random) {
        let takings = LENGTHS.map(|letters| Set::new("taken", letters, || taken(random, letters)));
        for taken in &takings {
            let cells_goal = (taken.letters == DRAWN).then_some(CELLS_GOAL);
            self.against_plain_and_hulls(taken, cells_goal, Some(BORDER_GOAL));
            for (name, tries) in [("one cell flipped", 1), ("one cell flipped high up", 40)] {
                let flipped = taken.flipped(name, random, tries);
                self.against_plain_and_hulls(&flipped, None, None);
                self.against_itself(&flipped, taken, "refusal/taking".to_string(), REFUSAL_GOAL);
            }
        }
        let (few, many) = (150, 600);
        let of = |letters| takings.iter().find(|set| set.letters == letters).expect("one of the lengths");
        self.against_itself(of(many), of(few), format!("{many}/{few}"), GROWTH_GOAL);
    }

    /// Lists that are no outlines.
    fn spoilt_lists(&mut self, random: &mut Random) {
        let start = Point::new(SIDE / 2, SIDE / 2);
        for letters in SPOILT_LENGTHS {
            self.against_plain(&Set::new("anticlockwise", letters, || reversed(&taken(random, letters))));
            self.against_plain(&Set::new("one letter short", letters, || {
                let mut outline = taken(random, letters);
                outline.letters.pop();
                outline
            }));
            self.against_plain(&Set::new("any letters", letters, || Outline {
                start,
                letters: (0..letters).map(|_| random.letter()).collect(),
            }));
            self.against_plain(&Set::new("any bytes", letters, || Outline {
                start,
                letters: (0..letters).map(|_| random.any() as u8).collect(),
            }));
        }
    }

    /// A loose query, a border and comparisons, with the edges of outlines.
    fn edges(&mut self, random: &mut Random) {
        let polygon = polygon(&taken(random, DRAWN));
        let cells: Vec<Point> = (0..1024).map(|_| random.cell()).collect();
        self.add_call("loose query", loose_query(&polygon, &cells), None);
        self.add_call("border from edges", border(&polygon), None);
        self.comparisons(random);
    }

    /// The edges of taken outlines compared: one with itself, with one that it holds, with one that crosses it, and with one far off.
    fn comparisons(&mut self, random: &mut Random) {
        let (large, small) = (polygon(&taken(random, DRAWN)), polygon(&taken(random, 250)));
        let beside = |polygon: &Polygon, anchor| Polygon { anchor, edges: polygon.edges.clone() };
        let (low, high) = (beside(&small, Point::new(1, 60)), beside(&small, Point::new(150, 75)));
        let across = Polygon { anchor: Point::new(0, 100), edges: vec![0, 20, 200, 0, 0, -20, -200, 0] };
        for (name, first, second) in [
            ("compare: equal", &large, &large),
            ("compare: within", &small, &large),
            ("compare: crossing", &large, &across),
            ("compare: no common cell", &low, &high),
        ] {
            let race = race([&mut compare_by(&Library, first, second), &mut compare_by(&Plain, first, second)]);
            let ratio = Some(Ratio::new("counting/library", race.ratio(1, 0), None));
            self.report.add(Row { name, letters: DRAWN, nanoseconds: race.least(0), ratio });
        }
    }

    /// Races all rivals over a set of outlines.
    fn against_plain_and_hulls(&mut self, set: &Set, cells_goal: Option<Goal>, border_goal: Option<Goal>) {
        let race = race([
            &mut test_by(&Library, set),
            &mut test_by(&Plain, set),
            &mut hull_by(Of::Enclosed, set),
            &mut hull_by(Of::Border, set),
        ]);
        self.add_set(set, &race, Ratio::new(TO_PLAIN, race.ratio(0, 1), Some(PLAIN_GOAL)));
        self.add_set(set, &race, Ratio::new("cells/library", race.ratio(2, 0), cells_goal));
        self.add_set(set, &race, Ratio::new("border/library", race.ratio(3, 0), border_goal));
    }

    /// Races the library and its algorithm in plain Rust over a set of lists.
    fn against_plain(&mut self, set: &Set) {
        let race = race([&mut test_by(&Library, set), &mut test_by(&Plain, set)]);
        self.add_set(set, &race, Ratio::new(TO_PLAIN, race.ratio(0, 1), Some(PLAIN_GOAL)));
    }

    /// Races the library over a set of outlines and over another.
    fn against_itself(&mut self, set: &Set, other: &Set, ratio: String, goal: Goal) {
        let race = race([&mut test_by(&Library, set), &mut test_by(&Library, other)]);
        self.add_set(set, &race, Ratio::new(ratio, race.ratio(0, 1), Some(goal)));
    }

    /// Adds a ratio of a race whose first rival is the library over a set.
    fn add_set<const N: usize>(&mut self, set: &Set, race: &Race<N>, ratio: Ratio) {
        let nanoseconds = race.least(0);
        self.report.add(Row { name: set.name, letters: set.letters, nanoseconds, ratio: Some(ratio) });
    }

    /// Adds a call of the library, and how many times as long as in plain Rust it takes.
    fn add_call(&mut self, name: &'static str, (nanoseconds, ratio): Timed, goal: Option<Goal>) {
        let ratio = Some(Ratio::new(TO_PLAIN, ratio, goal));
        self.report.add(Row { name, letters: DRAWN, nanoseconds, ratio });
    }
}

/// A taken ellipse with this many letters.
fn taken(random: &mut Random, letters: usize) -> Outline {
    loop {
        let outline = round_outline(random, letters);
        if tested(&outline).number == 0 {
            return outline;
        }
    }
}

/// The outline with one cell flipped, so that it is dented: of some tries, the one whose missing cell is highest.
fn dented(random: &mut Random, outline: &Outline, tries: usize) -> Outline {
    let mut flips = std::iter::repeat_with(|| with_a_cell_flipped(random, outline));
    let dents = flips.by_ref().filter(|flipped| tested(flipped).number == 9).take(tries);
    dents.max_by_key(|flipped| tested(flipped).row).expect("there is a try")
}

fn tested(outline: &Outline) -> Fields {
    plain::test(outline.start, &outline.letters, &mut [0; LONGEST_LIST])
}

fn test_by<'a>(engine: &'a dyn Engine, set: &'a Set) -> impl FnMut() + 'a {
    let mut turns = set.lists.iter().cycle();
    let mut edges = [0; LONGEST_LIST];
    let mut reply = [0; REPLY];
    move || {
        let outline = turns.next().expect("the set is not empty");
        engine.test(black_box(outline.start), black_box(&outline.letters), &mut edges, &mut reply);
        black_box((&edges, &reply));
    }
}

fn hull_by(of: Of, set: &Set) -> impl FnMut() + '_ {
    let mut turns = set.lists.iter().cycle();
    move || {
        let outline = turns.next().expect("the set is not empty");
        black_box(is_convex(black_box(outline.start), black_box(&outline.letters), of));
    }
}

/// Nanoseconds of the library, and how many times as long as in plain Rust that is.
type Timed = (f64, f64);

fn loose_query(polygon: &Polygon, cells: &[Point]) -> Timed {
    let Polygon { anchor, edges } = polygon;
    between(&mut query_by(&Library, *anchor, edges, cells), &mut query_by(&Plain, *anchor, edges, cells))
}

/// A race of the library and the rival.
fn between(library: &mut dyn FnMut(), plain: &mut dyn FnMut()) -> Timed {
    let race = race([library, plain]);
    (race.least(0), race.ratio(0, 1))
}

fn query_by<'a>(engine: &'a dyn Engine, anchor: Point, edges: &'a [i16], cells: &'a [Point]) -> impl FnMut() + 'a {
    let mut turns = cells.iter().cycle();
    let mut reply = [0; REPLY];
    move || {
        let cell = *turns.next().expect("there are cells");
        engine.loose_query(anchor, black_box(edges), black_box(cell), &mut reply);
        black_box(&reply);
    }
}

fn border(polygon: &Polygon) -> Timed {
    let Polygon { anchor, edges } = polygon;
    between(&mut border_by(&Library, *anchor, edges), &mut border_by(&Plain, *anchor, edges))
}

fn border_by<'a>(engine: &'a dyn Engine, anchor: Point, edges: &'a [i16]) -> impl FnMut() + 'a {
    let mut letters = [0; LONGEST];
    let mut reply = [0; REPLY];
    move || {
        engine.border(anchor, black_box(edges), &mut letters, &mut reply);
        black_box((&letters, &reply));
    }
}

/// The anchor and the edges of a taken outline.
fn polygon(outline: &Outline) -> Polygon {
    let mut list = [0; LONGEST_LIST];
    let reply = plain::test(outline.start, &outline.letters, &mut list);
    Polygon { anchor: Point::new(reply.col, reply.row), edges: list[..2 * usize::from(reply.place)].to_vec() }
}

fn compare_by<'a>(engine: &'a dyn Engine, first: &'a Polygon, second: &'a Polygon) -> impl FnMut() + 'a {
    let mut reply = [0; REPLY];
    move || {
        engine.compare(black_box(first), black_box(second), &mut reply);
        black_box(&reply);
    }
}
