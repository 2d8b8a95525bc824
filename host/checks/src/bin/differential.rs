//! The proved library, and its algorithm in plain Rust, against the contract as written (docs/CONTRACT.md).
//!
//!     differential               the whole run
//!     differential SEED          the same from another seed
//!     differential replay LINE   one input again, by the line that a failure printed; without LINE, by standard input

use std::collections::BTreeMap;
use std::env;
use std::io::{read_to_string, stdin};
use std::process::exit;
use std::time::Instant;

use robequarry::codec::{INSIDE, OUTSIDE};
use robequarry::limits::{IMAGE, LAST_CELL, LAST_CORNER, LAYERS, LONGEST, LONGEST_LIST, SIDE, WITNESS_NUMBERS};
use robequarry::{Action, PileCall, Reading};
use robequarry_checks::case::{self, Case, Outcome};
use robequarry_checks::draw::{any_taken, reversed, rotated, Shape};
use robequarry_checks::engine::{Engine, Library, Live, Plain, Reference};
use robequarry_checks::garbage;
use robequarry_checks::images::{self, Alike, Move};
use robequarry_checks::live::AtWork;
use robequarry_checks::piles;
use robequarry_checks::plain;
use robequarry_checks::polygons;
use robequarry_checks::random::Random;
use robequarry_checks::reference;
use robequarry_checks::reference::border::reading;
use robequarry_checks::reference::cells::Enclosed;
use robequarry_checks::reference::readings::{broken_claim, located, values, Polygon};
use robequarry_checks::scripts;
use robequarry_checks::sensors;
use robequarry_checks::specimens;
use robequarry_checks::tally::Tally;
use robequarry_checks::walks;
use robequarry_checks::{Outline, Point};

const SEED: u64 = 1;
const SPOILT: usize = 120_000;
const SPOILT_HELP: usize = 60_000;
const LOOSE: usize = 120_000;
const BORDERS: usize = 60_000;
const COMPARISONS: usize = 16_000;
const READ: usize = 3_000;
const PIECES: usize = 6_000;
const SCRIPTS: usize = 24_000;
const PILES: usize = 1_000;
const IMAGE_LISTS: usize = 2_000;
const MEMORIES: usize = 6_000;
const PILE_MEMORIES: usize = 1_500;

/// Those that are held to the reference. The calls of a script are also made one by one on a live holder, as bytes and by arguments.
fn engines(case: &Case) -> &'static [&'static dyn Engine] {
    match case {
        Case::Script { .. } => &[&Library, &Plain, &Live],
        _ => &[&Library, &Plain],
    }
}

fn main() {
    let arguments: Vec<String> = env::args().skip(1).collect();
    match arguments.as_slice() {
        [] => run(SEED),
        [first] if first == "replay" => replay(&read_to_string(stdin()).expect("standard input is a line")),
        [first, line @ ..] if first == "replay" => replay(&line.join(" ")),
        [seed] if seed.parse::<u64>().is_ok() => run(seed.parse().expect("just tried")),
        _ => {
            eprintln!("differential [SEED] | differential replay [LINE]");
            exit(2);
        }
    }
}

/// One input again, with what each engine answers.
fn replay(line: &str) {
    let case: Case = line.parse().unwrap_or_else(|error| {
        eprintln!("{error}");
        exit(2);
    });
    let expected = case.run(&Reference);
    println!("{}: {expected}", Reference.name());
    let mut agree = true;
    for &engine in engines(&case) {
        let outcome = case.run(engine);
        println!("{}: {outcome}", engine.name());
        agree &= case.agrees(&expected, &outcome);
    }
    println!("{}", if agree { "all agree" } else { "they differ" });
    exit(i32::from(!agree));
}

fn run(seed: u64) {
    println!("differential: seed {seed}");
    let began = Instant::now();
    let mut run = Run { tally: Tally::default(), compared: 0 };
    run.section("every outline in a 3 by 3 block", every_outline_of_3_by_3);
    run.section("every outline in a 4 by 4 block", every_outline_of_4_by_4);
    let seed = 1000 * seed;
    for (i, shape) in Shape::ALL.into_iter().enumerate() {
        let name = format!("{} {}", drawings_of(shape), shape.name());
        run.random_section(&name, seed + i as u64, |run, random| drawings(run, shape, random));
    }
    run.random_section(&format!("{SPOILT} spoilt lists of letters"), seed + 100, spoilt);
    run.random_section(&format!("{SPOILT_HELP} witnesses and completions of spoilt lists"), seed + 150, spoilt_help);
    run.random_section(&format!("{LOOSE} loose queries"), seed + 200, loose_queries);
    run.random_section(&format!("{BORDERS} borders"), seed + 400, borders);
    run.section("every two small polygons", every_two_small_polygons);
    run.random_section(&format!("{COMPARISONS} comparisons"), seed + 250, comparisons);
    run.random_section(&format!("readings at {READ} outlines"), seed + 600, readings);
    run.random_section("centres of whole charts", seed + 650, centres);
    run.random_section(&format!("{PIECES} pieces of drawings"), seed + 700, pieces);
    run.random_section(&format!("{SCRIPTS} scripts of calls"), seed + 300, random_scripts);
    run.random_section(&format!("{PILES} lists of calls on a pile"), seed + 500, random_piles);
    run.random_section(&format!("{IMAGE_LISTS} lists of calls with images"), seed + 800, image_lists);
    run.random_section(&format!("{MEMORIES} holders of any content"), seed + 850, memories);
    run.random_section(&format!("{PILE_MEMORIES} piles of any content"), seed + 900, pile_memories);

    let complaints = run.tally.report();
    complaints.iter().for_each(|complaint| println!("{complaint}"));
    println!("differential: {} inputs, {:.1} s", run.compared, began.elapsed().as_secs_f64());
    if !complaints.is_empty() {
        exit(1);
    }
    println!("differential: all agree");
}

struct Run {
    tally: Tally,
    compared: u64,
}

impl Run {
    /// Runs a part, and says how many inputs it compared and how long it took.
    fn section(&mut self, name: &str, part: impl FnOnce(&mut Run)) {
        let (began, before) = (Instant::now(), self.compared);
        part(self);
        println!("{:>9} inputs {:>6.1} s  {name}", self.compared - before, began.elapsed().as_secs_f64());
    }

    /// Runs a part that draws its inputs at random.
    fn random_section(&mut self, name: &str, seed: u64, part: impl FnOnce(&mut Run, &mut Random)) {
        self.section(&format!("{name}, seed {seed}"), |run| part(run, &mut Random::new(seed)));
    }

    /// Holds every engine to the reference: what it writes, and each buffer as a whole; of a witness, its three cells to what they
    /// are to show. Gives what the reference does.
    fn compare(&mut self, case: &Case) -> Outcome {
        let expected = case.run(&Reference);
        for &engine in engines(case) {
            let outcome = case.run(engine);
            if !case.agrees(&expected, &outcome) {
                println!("{}: {expected}", Reference.name());
                println!("{}: {outcome}", engine.name());
                println!("again: cargo run --release --bin differential -- replay {case}");
                exit(1);
            }
        }
        self.tally.count(case, &expected);
        self.compared += 1;
        expected
    }

    /// A test with so much space for edges. Gives the reply's number.
    fn compare_test(&mut self, outline: &Outline, space: usize) -> u16 {
        let case = Case::Test { outline: outline.clone(), space };
        let number = self.compare(&case).reply().number;
        taken_exactly_if_no_cell_is_missing(outline, number);
        number
    }

    /// A witness and a completion, with so much space for cells and for letters.
    fn compare_help(&mut self, outline: &Outline, cells: usize, letters: usize) {
        self.compare(&Case::Witness { outline: outline.clone(), space: cells });
        self.compare(&Case::Complete { outline: outline.clone(), space: letters });
    }
}

/// In the middle of the chart, and in two of its corners.
fn every_outline_of_3_by_3(run: &mut Run) {
    let last = LAST_CORNER - 3;
    for at in [Point::new(0, 0), Point::new(120, 77), Point::new(last, last)] {
        for outline in walks::outlines(3, at) {
            run.compare_test(&outline, LONGEST_LIST);
            run.compare_help(&outline, WITNESS_NUMBERS, LONGEST);
        }
    }
}

fn every_outline_of_4_by_4(run: &mut Run) {
    let mut counts = BTreeMap::new();
    for outline in walks::outlines(4, Point::new(0, 0)) {
        *counts.entry(run.compare_test(&outline, LONGEST_LIST)).or_insert(0) += 1;
        run.compare_help(&outline, WITNESS_NUMBERS, LONGEST);
    }
    let expected = BTreeMap::from([(0, 61_424), (8, 251_360), (9, 13_760)]);
    if counts != expected {
        println!("4 by 4: counts of numbers {counts:?}, not {expected:?}");
        exit(1);
    }
}

/// How many drawings of a shape there are: fewer of those that take long.
fn drawings_of(shape: Shape) -> usize {
    match shape {
        Shape::Comb => 600,
        Shape::ManySided => 6_000,
        _ => 30_000,
    }
}

/// Drawings of one shape: each from one corner of its border, one in twelve from every corner.
fn drawings(run: &mut Run, shape: Shape, random: &mut Random) {
    for _ in 0..drawings_of(shape) {
        let outline = shape.draw(random);
        let space = garbage::edge_space(random);
        if run.compare_test(&outline, space) == 0 {
            cells_against_edges(run, &outline, random);
        }
        let count = outline.letters.len();
        let letters = [LONGEST, count, random.below(count), garbage::letter_space(random)][random.below(4)];
        run.compare_help(&outline, garbage::cell_space(random), letters);
        if random.once_in(6) {
            help_says_what_it_should(&outline);
        }
        if outline.letters.len() <= 400 && random.once_in(12) {
            for place in 0..outline.letters.len() {
                run.compare_test(&rotated(&outline, place), LONGEST_LIST);
            }
        }
    }
}

/// Contract 8.4 and 8.5: past refusal 6, an outline is taken exactly if counting finds no missing cell.
fn taken_exactly_if_no_cell_is_missing(outline: &Outline, number: u16) {
    let missing = || Enclosed::of(outline.start, &outline.letters).missing();
    let holds = match number {
        0 | 10 => missing().is_none(),
        8 | 9 => missing().is_some(),
        _ => true,
    };
    if !holds {
        println!("the reply contradicts contract 8.5: {number} {outline:?}");
        exit(1);
    }
}

/// Contract 6.6: a test takes the completion, which has no more letters than the drawing and is its own completion; the reverse of a
/// drawing has the same witness and completion.
fn help_says_what_it_should(outline: &Outline) {
    let complete = |outline: &Outline| {
        let mut letters = [0; LONGEST];
        let reply = reference::help::complete(outline.start, &outline.letters, &mut letters);
        let start = Point::new(reply.col, reply.row);
        (reply.number == 0).then(|| Outline { start, letters: letters[..reply.place.into()].to_vec() })
    };
    let Some(completed) = complete(outline) else {
        return;
    };
    let tested = reference::calls::test(completed.start, &completed.letters);
    let holds = tested.reply.number == 0
        && completed.letters.len() <= outline.letters.len()
        && complete(&completed).as_ref() == Some(&completed)
        && complete(&reversed(outline)) == Some(completed);
    if !holds {
        println!("the reference contradicts contract 6.6: {outline:?}");
        exit(1);
    }
}

/// The border of a taken outline's edges is that outline, clockwise from W (contract 6.3).
fn border_again(run: &mut Run, outline: &Outline, anchor: Point, edges: &[i16], random: &mut Random) {
    let count = outline.letters.len();
    let space = [count, count + 5, count - 1, LONGEST][random.below(4)];
    run.compare(&Case::Border { anchor, edges: edges.to_vec(), space });
    let mut letters = vec![0; count];
    let reply = robequarry_checks::reference::tracing::border(anchor, edges, &mut letters);
    let reading = Outline { start: outline.start, letters: reading(outline.start, &outline.letters) };
    let own = (0..count).map(|place| rotated(&reading, place)).find(|turned| turned.start == anchor);
    if (reply.number, usize::from(reply.place)) != (0, count) || own.map(|turned| turned.letters) != Some(letters) {
        println!("the reference contradicts contract 6.3: {outline:?}");
        exit(1);
    }
}

/// Loose queries with the edges of a taken outline: inside means enclosed. And its border.
fn cells_against_edges(run: &mut Run, outline: &Outline, random: &mut Random) {
    let tested = robequarry_checks::reference::calls::test(outline.start, &outline.letters);
    let edges: Vec<i16> = tested.edges.iter().flat_map(|&(cols, rows)| [cols as i16, rows as i16]).collect();
    let anchor = Point::new(tested.reply.col, tested.reply.row);
    border_again(run, outline, anchor, &edges, random);
    let enclosed = Enclosed::of(outline.start, &outline.letters);
    for _ in 0..4 {
        let reach = [3, 20, usize::from(SIDE)][random.below(3)];
        let mut near =
            |x: u16| (usize::from(x) + random.below(2 * reach)).saturating_sub(reach).min(usize::from(LAST_CELL)) as u16;
        let cell = Point::new(near(anchor.col), near(anchor.row));
        run.compare(&Case::Loose { anchor, edges: edges.clone(), cell });
        let inside = robequarry_checks::reference::calls::loose_query(anchor, &edges, cell).word == INSIDE;
        if inside != enclosed.has((i32::from(cell.col), i32::from(cell.row))) {
            println!("the reference contradicts contract 8.4: {cell:?} {outline:?}");
            exit(1);
        }
    }
}

fn spoilt(run: &mut Run, random: &mut Random) {
    for _ in 0..SPOILT {
        let case = garbage::spoilt_test(random);
        run.compare(&case);
    }
}

fn spoilt_help(run: &mut Run, random: &mut Random) {
    for _ in 0..SPOILT_HELP {
        let case = garbage::spoilt_help(random);
        run.compare(&case);
    }
}

fn loose_queries(run: &mut Run, random: &mut Random) {
    for i in 0..LOOSE {
        let case = match i % 4 {
            0 => garbage::loose(random),
            1 => garbage::round_walk(random),
            _ => polygons::loose(random),
        };
        run.compare(&case);
    }
}

fn borders(run: &mut Run, random: &mut Random) {
    for i in 0..BORDERS {
        let case = if i % 4 == 0 { garbage::border(random) } else { polygons::border(random) };
        run.compare(&case);
    }
}

/// Every two of the polygons with edges of at most one column and one row, the second moved by up to two; touching, nested, equal and
/// crossing without a common cell among them.
fn every_two_small_polygons(run: &mut Run) {
    let small = polygons::small();
    for one in &small {
        for other in &small {
            for code in 0..25 {
                let first = case::Polygon { anchor: Point::new(4, 4), edges: one.clone() };
                let second = case::Polygon { anchor: Point::new(2 + code % 5, 2 + code / 5), edges: other.clone() };
                run.compare(&Case::Compare { first, second });
            }
        }
    }
}

fn comparisons(run: &mut Run, random: &mut Random) {
    for _ in 0..COMPARISONS {
        let case = polygons::pair(random);
        run.compare(&case);
    }
}

/// Readings among the edges of taken outlines, and what the contract says of each (7.10).
fn readings(run: &mut Run, random: &mut Random) {
    for _ in 0..READ {
        let outline = any_taken(random);
        let polygon = Polygon::of(&outline).expect("it is taken");
        let asked: Vec<Reading> = (0..24).map(|_| sensors::reading(random, &polygon)).collect();
        let place = random.below(4) as u8;
        let actions = asked.iter().map(|&reading| Action::Reading { place, reading });
        run.compare(&scripts::asking(&outline, random.below(2) as u8, place, actions));
        for reading in asked {
            let broken = values(reading).and_then(|values| broken_claim(&polygon, values, polygon.word(values)));
            if let Some(claim) = broken {
                println!("the reference contradicts contract 7.10, {claim}: {reading:?} {outline:?}");
                exit(1);
            }
        }
    }
}

/// Readings at the centres of all cells: inside means enclosed, and outside not.
fn centres(run: &mut Run, random: &mut Random) {
    let mut outlines = specimens::taken();
    outlines.extend((0..12).map(|_| any_taken(random)));
    for outline in outlines {
        let polygon = Polygon::of(&outline).expect("it is taken");
        let enclosed = Enclosed::of(outline.start, &outline.letters);
        let mut at_work = AtWork::new(&outline, 0, 3);
        for (col, row) in (0..SIDE).flat_map(|col| (0..SIDE).map(move |row| (col, row))) {
            let reading = Reading::new(col.into(), row.into());
            let (reply, expected) = (at_work.reading(reading), located(&polygon, reading));
            let contradicted = if enclosed.has((col.into(), row.into())) { OUTSIDE } else { INSIDE };
            if reply != expected || reply.word == contradicted {
                println!("at the centre of ({col}, {row}): {reply:?}, not {expected:?}: {outline:?}");
                exit(1);
            }
            run.compared += 1;
        }
    }
}

fn pieces(run: &mut Run, random: &mut Random) {
    for _ in 0..PIECES / 8 {
        let outline = any_taken(random);
        let edges = Polygon::of(&outline).expect("it is taken").edges.len();
        for _ in 0..8 {
            run.compare(&scripts::piece(random, &outline, edges));
        }
    }
}

fn random_scripts(run: &mut Run, random: &mut Random) {
    for _ in 0..SCRIPTS {
        let case = scripts::script(random);
        run.compare(&case);
    }
}

/// Lists of calls on a pile, reply by reply. About as many checks pass as fail.
fn random_piles(run: &mut Run, random: &mut Random) {
    let (mut passed, mut failed) = (0, 0);
    for i in 0..PILES {
        let (mut library, mut plain, mut reference) =
            (piles::Mixed::new(i as u64), plain::Pile::default(), reference::pile::Pile::default());
        for call in piles::calls(random) {
            let expected = reference.call(&call);
            assert_eq!(library.call(&call), expected, "library: {call:?}");
            assert_eq!(plain.call(&call), expected, "plain: {call:?}");
            run.tally.count_pile(expected);
            for layer in (0..LAYERS).filter(|_| random.once_in(40)) {
                let (mut saved, mut other) = ([0; IMAGE], [0; IMAGE]);
                assert_eq!((library.save(layer, &mut saved), plain.save(layer, &mut other)), Default::default(), "{call:?}");
                let image = reference.image(layer).expect("there is such a layer");
                assert_eq!((saved, other), (image, image), "layer {layer} after {call:?}");
                run.compared += 1;
            }
            passed += u64::from(call == PileCall::Check && expected.number == 0);
            failed += u64::from(expected.number == 21);
            run.compared += 1;
        }
    }
    println!("{passed:>9} checks passed, {failed} named a section");
    assert!(passed > failed / 3 && failed > passed / 3, "what the lists reach");
}

/// Lists of calls on a holder with checks, saves and restores among them, from fresh memory on.
fn image_lists(run: &mut Run, random: &mut Random) {
    for _ in 0..IMAGE_LISTS {
        let mut alike = Alike::default();
        for next in images::moves(random) {
            let told = match &next {
                Move::Step(step) => vec![alike.step(step)],
                Move::Copy(from, to) => alike.copy(*from, *to).to_vec(),
            };
            told.iter().for_each(|told| run.tally.images.count(told.reply));
            run.compared += told.len() as u64;
        }
    }
}

/// Every call on memory that holds anything: damaged outlines, counts above the space, words of any value.
fn memories(run: &mut Run, random: &mut Random) {
    for _ in 0..MEMORIES {
        let mut memory = images::any_memory(random);
        for _ in 0..30 {
            let told = images::on_any(&mut memory, &images::any_step(random));
            run.tally.memories.count(told.reply);
            run.compared += 1;
        }
    }
}

fn pile_memories(run: &mut Run, random: &mut Random) {
    for _ in 0..PILE_MEMORIES {
        let mut pile = images::any_pile(random);
        for _ in 0..30 {
            let told = images::on_any_pile(&mut pile, &images::any_pile_step(random));
            run.tally.memories.count(told.reply);
            run.compared += 1;
        }
    }
}
