//! Readings: the reference's rounding against the machine's, the library against the reference, and what the contract says of every
//! answer.

use robequarry::codec::{INSIDE, OUTSIDE, UNDECIDED};
use robequarry::limits::{LAST_CELL, MOST_NUMBERS, PARTIES, PLACES, REPLY, SIDE};
use robequarry::{raw, Action, Reading};
use robequarry_checks::case::Case;
use robequarry_checks::draw::{any_taken, bar};
use robequarry_checks::engine::{Engine, Library, Live, Plain, Reference};
use robequarry_checks::live::AtWork;
use robequarry_checks::random::Random;
use robequarry_checks::reference::cells::Enclosed;
use robequarry_checks::reference::edges::steps;
use robequarry_checks::reference::readings::{
    broken_claim, located, loose_reading, rounded, value, values, whole, Edge, Polygon, Values, SIXTY_FOURTH,
};
use robequarry_checks::reference::wide::Wide;
use robequarry_checks::reply::{numbered, said};
use robequarry_checks::scripts::asking;
use robequarry_checks::specimens::{self, specimen};
use robequarry_checks::{garbage, polygons, sensors, Fields, Outline, Point};

/// A float of a size at which no step of a side value overflows.
fn any_float(random: &mut Random) -> f32 {
    let exponent = random.below(160) as u32;
    f32::from_bits((random.below(2) as u32) << 31 | exponent << 23 | random.below(1 << 23) as u32)
}

fn exact(x: f32) -> Wide {
    value(x.to_bits()).expect("the float is finite")
}

#[test]
fn rounding_is_the_machines() {
    let random = &mut Random::new(1);
    for _ in 0..200_000 {
        let (a, b) = (any_float(random), any_float(random));
        assert_eq!(rounded(exact(a)), exact(a), "{a:e}");
        assert_eq!(rounded(exact(a) - exact(b)), exact(a - b), "{a:e} - {b:e}");
        let n = random.from_to(0, 65_535) as i64 - 32_768;
        assert_eq!(rounded(exact(a) * n), exact(n as f32 * a), "{n} * {a:e}");
        assert_eq!(whole(n), exact(n as f32), "{n}");
    }
    // Half-way between two floats: to the even one, down and up.
    for tie in [0x0100_0001, 0x0100_0003, 0x0200_0002, 0x0200_0006] {
        assert_eq!(rounded(whole(tie)), exact(tie as f32), "{tie}");
        assert_eq!(rounded(-whole(tie)), exact(-tie as f32), "-{tie}");
    }
}

/// The two differences of a side value, and the columns and rows by which they are multiplied, as the machine has them.
fn parts(edge: Edge, reading: Reading) -> [f32; 4] {
    let Reading { angle: x, load: y } = reading;
    [edge.step.1 as f32, x - edge.from.0 as f32, edge.step.0 as f32, y - edge.from.1 as f32]
}

/// The word where each side value is found in another way.
fn word_by(polygon: &Polygon, reading: Reading, side: impl Fn(Edge) -> Wide) -> u16 {
    let bound = Wide::power_of_two(SIXTY_FOURTH);
    let sides: Vec<Wide> = polygon.edges.iter().map(|&edge| side(edge)).collect();
    let within = values(reading).is_some_and(|values| polygon.spans(values));
    match within && sides.iter().all(|&v| v > -bound) {
        false => OUTSIDE,
        true if sides.iter().any(|&v| v < bound) => UNDECIDED,
        true => INSIDE,
    }
}

/// What the contract says holds of the reference's word, and the machine's side values are the reference's.
fn holds(polygon: &Polygon, reading: Reading) -> Option<u16> {
    let values = values(reading)?;
    for &edge in &polygon.edges {
        let [rows, across, cols, up] = parts(edge, reading);
        assert_eq!(edge.computed(values), exact(rows * across - cols * up), "{edge:?} {reading:?}");
    }
    let word = polygon.word(values);
    assert_eq!(broken_claim(polygon, values, word), None, "{reading:?}");
    Some(word)
}

/// The library's words are the reference's, of which the contract's claims hold. All of them are met.
#[test]
fn claims_of_taken_outlines() {
    let random = &mut Random::new(2);
    let mut words = [0; 8];
    for _ in 0..600 {
        let outline = any_taken(random);
        let polygon = Polygon::of(&outline).expect("it is taken");
        let mut at_work = AtWork::new(&outline, 0, 3);
        for _ in 0..60 {
            let reading = sensors::reading(random, &polygon);
            let word = holds(&polygon, reading);
            assert_eq!(at_work.reading(reading), word.map_or(numbered(11), said), "{reading:?} {outline:?}");
            words[usize::from(word.unwrap_or(0))] += 1;
        }
    }
    assert!([0, INSIDE, OUTSIDE, UNDECIDED].iter().all(|&word| words[usize::from(word)] > 2_000), "{words:?}");
}

/// The words for a reading if one product were fused with the difference, or the other one, or if nothing were rounded.
fn other_words(polygon: &Polygon, reading: Reading, values: Values) -> [u16; 3] {
    let first = |edge| {
        let [rows, across, cols, up] = parts(edge, reading);
        exact(rows.mul_add(across, -(cols * up)))
    };
    let second = |edge| {
        let [rows, across, cols, up] = parts(edge, reading);
        exact((-cols).mul_add(up, rows * across))
    };
    let sides: [&dyn Fn(Edge) -> Wide; 3] = [&first, &second, &|edge| edge.exact(values)];
    sides.map(|side| word_by(polygon, reading, side))
}

/// Each step is rounded, by itself: along long edges there are readings whose words turn on that.
#[test]
fn words_that_rounding_decides() {
    let random = &mut Random::new(5);
    let mut decided = [0; 3];
    for _ in 0..3_000 {
        let Some(outline) = polygons::outline(random) else {
            continue;
        };
        let polygon = Polygon::of(&outline).expect("a border is taken");
        for _ in 0..40 {
            let reading = sensors::reading(random, &polygon);
            let Some(values) = values(reading) else {
                continue;
            };
            let word = polygon.word(values);
            let others = other_words(&polygon, reading, values).map(|other| other != word);
            if others.contains(&true) {
                assert_eq!(AtWork::new(&outline, 1, 1).reading(reading), said(word), "{reading:?} {outline:?}");
                decided = std::array::from_fn(|i| decided[i] + u32::from(others[i]));
            }
        }
    }
    assert!(decided.iter().all(|&count| count > 20), "{decided:?}");
}

/// Any edge between two cells, at any two numbers: the bound does not need a polygon.
#[test]
fn claims_of_any_edge() {
    let random = &mut Random::new(3);
    for _ in 0..100_000 {
        let (from, to) = (random.cell(), random.cell());
        let step = (i32::from(to.col) - i32::from(from.col), i32::from(to.row) - i32::from(from.row));
        let polygon = Polygon::new(from, [step]);
        holds(&polygon, sensors::reading(random, &polygon));
    }
}

/// The library's replies, in a script and one by one, and the rival's are the book's.
#[test]
fn every_engine_answers_as_the_book() {
    let random = &mut Random::new(4);
    for i in 0..120 {
        let outline = if i % 4 == 0 { bar(random) } else { any_taken(random) };
        let polygon = Polygon::of(&outline).expect("it is taken");
        let (party, place) = (random.below(2) as u8, random.below(4) as u8);
        let asked = (0..24).map(|_| Action::Reading { place, reading: sensors::reading(random, &polygon) });
        let case = asking(&outline, party, place, asked);
        let expected = case.run(&Reference);
        for engine in [&Library as &dyn Engine, &Live, &Plain] {
            assert_eq!(case.run(engine), expected, "{}: {case}", engine.name());
        }
    }
}

/// Lists that pass the checks of a loose reading, that nearly do, and any: the library answers as the reference, and the claims hold.
#[test]
fn loose_readings() {
    let random = &mut Random::new(8);
    let mut seen = [[0; 3]; 29];
    for i in 0..30_000 {
        let case = match i % 8 {
            0 => garbage::loose(random),
            1 | 2 => polygons::loose(random),
            _ => polygons::pair(random),
        };
        let (anchor, edges) = match case {
            Case::Loose { anchor, edges, .. } => (anchor, edges),
            Case::Compare { first, .. } => (first.anchor, first.edges),
            other => unreachable!("{other}"),
        };
        let polygon = Polygon::new(anchor, steps(&edges));
        let reading = sensors::reading(random, &polygon);
        let mut reply = [9; REPLY];
        raw::loose_reading(anchor.col, anchor.row, &edges, reading.angle, reading.load, &mut reply);
        let expected = loose_reading(anchor, &edges, reading);
        assert_eq!(Fields::from(reply), expected, "{anchor:?} {edges:?} {reading:?}");
        match expected.number {
            0 => {
                let values = values(reading).expect("it is not refused");
                assert_eq!(broken_claim(&polygon, values, expected.word), None, "{anchor:?} {edges:?} {reading:?}");
                seen[0][[INSIDE, OUTSIDE, UNDECIDED].iter().position(|&word| word == expected.word).expect("a word")] += 1;
            }
            number => seen[usize::from(number)][0] += 1,
        }
    }
    let enough = [seen[0][0], seen[0][1], seen[0][2], seen[10][0], seen[11][0], seen[16][0]];
    assert!(enough.iter().all(|&count| count > 100), "{enough:?}");
}

/// With the edges of a taken outline a loose reading is the reading where the outline is at work.
#[test]
fn loose_readings_are_readings() {
    let random = &mut Random::new(10);
    for outline in outlines(random) {
        let polygon = Polygon::of(&outline).expect("it is taken");
        let (mut edges, mut reply) = ([0; MOST_NUMBERS], [0; REPLY]);
        raw::test(outline.start.col, outline.start.row, &outline.letters, &mut edges, &mut reply);
        let list = &edges[..2 * usize::from(reply[2])];
        let (col, row) = (reply[5], reply[6]);
        let mut at_work = AtWork::new(&outline, 0, 3);
        for _ in 0..300 {
            let reading = sensors::reading(random, &polygon);
            raw::loose_reading(col, row, list, reading.angle, reading.load, &mut reply);
            assert_eq!(Fields::from(reply), at_work.reading(reading), "{reading:?} {outline:?}");
        }
    }
}

/// The specimens that are taken, and some drawn outlines.
fn outlines(random: &mut Random) -> Vec<Outline> {
    let mut outlines = specimens::taken();
    outlines.extend((0..6).map(|_| any_taken(random)));
    outlines
}

/// At a cell's centre what is inside is enclosed, and what is outside is not.
#[test]
fn centres_of_whole_charts() {
    for outline in outlines(&mut Random::new(5)) {
        let polygon = Polygon::of(&outline).expect("it is taken");
        let enclosed = Enclosed::of(outline.start, &outline.letters);
        let mut at_work = AtWork::new(&outline, 1, 2);
        for (col, row) in (0..SIDE).flat_map(|col| (0..SIDE).map(move |row| (col, row))) {
            let reading = Reading::new(col.into(), row.into());
            let reply = at_work.reading(reading);
            // One in nine is recomputed where there are many edges; the differential run has all of them.
            if polygon.edges.len() < 20 || (col + row) % 9 == 0 {
                assert_eq!(reply, located(&polygon, reading), "{reading:?} {outline:?}");
            }
            let contradicted = if enclosed.has((col.into(), row.into())) { OUTSIDE } else { INSIDE };
            assert_ne!(reply.word, contradicted, "{reading:?} {outline:?}");
        }
    }
}

/// Patterns of every class, of either sign: 0, subnormal, normal, at the chart's ends and beside them, infinite, no number.
fn patterns() -> Vec<u32> {
    let last = f32::from(LAST_CELL).to_bits();
    let sizes = [
        [0, 1, 2, 0x7f_fffe, 0x7f_ffff],
        [0x80_0000, 0x80_0001, 1.0f32.to_bits(), 1.5f32.to_bits(), 100.25f32.to_bits()],
        [last - 1, last, last + 1, 255.0f32.to_bits(), 0x7f7f_ffff],
        // Infinite; signalling, the second to the fourth; quiet.
        [0x7f80_0000, 0x7f80_0001, 0x7fa5_a5a5, 0x7fbf_ffff, 0x7fc0_0000],
        [0x7fc0_0001, 0x7fe0_0000, 0x7fff_ffff, 0x7f00_0000, 0x0100_0000],
    ];
    sizes.concat().into_iter().flat_map(|size| [size, size | 1 << 31]).collect()
}

/// Every two patterns, at outlines in the chart's corners too.
#[test]
fn patterns_of_every_class() {
    let random = &mut Random::new(6);
    let mut outlines = outlines(random);
    for name in ["H1", "H2", "H3", "H5"] {
        let inner = specimen(name);
        let most = |numbers: Vec<i32>| numbers.into_iter().max().expect("a cell is enclosed") as u16;
        let cells: Vec<(i32, i32)> = Enclosed::of(inner.start, &inner.letters).cells().collect();
        let right = LAST_CELL - most(cells.iter().map(|cell| cell.0).collect());
        let up = LAST_CELL - most(cells.iter().map(|cell| cell.1).collect());
        outlines.push(Outline { start: Point::new(inner.start.col + right, inner.start.row + up), ..inner });
    }
    for outline in outlines {
        let polygon = Polygon::of(&outline).expect("it is taken");
        let mut at_work = AtWork::new(&outline, 0, 1);
        for (angle, load) in patterns().into_iter().flat_map(|angle| patterns().into_iter().map(move |load| (angle, load))) {
            let reading = Reading::from_bits(angle, load);
            let reply = at_work.reading(reading);
            assert_eq!(reply, located(&polygon, reading), "{:x?} {outline:?}", reading.bits());
            let on_chart = |pattern| (0.0..=f32::from(LAST_CELL)).contains(&f32::from_bits(pattern));
            assert_eq!(reply.number == 0, on_chart(angle) && on_chart(load), "{:x?}", reading.bits());
        }
    }
}

/// The next float above one that is not below 0, and the one before it.
fn above(x: f32) -> f32 {
    f32::from_bits(x.to_bits() + 1)
}

fn below(x: f32) -> f32 {
    f32::from_bits(x.to_bits() - 1)
}

/// The word alone of the library's reply, which is the reference's.
fn word(outline: &Outline, angle: f32, load: f32) -> u16 {
    let reading = Reading::new(angle, load);
    let reply = AtWork::new(outline, 0, 0).reading(reading);
    assert_eq!(reply, located(&Polygon::of(outline).expect("it is taken"), reading));
    assert_eq!(reply, Fields { word: reply.word, ..Fields::default() });
    reply.word
}

#[test]
fn cells_bars_and_corners() {
    let (one, bar, plus) = (specimen("H1"), specimen("H2"), specimen("H3"));
    let least = f32::from_bits(1);
    assert_eq!(word(&one, 0.0, 0.0), INSIDE);
    assert_eq!(word(&one, -0.0, -0.0), INSIDE);
    assert_eq!(word(&one, least, 0.0), OUTSIDE);
    assert_eq!(word(&one, 254.0, 254.0), OUTSIDE);
    assert_eq!(word(&bar, 1.25, 0.0), UNDECIDED);
    assert_eq!(word(&bar, 2.0, -0.0), UNDECIDED);
    assert_eq!(word(&bar, above(2.0), 0.0), OUTSIDE);
    assert_eq!(word(&bar, 1.25, least), OUTSIDE);
    assert_eq!(word(&plus, 1.0, 1.0), INSIDE);
    assert_eq!(word(&plus, 1.0, 2.0), UNDECIDED);
    assert_eq!(word(&plus, 0.5, 1.4), INSIDE);
    assert_eq!(word(&plus, 0.0, 2.0), OUTSIDE);
    assert_eq!(word(&plus, above(2.0), 1.0), OUTSIDE);
}

/// H5 has the side values X, 1 - X - Y and Y: at 1/64 it is inside, at -1/64 outside, and undecided between.
#[test]
fn the_bounds_themselves() {
    let (outline, bound) = (specimen("H5"), 1.0f32 / 64.0);
    assert_eq!(word(&outline, bound, 0.25), INSIDE);
    assert_eq!(word(&outline, below(bound), 0.25), UNDECIDED);
    assert_eq!(word(&outline, 0.25, bound), INSIDE);
    assert_eq!(word(&outline, 0.25, below(bound)), UNDECIDED);
    assert_eq!(word(&outline, 0.5, 0.5 - bound), INSIDE);
    assert_eq!(word(&outline, 0.5, above(above(0.5 - bound))), UNDECIDED);
    assert_eq!(word(&outline, 0.5, 0.5), UNDECIDED);
    assert_eq!(word(&outline, 0.5, below(0.5 + bound)), UNDECIDED);
    assert_eq!(word(&outline, 0.5, 0.5 + bound), OUTSIDE);
    // The exact value is a little less than 1/64, and the difference Y - 1 is rounded to the float that makes it 1/64.
    assert_eq!(word(&outline, 0.5, above(0.5 - bound)), INSIDE);
}

#[test]
fn refusals_in_their_order() {
    let (bad, good) = (Reading::new(f32::NAN, -1.0), Reading::new(1.0, 1.0));
    let mut at_work = AtWork::new(&specimen("H3"), 1, 2);
    let mut ask = |party, place, reading| at_work.call(Action::Reading { place, reading }.by(party));
    assert_eq!(ask(PARTIES, PLACES, bad), numbered(19));
    assert_eq!(ask(u8::MAX, 2, good), numbered(19));
    assert_eq!(ask(1, PLACES, bad), numbered(20));
    assert_eq!(ask(0, u8::MAX, good), numbered(20));
    assert_eq!(ask(1, 0, bad), numbered(12));
    assert_eq!(ask(0, 2, good), numbered(12));
    assert_eq!(ask(1, 2, bad), numbered(11));
    assert_eq!(ask(1, 2, good).word, INSIDE);
}
