//! Calls on a holder: by their arguments and as bytes, one by one and in a replay.

use std::hint::black_box;

use robequarry::codec::INSIDE;
use robequarry::limits::{CALL, IMAGE, LAST_CELL, LONGEST, REPLY, SIDE};
use robequarry::raw::{HolderMemory, Reply};
use robequarry::{Action, Call, Edges, Holder, Reading};
use robequarry_checks::engine::{Engine, Library, Plain};
use robequarry_checks::live::{after, fresh};
use robequarry_checks::random::Random;
use robequarry_checks::report::{Goal, Row};
use robequarry_checks::scripts::to_work;
use robequarry_checks::specimens::specimen;
use robequarry_checks::timing::race;
use robequarry_checks::{plain, Outline, Point};

use super::{between, polygon, taken, Bench, Timed, DRAWN};

const BY_ARGUMENTS: Goal = Goal::AtMost(1.2);
const AS_BYTES: Goal = Goal::AtMost(3.0);
const READING: Goal = Goal::AtMost(1.15);
const WHOLE: Goal = Goal::AtMost(1.15);

const PARTY: u8 = 1;
const PLACE: u8 = 3;

/// How many calls of a kind take turns.
const TURNS: usize = 1024;

pub fn all(bench: &mut Bench, random: &mut Random) {
    let outline = taken(random, DRAWN);
    let closed = to_work(&outline, PARTY, PLACE);
    let cells: Vec<Point> = (0..TURNS).map(|_| random.cell()).collect();

    by_arguments(bench, &outline, &closed, &cells);
    as_bytes(bench, &outline, &closed, &cells);
    for (names, outline) in [
        (["reading, 8 edges", "reading, 8 edges, as bytes"], octagon(Point::new(60, 60), 60, 40)),
        (["reading, 100 edges", "reading, 100 edges, as bytes"], specimen("As many edges")),
    ] {
        readings(bench, random, names, &outline);
    }
    bench.add_call("begin, 600 adds, close", whole(&outline), Some(WHOLE));
    bench.add_call("the same as bytes", whole_as_bytes(&closed), Some(AS_BYTES));
    bench.add_call("the same in a replay", race_replays(&closed), None);
    images(bench, &closed);
    let [contains, query] = through_the_wrapper(&outline, &cells);
    bench.report.add(Row { name: "Edges::contains", letters: DRAWN, nanoseconds: contains, ratio: None });
    bench.report.add(Row { name: "Holder::query", letters: DRAWN, nanoseconds: query, ratio: None });
}

/// What is at work checked, saved and restored.
fn images(bench: &mut Bench, closed: &[u8]) {
    let (party, place) = unknown();
    let (mut library, mut plain) = holders(closed);
    let (mut reply, mut image, mut other): (Reply, _, _) = ([0; REPLY], [0; IMAGE], [0; IMAGE]);
    let checked = between(
        &mut || {
            library.check(party, place, &mut reply);
            black_box(&reply);
        },
        &mut || {
            black_box(plain.check(party, place));
        },
    );
    bench.add_call("check", checked, None);
    let saved = between(
        &mut || {
            library.save(party, place, &mut image, &mut reply);
            black_box((&image, &reply));
        },
        &mut || {
            black_box(plain.save(party, place, &mut other));
        },
    );
    bench.add_call("save", saved, None);
    assert_eq!(image, other, "both save the same");
    let restored = between(
        &mut || {
            library.restore(party, place, &image, &mut reply);
            black_box(&reply);
        },
        &mut || {
            black_box(plain.restore(party, place, &other));
        },
    );
    bench.add_call("restore", restored, None);
}

/// An octagon whose straight sides have so many cells, and whose slanting sides so many steps.
pub fn octagon(anchor: Point, straight: i16, slant: i16) -> Outline {
    let (s, d) = (straight, slant);
    let edges = [0, s, d, d, s, 0, d, -d, 0, -s, -d, -d, -s, 0, -d, d];
    let anchor = Point::new(anchor.col, anchor.row + d as u16);
    let mut letters = vec![0; LONGEST];
    let reply = plain::border(anchor, &edges, &mut letters);
    assert_eq!(reply.number, 0, "an octagon has a border");
    letters.truncate(reply.place.into());
    Outline { start: anchor, letters }
}

/// The library's holder and the rival's, after some calls.
fn holders(before: &[u8]) -> (Box<HolderMemory>, Box<plain::Holder>) {
    let mut plain = Box::<plain::Holder>::default();
    for call in before.chunks_exact(CALL) {
        plain.call(call, &mut [0; REPLY]);
    }
    (after(before), plain)
}

/// Times a call where each rival makes so many of them at a time.
fn each_of(count: usize, mut library: impl FnMut(), mut plain: impl FnMut()) -> Timed {
    let (nanoseconds, ratio) = between(&mut library, &mut plain);
    (nanoseconds / count as f64, ratio)
}

/// A party and a place that the compiler does not know.
fn unknown() -> (u8, u8) {
    black_box((PARTY, PLACE))
}

fn by_arguments(bench: &mut Bench, outline: &Outline, closed: &[u8], cells: &[Point]) {
    let (party, place) = unknown();
    let (mut library, mut plain) = holders(closed);
    let mut reply: Reply = [0; REPLY];
    let mut add = |name, timed| bench.add_call(name, timed, Some(BY_ARGUMENTS));

    let letters = &outline.letters[..];
    let start = outline.start;
    add(
        "add",
        each_of(
            letters.len(),
            || {
                library.drop_draft(party, &mut reply);
                library.begin(party, start.col, start.row, &mut reply);
                for &letter in letters {
                    library.add(party, letter, &mut reply);
                    black_box(&reply);
                }
            },
            || {
                plain.drop_draft(party);
                plain.begin(party, start);
                for &letter in letters {
                    black_box(plain.add(party, letter));
                }
            },
        ),
    );
    add(
        "query",
        each_of(
            cells.len(),
            || {
                for cell in cells {
                    library.query(party, place, cell.col, cell.row, &mut reply);
                    black_box(&reply);
                }
            },
            || {
                for &cell in cells {
                    black_box(plain.query(party, place, cell));
                }
            },
        ),
    );
    add(
        "row",
        each_of(
            SIDE.into(),
            || {
                for row in 0..SIDE {
                    library.row(party, place, row, &mut reply);
                    black_box(&reply);
                }
            },
            || {
                for row in 0..SIDE {
                    black_box(plain.row(party, place, row));
                }
            },
        ),
    );
    let positions = polygon(outline).edges.len() as u16 / 2 + 1;
    let (mut point, mut other_point) = ([0.0; 2], [0.0; 2]);
    add(
        "piece",
        each_of(
            positions.into(),
            || {
                for position in 0..positions {
                    library.piece(party, place, position, &mut point, &mut reply);
                    black_box((&point, &reply));
                }
            },
            || {
                for position in 0..positions {
                    black_box(plain.piece(party, place, position, &mut other_point));
                    black_box(&other_point);
                }
            },
        ),
    );
    // A draft is made away, or made, by one number before each begin and each drop.
    let head = 4 * usize::from(party);
    add(
        "begin",
        each_of(
            cells.len(),
            || {
                for cell in cells {
                    library.heads[head] = 0;
                    library.begin(party, cell.col, cell.row, &mut reply);
                    black_box(&reply);
                }
            },
            || {
                for &cell in cells {
                    plain.set_begun(party, false);
                    black_box(plain.begin(party, cell));
                }
            },
        ),
    );
    add(
        "drop",
        each_of(
            TURNS,
            || {
                for _ in 0..TURNS {
                    library.heads[head] = 1;
                    library.drop_draft(party, &mut reply);
                    black_box(&reply);
                }
            },
            || {
                for _ in 0..TURNS {
                    plain.set_begun(party, true);
                    black_box(plain.drop_draft(party));
                }
            },
        ),
    );
    add(
        "clear",
        each_of(
            TURNS,
            || {
                for _ in 0..TURNS {
                    library.clear(party, place, &mut reply);
                    black_box(&reply);
                }
            },
            || {
                for _ in 0..TURNS {
                    black_box(plain.clear(party, place));
                }
            },
        ),
    );
}

fn as_bytes(bench: &mut Bench, outline: &Outline, closed: &[u8], cells: &[Point]) {
    let mut add = |name, timed| bench.add_call(name, timed, Some(AS_BYTES));
    let script = |actions: &mut dyn Iterator<Item = Action>| Call::script(actions.map(|action| action.by(PARTY)));
    let begin = Action::Begin(outline.start.into());
    let letters = outline.letters.iter().map(|&letter| Action::Add(letter));
    let drawing = script(&mut [Action::Drop, begin].into_iter().chain(letters));
    add("add as bytes", bytes_after(closed, &drawing, None));
    let queries = script(&mut cells.iter().map(|&cell| Action::Query { place: PLACE, cell: cell.into() }));
    add("query as bytes", bytes_after(closed, &queries, None));
    add("row as bytes", bytes_after(closed, &script(&mut (0..SIDE).map(|row| Action::Row { place: PLACE, row })), None));
    let positions = 0..polygon(outline).edges.len() as u16 / 2 + 1;
    let pieces = script(&mut positions.map(|position| Action::Piece { place: PLACE, position }));
    add("piece as bytes", bytes_after(closed, &pieces, None));
    let begins = script(&mut cells.iter().map(|&cell| Action::Begin(cell.into())));
    add("begin as bytes", bytes_after(closed, &begins, Some(false)));
    add("drop as bytes", bytes_after(closed, &script(&mut std::iter::repeat_n(Action::Drop, TURNS)), Some(true)));
    let clears = script(&mut std::iter::repeat_n(Action::Clear { place: PLACE }, TURNS));
    add("clear as bytes", bytes_after(closed, &clears, None));
}

/// Calls as bytes on a holder, after some calls; where it is said, there is a draft before each of them, or none.
fn bytes_after(before: &[u8], script: &[u8], begun: Option<bool>) -> Timed {
    let (mut library, mut plain) = holders(before);
    let (mut reply, mut other) = ([0; REPLY], [0; REPLY]);
    let head = 4 * usize::from(PARTY);
    each_of(
        script.len() / CALL,
        || {
            for call in script.chunks_exact(CALL) {
                if let Some(begun) = begun {
                    library.heads[head] = begun.into();
                }
                black_box(library.call(call, &mut reply));
                black_box(&reply);
            }
        },
        || {
            for call in script.chunks_exact(CALL) {
                if let Some(begun) = begun {
                    plain.set_begun(PARTY, begun);
                }
                black_box(plain.call(call, &mut other));
                black_box(&other);
            }
        },
    )
}

/// Readings inside an outline, so that every edge is walked.
fn readings(bench: &mut Bench, random: &mut Random, names: [&'static str; 2], outline: &Outline) {
    let closed = to_work(outline, PARTY, PLACE);
    let (library, plain) = holders(&closed);
    let mut number = || f32::from(LAST_CELL) * random.fraction() as f32;
    let inside = |reading: &Reading| plain.reading(PARTY, PLACE, *reading).word == INSIDE;
    let readings: Vec<Reading> =
        std::iter::repeat_with(|| Reading::new(number(), number())).filter(inside).take(TURNS).collect();
    let (party, place) = unknown();
    let mut reply = [0; REPLY];
    let timed = each_of(
        readings.len(),
        || {
            for &Reading { angle, load } in &readings {
                library.reading(party, place, angle, load, &mut reply);
                black_box(&reply);
            }
        },
        || {
            for &reading in &readings {
                black_box(plain.reading(party, place, reading));
            }
        },
    );
    bench.add_call(names[0], timed, Some(READING));
    let asked = Call::script(readings.iter().map(|&reading| Action::Reading { place: PLACE, reading }.by(PARTY)));
    bench.add_call(names[1], bytes_after(&closed, &asked, None), Some(AS_BYTES));
}

/// A whole outline drawn and closed on a holder that stays.
fn whole(outline: &Outline) -> Timed {
    let (party, place) = unknown();
    let (mut library, mut plain) = (fresh(), Box::<plain::Holder>::default());
    let mut reply = [0; REPLY];
    let Outline { start, letters } = outline;
    each_of(
        1,
        || {
            library.begin(party, start.col, start.row, &mut reply);
            for &letter in letters {
                library.add(party, letter, &mut reply);
                black_box(&reply);
            }
            library.close(party, place, &mut reply);
            black_box(&reply);
        },
        || {
            plain.begin(party, *start);
            for &letter in letters {
                black_box(plain.add(party, letter));
            }
            black_box(plain.close(party, place));
        },
    )
}

fn whole_as_bytes(script: &[u8]) -> Timed {
    let (mut library, mut plain) = (fresh(), Box::<plain::Holder>::default());
    let (mut reply, mut other) = ([0; REPLY], [0; REPLY]);
    each_of(
        1,
        || {
            for call in script.chunks_exact(CALL) {
                black_box(library.call(call, &mut reply));
                black_box(&reply);
            }
        },
        || {
            for call in script.chunks_exact(CALL) {
                black_box(plain.call(call, &mut other));
                black_box(&other);
            }
        },
    )
}

fn replay_by<'a>(engine: &'a dyn Engine, script: &'a [u8]) -> impl FnMut() + 'a {
    let mut replies = vec![0; script.len() / CALL * REPLY];
    move || {
        engine.replay(black_box(script), &mut replies);
        black_box(&replies);
    }
}

fn race_replays(script: &[u8]) -> Timed {
    between(&mut replay_by(&Library, script), &mut replay_by(&Plain, script))
}

/// A query by the edges, and one through the Rust holder.
fn through_the_wrapper(outline: &Outline, cells: &[Point]) -> [f64; 2] {
    let start = outline.start.into();
    let edges: Edges = robequarry::Outline::new(start, &outline.letters[..]).test().expect("the outline is taken");
    let mut holder = Holder::new();
    holder.begin(0, start).expect("there is no draft");
    for &letter in &outline.letters {
        holder.add(0, letter).expect("the draft has space");
    }
    holder.close(0, 0).expect("the outline is taken");
    let mut contains = || {
        for &cell in cells {
            let _ = black_box(edges.contains(cell.into()));
        }
    };
    let mut query = || {
        for &cell in cells {
            let _ = black_box(holder.query(0, 0, cell.into()));
        }
    };
    let race = race([&mut contains, &mut query]);
    [0, 1].map(|rival| race.least(rival) / cells.len() as f64)
}
