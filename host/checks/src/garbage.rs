//! Letter lists and edge lists that nobody should send.

use robequarry::limits::{LAST_CORNER, LAST_LETTER, LONGEST, LONGEST_LIST, SHORTEST, WITNESS_NUMBERS};

use crate::case::Case;
use crate::draw::{reversed, Shape};
use crate::random::Random;
use crate::{Outline, Point};

/// A drawn outline of any shape but the long ones.
pub fn any_outline(random: &mut Random) -> Outline {
    let shape = Shape::ALL[random.below(Shape::ALL.len() - 1)];
    shape.draw(random)
}

/// The length of a buffer for edges: most often space for everything, sometimes none or nearly none.
pub fn edge_space(random: &mut Random) -> usize {
    match random.below(4) {
        0 => random.below(48),
        1 => random.from_to(LONGEST_LIST - 2, LONGEST_LIST + 68),
        _ => LONGEST_LIST,
    }
}

/// The length of a buffer for letters: most often space for any outline's, sometimes less or none.
pub fn letter_space(random: &mut Random) -> usize {
    match random.below(4) {
        0 => random.below(48),
        1 => random.from_to(0, LONGEST + 68),
        _ => LONGEST,
    }
}

/// The length of a buffer for the cells of a witness: most often enough, sometimes too short or none.
pub fn cell_space(random: &mut Random) -> usize {
    match random.below(4) {
        0 => random.below(WITNESS_NUMBERS + 1),
        1 => random.from_to(WITNESS_NUMBERS, 40),
        _ => WITNESS_NUMBERS,
    }
}

/// A test of a list of letters that is spoilt in one way or another.
pub fn spoilt_test(random: &mut Random) -> Case {
    let outline = spoilt(random);
    Case::Test { outline, space: edge_space(random) }
}

/// A witness, or a completion, of such a list.
pub fn spoilt_help(random: &mut Random) -> Case {
    let outline = spoilt(random);
    if random.once_in(2) {
        Case::Witness { outline, space: cell_space(random) }
    } else {
        Case::Complete { outline, space: letter_space(random) }
    }
}

fn spoilt(random: &mut Random) -> Outline {
    match random.below(12) {
        0 => any_bytes(random),
        1 => any_letters(random),
        2 => any_length(random),
        3 => one_way(random),
        4 => reversed(&any_outline(random)),
        5 => Outline { start: random.odd_point(), ..any_outline(random) },
        6 => near_the_border(random),
        7 => twice(random),
        _ => damaged(random),
    }
}

fn any_bytes(random: &mut Random) -> Outline {
    let largest = [4, 5, 16, 255][random.below(4)];
    let count = random.below(40);
    Outline { start: random.odd_point(), letters: (0..count).map(|_| random.from_to(0, largest) as u8).collect() }
}

/// Steps in any direction: the walk soon touches itself or stays open.
fn any_letters(random: &mut Random) -> Outline {
    let count = random.from_to(2, 14);
    Outline { start: random.corner(), letters: (0..count).map(|_| random.letter()).collect() }
}

/// A list of a length near a limit, also those of 8, 12 and 16 bits.
fn any_length(random: &mut Random) -> Outline {
    let limits = [0, SHORTEST - 1, SHORTEST, 255, 256, LONGEST - 1, LONGEST, LONGEST + 1, 4096, 65_535, 65_540];
    let limit = limits[random.below(limits.len())];
    let round = [[1, 0, 3, 2], [1, 1, 3, 3], [0, 2, 0, 2], [1, 1, 1, 1]][random.below(4)];
    Outline { start: random.corner(), letters: round.into_iter().cycle().take(limit).collect() }
}

/// Straight on until the chart ends, or not quite.
fn one_way(random: &mut Random) -> Outline {
    let letter = random.letter();
    Outline { start: random.corner(), letters: vec![letter; random.from_to(1, 300)] }
}

/// An outline moved so that it may leave the chart.
fn near_the_border(random: &mut Random) -> Outline {
    let outline = any_outline(random);
    let last = usize::from(LAST_CORNER);
    let edge = |random: &mut Random| if random.once_in(2) { random.below(6) } else { random.from_to(last - 5, last) };
    let start = Point::new(edge(random) as u16, edge(random) as u16);
    Outline { start, ..outline }
}

/// An outline walked twice, or two outlines from one start.
fn twice(random: &mut Random) -> Outline {
    let mut outline = any_outline(random);
    let more = if random.once_in(2) { outline.letters.clone() } else { any_outline(random).letters };
    outline.letters.extend(more);
    outline
}

/// An outline with a letter changed, left out, put in or two exchanged, or cut short; also a bad letter.
fn damaged(random: &mut Random) -> Outline {
    let mut outline = any_outline(random);
    let letters = &mut outline.letters;
    let place = random.below(letters.len());
    match random.below(6) {
        0 => letters[place] = random.letter(),
        1 => drop(letters.remove(place)),
        2 => letters.insert(place, random.letter()),
        3 => letters.swap(place, random.below(place + 1)),
        4 => letters.truncate(place),
        _ => letters[place] = [LAST_LETTER + 1, 5, 7, 128, 131, u8::MAX][random.below(6)],
    }
    outline
}

/// A loose query with any list.
pub fn loose(random: &mut Random) -> Case {
    let longest = [6, 6, 40, LONGEST_LIST, LONGEST_LIST + 8, 70_000][random.below(6)];
    let count = random.from_to(0, longest);
    let count = if random.once_in(8) { count } else { count / 2 * 2 };
    let reach = [1, 3, 60, 32_767][random.below(4)];
    let edges = (0..count).map(|_| (random.from_to(0, 2 * reach as usize) as i32 - reach) as i16).collect();
    Case::Loose { anchor: cell(random), edges, cell: cell(random) }
}

/// A border with the list of a loose query.
pub fn border(random: &mut Random) -> Case {
    let Case::Loose { anchor, edges, .. } = (if random.once_in(2) { loose(random) } else { round_walk(random) }) else {
        unreachable!("those are loose queries");
    };
    Case::Border { anchor, edges, space: letter_space(random) }
}

/// A loose query whose list leads clockwise round a parallelogram, or nearly so. It may reach far off the chart, where sides have
/// values of more than 32 bits.
pub fn round_walk(random: &mut Random) -> Case {
    let reach = [2, 5, 60, 32_767][random.below(4)];
    let times = [1, 1, 3, LONGEST_LIST / 8][random.below(4)];
    let mut any = || random.below(reach + 1) as i16;
    let (a, b, c, d) = (any(), any(), any(), any());
    let mut edges: Vec<i16> = [[a, b], [c, -d], [-a, -b], [-c, d]].iter().flat_map(|side| side.repeat(times)).collect();
    if random.once_in(4) {
        let i = random.below(edges.len());
        edges[i] = edges[i].wrapping_add([-1, 1, i16::MIN][random.below(3)]);
    }
    let anchor = cell(random);
    let near = |x: u16, by: usize| (x.wrapping_add(by as u16)).wrapping_sub(3);
    let cell = if random.once_in(3) {
        cell(random)
    } else {
        Point::new(near(anchor.col, random.below(9)), near(anchor.row, random.below(9)))
    };
    Case::Loose { anchor, edges, cell }
}

/// A cell, mostly on the chart.
pub fn cell(random: &mut Random) -> Point {
    if random.once_in(10) {
        return random.odd_point();
    }
    random.cell()
}
