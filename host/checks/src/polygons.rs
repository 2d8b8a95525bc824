//! Lists of edges that lead once round, and lists that nearly do.

use robequarry::limits::{LAST_CELL, LONGEST, LONGEST_LIST};

use crate::case::{Case, Polygon};
use crate::garbage::{cell, letter_space};
use crate::random::Random;
use crate::reference::edges::{bad_turning, corner_cells, sooner, steps, Step};
use crate::{plain, Outline, Point};

/// Edges that lead once round clockwise from up, or none: any steps, the one that closes them, in the order of their directions,
/// those of one direction added up.
pub fn once_round(random: &mut Random, reach: i32, most: usize) -> Vec<i16> {
    let mut any = |reach: i32| random.below(2 * reach as usize + 1) as i32 - reach;
    let mut steps: Vec<Step> = Vec::new();
    let count = any(most as i32 / 2) + most as i32 / 2;
    for _ in 0..count {
        steps.push((any(reach), any(reach)));
    }
    in_order(steps)
}

/// Steps as edges that lead once round, with the one that closes them where they do not sum to zero.
fn in_order(mut steps: Vec<Step>) -> Vec<i16> {
    let sum = steps.iter().fold((0, 0), |sum, step| (sum.0 + step.0, sum.1 + step.1));
    steps.push((-sum.0, -sum.1));
    steps.retain(|&step| step != (0, 0));
    // A total order but for steps of one direction, which may stand either way.
    steps.sort_by(|&one, &other| sooner(other, one).cmp(&sooner(one, other)));
    let mut merged: Vec<Step> = Vec::new();
    for step in steps {
        match merged.last_mut() {
            Some(last) if !sooner(*last, step) => *last = (last.0 + step.0, last.1 + step.1),
            _ => merged.push(step),
        }
    }
    merged.iter().flat_map(|&(cols, rows)| [cols as i16, rows as i16]).collect()
}

/// Edges that lead once round, with one thing wrong: begun elsewhere, two edges exchanged, one parted in two, a zero edge put in, a
/// number changed, an edge left out, or walked the other way. Some of these still pass.
pub fn nearly_once_round(random: &mut Random, reach: i32, most: usize) -> Vec<i16> {
    let mut edges: Vec<[i16; 2]> = once_round(random, reach, most).chunks_exact(2).map(|edge| [edge[0], edge[1]]).collect();
    if edges.is_empty() {
        return vec![0, 0];
    }
    let i = random.below(edges.len());
    match random.below(8) {
        0 => edges.rotate_left(i),
        1 => {
            let next = (i + 1) % edges.len();
            edges.swap(i, next);
        }
        2 => edges.insert(i, edges[i]),
        3 => edges.insert(i, [0, 0]),
        4 => {
            let number = &mut edges[i][random.below(2)];
            *number = number.wrapping_add([-1, 1, i16::MIN][random.below(3)]);
        }
        5 => drop(edges.remove(i)),
        6 => edges.reverse(),
        _ => edges.iter_mut().flatten().for_each(|number| *number = number.wrapping_neg()),
    }
    edges.concat()
}

/// A loose query near what the edges meet, or anywhere.
fn near(random: &mut Random, edges: Vec<i16>) -> Case {
    let anchor = cell(random);
    let cells = corner_cells(anchor, &edges);
    let (one, other) = (cells[random.below(cells.len())], cells[random.below(cells.len())]);
    let mut by = |x: i32, y: i32| ((x + y) / 2 + random.below(5) as i32 - 2).clamp(-2, 260) as u16;
    let near = Point::new(by(one.0, other.0), by(one.1, other.1));
    let cell = if random.once_in(4) { cell(random) } else { near };
    Case::Loose { anchor, edges, cell }
}

/// A loose query whose list passes refusal 16, or nearly does.
pub fn loose(random: &mut Random) -> Case {
    let (reach, most) = [(1, 4), (2, 6), (6, 12), (60, 40), (300, 90), (15, 900)][random.below(6)];
    let edges = if random.once_in(3) { nearly_once_round(random, reach, most) } else { once_round(random, reach, most) };
    near(random, edges)
}

/// A border whose list passes refusal 16, or nearly does: small, so that some outline often has it, and now and then large.
pub fn border(random: &mut Random) -> Case {
    let (reach, most) = [(1, 4), (1, 8), (2, 6), (4, 10), (9, 20), (60, 40), (300, 90)][random.below(7)];
    let edges = if random.once_in(4) { nearly_once_round(random, reach, most) } else { once_round(random, reach, most) };
    Case::Border { anchor: cell(random), edges, space: letter_space(random) }
}

/// Moves an anchor so that the walk from it stays on the chart, where it can: somewhere, or close to a cell.
fn placed(random: &mut Random, edges: &[i16], near: Option<Point>) -> Point {
    let cells = corner_cells(Point::new(0, 0), edges);
    let mut number = |numbers: Vec<i32>, near: Option<u16>| {
        let (low, high) = (numbers.iter().min().expect("the anchor"), numbers.iter().max().expect("the anchor"));
        let (first, last) = (-low, i32::from(LAST_CELL) - high);
        if last < first {
            return 0;
        }
        let any = first + random.below((last - first + 1) as usize) as i32;
        let close = near.map(|near| i32::from(near) + random.below(7) as i32 - 3);
        close.unwrap_or(any).clamp(first, last) as u16
    };
    let col = number(cells.iter().map(|cell| cell.0).collect(), near.map(|near| near.col));
    let row = number(cells.iter().map(|cell| cell.1).collect(), near.map(|near| near.row));
    Point::new(col, row)
}

/// The outline of a few edges that may be long, if there is one.
pub fn outline(random: &mut Random) -> Option<Outline> {
    let reach = [20, 60, 120][random.below(3)];
    let edges = once_round(random, reach, 6);
    let anchor = placed(random, &edges, None);
    let mut letters = vec![0; LONGEST];
    let reply = plain::border(anchor, &edges, &mut letters);
    letters.truncate(reply.place.into());
    (reply.number == 0).then_some(Outline { start: anchor, letters })
}

/// The same edges, some of them changed by a little, and closed again.
fn altered(random: &mut Random, edges: &[i16]) -> Vec<i16> {
    let mut numbers: Vec<i16> = edges.to_vec();
    for _ in 0..random.below(3) {
        if let Some(number) = (!numbers.is_empty()).then(|| random.below(numbers.len())) {
            numbers[number] = numbers[number].saturating_add([-1, 1][random.below(2)]);
        }
    }
    in_order(steps(&numbers).collect())
}

/// Every list of up to four edges of at most one column and one row, and twice each, that leads once round.
pub fn small() -> Vec<Vec<i16>> {
    let lists = (0..5u32).flat_map(|edges| {
        let number = |digit: u32| digit as i16 - 1;
        (0..9u32.pow(edges)).map(move |code| (0..2 * edges).map(|i| number(code / 3u32.pow(i) % 3)).collect::<Vec<i16>>())
    });
    let passing: Vec<Vec<i16>> = lists.filter(|edges| !bad_turning(edges)).collect();
    let doubled = passing.iter().map(|edges| edges.iter().map(|number| 2 * number).collect());
    passing.iter().cloned().chain(doubled).collect()
}

/// Two lists to compare: of any size, close to one another, the second often the first with little changed; one in eight is spoilt.
pub fn pair(random: &mut Random) -> Case {
    let (reach, most) = [(1, 3), (1, 6), (2, 6), (3, 12), (6, 12), (9, 30), (30, 20)][random.below(7)];
    let list = |random: &mut Random| {
        if random.once_in(8) {
            nearly_once_round(random, reach, most)
        } else {
            once_round(random, reach, most)
        }
    };
    let mut one = list(random);
    if random.once_in(100) {
        one.resize([1, 3, LONGEST_LIST + 2][random.below(3)], 0);
    }
    let other = if random.once_in(3) { altered(random, &one) } else { list(random) };
    let anchor = if random.once_in(12) { cell(random) } else { placed(random, &one, None) };
    let second = match random.below(8) {
        0 => anchor,
        1 => cell(random),
        2 => placed(random, &other, None),
        _ => placed(random, &other, Some(anchor)),
    };
    let (first, second) = (Polygon { anchor, edges: one }, Polygon { anchor: second, edges: other });
    let (first, second) = if random.once_in(2) { (first, second) } else { (second, first) };
    Case::Compare { first, second }
}

#[cfg(test)]
mod tests {
    use super::*;

    #[test]
    fn those_pass_and_most_of_these_do_not() {
        let random = &mut Random::new(1);
        for (reach, most) in [(1, 4), (6, 12), (300, 90), (15, 900)] {
            for _ in 0..200 {
                let edges = once_round(random, reach, most);
                assert!(!bad_turning(&edges), "{edges:?}");
            }
            let passed = (0..200).filter(|_| !bad_turning(&nearly_once_round(random, reach, most))).count();
            assert!(passed < 150, "{passed} of 200");
        }
    }
}
