//! Borders from edges: the library and the plain Rust against a walk round the cells, each buffer as a whole.

use robequarry::limits::LAST_REFUSAL;
use robequarry_checks::case::Case;
use robequarry_checks::engine::{Engine, Library, Plain, Reference};
use robequarry_checks::garbage;
use robequarry_checks::polygons;
use robequarry_checks::random::Random;
use robequarry_checks::Point;

fn agree(case: &Case) -> u16 {
    let expected = case.run(&Reference);
    for engine in [&Library as &dyn Engine, &Plain] {
        assert_eq!(case.run(engine), expected, "{}: {case}", engine.name());
    }
    expected.reply().number
}

#[test]
fn borders_of_any_lists() {
    let random = &mut Random::new(7);
    let mut counts = [0; LAST_REFUSAL as usize + 1];
    for i in 0..6_000 {
        let case = if i % 4 == 0 { garbage::border(random) } else { polygons::border(random) };
        counts[usize::from(agree(&case))] += 1;
    }
    for number in [0, 10, 11, 16, 17, 18] {
        assert!(counts[number] > 0, "{number} was not replied: {counts:?}");
    }
}

/// Every convex block of a few edges: all lists of up to four edges within two columns and rows, where many have no border.
#[test]
fn borders_of_all_small_lists() {
    let steps: Vec<[i16; 2]> = (0..25).map(|i| [i % 5 - 2, i / 5 - 2]).filter(|step| *step != [0, 0]).collect();
    let mut lists: Vec<Vec<i16>> = vec![Vec::new()];
    let mut of_length = lists.clone();
    for _ in 0..3 {
        of_length = of_length.iter().flat_map(|list| steps.iter().map(|step| [&list[..], step].concat())).collect();
        lists.extend(of_length.iter().cloned());
    }
    let mut written = 0;
    for list in lists {
        let sum = list.chunks_exact(2).fold([0, 0], |sum, step| [sum[0] - step[0], sum[1] - step[1]]);
        let closed = if sum == [0, 0] { list } else { [&list[..], &sum].concat() };
        let case = Case::Border { anchor: Point::new(9, 9), edges: closed, space: 40 };
        written += usize::from(agree(&case) == 0);
    }
    assert!(written > 100, "{written}");
}
