//! Calls one engine over one set of lists, for a profiler: `profile library|plain KIND LETTERS CALLS [test|witness|completion]`.

use std::env;
use std::hint::black_box;

use robequarry::limits::{LONGEST, LONGEST_LIST, REPLY, SIDE, WITNESS_NUMBERS};
use robequarry_checks::draw::{reversed, round_outline, with_a_cell_flipped};
use robequarry_checks::engine::{Engine, Library, Plain};
use robequarry_checks::random::Random;
use robequarry_checks::{plain, Outline, Point};

fn number(outline: &Outline) -> u16 {
    plain::test(outline.start, &outline.letters, &mut [0; LONGEST_LIST]).number
}

fn main() {
    let arguments: Vec<String> = env::args().skip(1).collect();
    let (engine, kind, letters, calls, call) = match &arguments[..] {
        [engine, kind, letters, calls] => (engine, kind, letters, calls, "test"),
        [engine, kind, letters, calls, call] => (engine, kind, letters, calls, call.as_str()),
        _ => panic!("profile library|plain KIND LETTERS CALLS [test|witness|completion]"),
    };
    let letters: usize = letters.parse().expect("a count");
    let calls: usize = calls.parse().expect("a count");
    let mut random = Random::new(1);
    let taken = |random: &mut Random| loop {
        let outline = round_outline(random, letters);
        if number(&outline) == 0 {
            return outline;
        }
    };
    let lists: Vec<Outline> = (0..16)
        .map(|_| match kind.as_str() {
            "taken" => taken(&mut random),
            "anticlockwise" => reversed(&taken(&mut random)),
            "short" => {
                let mut outline = taken(&mut random);
                outline.letters.pop();
                outline
            }
            "flipped" => loop {
                let base = taken(&mut random);
                let flipped = with_a_cell_flipped(&mut random, &base);
                if number(&flipped) == 9 {
                    break flipped;
                }
            },
            "letters" => {
                Outline { start: Point::new(SIDE / 2, SIDE / 2), letters: (0..letters).map(|_| random.letter()).collect() }
            }
            _ => panic!("no such kind"),
        })
        .collect();
    let engine: &dyn Engine = if engine == "plain" { &Plain } else { &Library };
    let mut edges = [0; LONGEST_LIST];
    let mut cells = [0; WITNESS_NUMBERS];
    let mut out = [0; LONGEST];
    let mut reply = [0; REPLY];
    for outline in lists.iter().cycle().take(calls) {
        let (start, letters) = (black_box(outline.start), black_box(&outline.letters));
        match call {
            "test" => engine.test(start, letters, &mut edges, &mut reply),
            "witness" => engine.witness(start, letters, &mut cells, &mut reply),
            "completion" => engine.complete(start, letters, &mut out, &mut reply),
            _ => panic!("no such call"),
        }
        black_box((&edges, &cells, &out, &reply));
    }
}
