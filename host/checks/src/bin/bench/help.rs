//! A witness and a completion of outlines with a dent: against the test that refuses the same outlines, and against plain Rust.

use std::hint::black_box;

use robequarry::limits::{LONGEST, REPLY, WITNESS_NUMBERS};
use robequarry_checks::engine::{Engine, Library, Plain};
use robequarry_checks::random::Random;
use robequarry_checks::report::{Goal, Ratio};
use robequarry_checks::timing::race;

use super::{taken, test_by, Bench, Set, TO_PLAIN};

/// To the refusal by 9, which names the missing cell without its three cells.
const REFUSAL_GOAL: Goal = Goal::AtMost(1.6);

const LENGTHS: [usize; 3] = [100, 250, 600];

/// The names of a witness and of a completion, and how many flips are tried for a missing cell high up.
const KINDS: [([&str; 2], usize); 2] = [(["witness", "completion"], 1), (["witness, high up", "completion, high up"], 40)];

pub fn all(bench: &mut Bench, random: &mut Random) {
    for letters in LENGTHS {
        let taken = Set::new("taken", letters, || taken(random, letters));
        for ([witness, completion], tries) in KINDS {
            let mut set = taken.flipped(witness, random, tries);
            let race_of_three =
                race([&mut witness_by(&Library, &set), &mut witness_by(&Plain, &set), &mut test_by(&Library, &set)]);
            let ratio = Ratio::new("witness/refusal", race_of_three.ratio(0, 2), Some(REFUSAL_GOAL));
            bench.add_set(&set, &race_of_three, ratio);
            bench.add_set(&set, &race_of_three, Ratio::new(TO_PLAIN, race_of_three.ratio(0, 1), None));

            set.name = completion;
            let race_of_three =
                race([&mut complete_by(&Library, &set), &mut complete_by(&Plain, &set), &mut test_by(&Library, &set)]);
            let ratio = Ratio::new("completion/refusal", race_of_three.ratio(0, 2), Some(REFUSAL_GOAL));
            bench.add_set(&set, &race_of_three, ratio);
            bench.add_set(&set, &race_of_three, Ratio::new(TO_PLAIN, race_of_three.ratio(0, 1), None));
        }
    }
}

fn witness_by<'a>(engine: &'a dyn Engine, set: &'a Set) -> impl FnMut() + 'a {
    let mut turns = set.lists.iter().cycle();
    let mut cells = [0; WITNESS_NUMBERS];
    let mut reply = [0; REPLY];
    move || {
        let outline = turns.next().expect("the set is not empty");
        engine.witness(black_box(outline.start), black_box(&outline.letters), &mut cells, &mut reply);
        black_box((&cells, &reply));
    }
}

fn complete_by<'a>(engine: &'a dyn Engine, set: &'a Set) -> impl FnMut() + 'a {
    let mut turns = set.lists.iter().cycle();
    let mut out = [0; LONGEST];
    let mut reply = [0; REPLY];
    move || {
        let outline = turns.next().expect("the set is not empty");
        engine.complete(black_box(outline.start), black_box(&outline.letters), &mut out, &mut reply);
        black_box((&out, &reply));
    }
}
