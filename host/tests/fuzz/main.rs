//! Fuzzing of both parsers: a bounded count of inputs from a seed, so that every run is the same and ends by itself.
//!
//! `targets` has a function for each parser that takes any bytes; a fuzzer with coverage can call the same.

mod inputs;
mod targets;

use inputs::{Inputs, EDGES, FITTING, TEXT};

/// So many inputs for each parser.
const INPUTS: usize = 30_000;

fn fuzz(seeds: &[&[u8]], target: fn(&[u8])) {
    for seed in seeds {
        target(seed);
    }
    let mut inputs = Inputs::new(42, seeds);
    for _ in 0..INPUTS {
        target(&inputs.next());
    }
}

#[test]
fn fitting_files() {
    fuzz(FITTING, targets::fitting);
    fuzz(TEXT, targets::fitting);
}

#[test]
fn texts() {
    fuzz(TEXT, targets::text);
    fuzz(FITTING, targets::text);
}

#[test]
fn lists_of_edges() {
    fuzz(EDGES, targets::edges);
}

/// The length at which a fitting file is too large.
#[test]
fn the_largest_fitting_files() {
    let record = [0x4B, 0x4F, 1, 2, 0, 0];
    for length in 65_530..65_545 {
        let file: Vec<u8> = record.iter().copied().cycle().take(length).collect();
        targets::fitting(&file);
    }
}
