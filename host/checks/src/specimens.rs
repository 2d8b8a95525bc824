//! The contract's specimens (clause 9), from the program's own file of them.

use crate::{Outline, Point};

const FILE: &str = include_str!("../../program/specimens.txt");

/// H1, H2, H3, H5 and the one with as many edges as any: those that are taken, each once.
pub fn taken() -> Vec<Outline> {
    ["H1", "H2", "H3", "H5", "As many edges"].map(specimen).to_vec()
}

/// The outline whose name begins so: `H3`, or `As many edges`.
pub fn specimen(name: &str) -> Outline {
    let named = |line: &&str| line.split_once('#').is_some_and(|(_, after)| after.trim().starts_with(name));
    let line = FILE.lines().find(named).unwrap_or_else(|| panic!("there is no specimen {name}"));
    let words: Vec<&str> = line.split_whitespace().take(3).collect();
    let number = |word: &str| word.parse().expect("a start has two numbers");
    Outline {
        start: Point::new(number(words[0]), number(words[1])),
        letters: words[2].bytes().map(|digit| digit - b'0').collect(),
    }
}
