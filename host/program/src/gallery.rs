//! The pictures of the documents, by the names of their files.

use robequarry::Verdict;

use crate::engine::Help;
use crate::input::{entries, Entry};
use crate::picture::{beside, picture, sheet, Tile};

pub const SPECIMENS: &str = include_str!("../specimens.txt");
pub const TRAINING: &str = include_str!("../training.txt");

/// How many of the specimens have their tile on the sheet: H1 to H12.
const MARKED: usize = 12;

/// Each specimen and each block for training by itself, two sheets, and a block with a dent beside its completion.
pub fn gallery() -> Vec<(String, String)> {
    let (specimens, training) = (judged(SPECIMENS), judged(TRAINING));
    let each = specimens.iter().chain(&training);
    let mut pictures: Vec<(String, String)> = each
        .map(|(entry, verdict)| (format!("{}.svg", file_name(entry)), picture(name(entry), &entry.outline, verdict)))
        .collect();
    let marked = sheet("The specimens H1 to H12", &tiles(&specimens[..MARKED]), 4, 226.0);
    let two = sheet("A block that is taken, and one with a dent", &tiles(&training[..2]), 2, 420.0);
    let (dented, verdict) = &training[1];
    let help = Help::of(&dented.outline).expect("it lacks a cell");
    let instead = beside(name(dented), &dented.outline, verdict, &help.completed);
    let sheets = [("specimens", marked), ("two-blocks", two), ("draw-this-instead", instead)];
    pictures.extend(sheets.map(|(name, svg)| (format!("{name}.svg"), svg)));
    pictures
}

type Judged = (Entry, Verdict);

fn judged(text: &str) -> Vec<Judged> {
    let judge = |entry: Entry| (entry.clone(), entry.outline.test());
    entries(text).into_iter().map(judge).collect()
}

fn tiles(judged: &[Judged]) -> Vec<Tile<'_>> {
    judged.iter().map(tile).collect()
}

fn tile((entry, verdict): &Judged) -> Tile<'_> {
    Tile { title: name(entry), outline: &entry.outline, verdict, added: Vec::new() }
}

fn name(entry: &Entry) -> &str {
    entry.name.as_deref().expect("our own outlines have names")
}

/// `H3` of `H3: a plus`, and `a-block-that-is-taken` of a name without a number.
fn file_name(entry: &Entry) -> String {
    let name = name(entry);
    match name.split_once(':') {
        Some((number, _)) if number.starts_with('H') => number.to_string(),
        _ => name.to_lowercase().replace([' ', ':'], "-").replace("--", "-"),
    }
}
