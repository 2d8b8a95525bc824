//! Writes a fleet to measure with: a folder of so many files with so many outlines each, fitting files and texts in turn.
//!
//!     cargo run --release --example fleet -- FOLDER [FILES] [OUTLINES]

use std::path::{Path, PathBuf};
use std::{env, fs, io};

use robequarry::{fitting, text, Corner, Outline};
use robequarry_checks::draw::Shape;
use robequarry_checks::random::Random;

/// So many outlines are drawn, and a file takes its own from them.
const DRAWN: usize = 4000;

/// A folder has so many files.
const FOLDER: usize = 500;

/// The longest of the drawn outlines has this many letters, so that a hundred fit a fitting file on average.
const LETTERS: usize = 612;

fn main() -> io::Result<()> {
    let mut words = env::args().skip(1);
    let folder = PathBuf::from(words.next().expect("the folder to write"));
    let mut number = |default: usize| words.next().map_or(default, |word| word.parse().expect("a count"));
    let (files, outlines) = (number(10_000), number(100));
    let mut random = Random::new(42);
    let drawn = drawn(&mut random);
    for file in 0..files {
        let mut chosen = || &drawn[random.below(drawn.len())];
        let inside = folder.join(format!("clinic-{:02}", file / FOLDER));
        fs::create_dir_all(&inside)?;
        match file % 2 {
            0 => write_fitting(&inside.join(format!("{file:05}.fit")), outlines, &mut chosen)?,
            _ => write_text(&inside.join(format!("{file:05}.txt")), outlines, &mut chosen)?,
        }
    }
    Ok(())
}

/// Blocks as a clinic draws them: four in five as they should be, the others with cells flipped or grown.
fn drawn(random: &mut Random) -> Vec<Outline> {
    let good = [Shape::Ellipse, Shape::Polygon, Shape::ManySided, Shape::Ellipse];
    let bad = [Shape::FlippedEllipse, Shape::FlippedPolygon, Shape::Union, Shape::Growth];
    let draw = |random: &mut Random| {
        let shapes = if random.once_in(5) { bad } else { good };
        let side = random.from_to(10, 150) as i32;
        shapes[random.below(shapes.len())].draw_in(random, side)
    };
    let outlines = std::iter::repeat_with(|| draw(random));
    let small = outlines.filter(|outline| outline.letters.len() <= LETTERS);
    small
        .map(|outline| Outline::new(Corner::new(outline.start.col, outline.start.row), outline.letters))
        .take(DRAWN)
        .collect()
}

fn write_fitting<'a>(path: &Path, outlines: usize, chosen: &mut impl FnMut() -> &'a Outline) -> io::Result<()> {
    let records = (0..outlines).flat_map(|_| fitting::record(chosen()).expect("a start of the chart fits"));
    fs::write(path, records.collect::<Vec<u8>>())
}

fn write_text<'a>(path: &Path, outlines: usize, chosen: &mut impl FnMut() -> &'a Outline) -> io::Result<()> {
    let line = |i: usize, outline: &Outline| format!("{}  # wearer {i}\n", text::line(outline).expect("letters are digits"));
    fs::write(path, (0..outlines).map(|i| line(i, chosen())).collect::<String>())
}
