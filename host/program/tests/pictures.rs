//! Pictures are read back: well-formed XML, whose cells and corners are those of the library's answer.

mod support;

use std::collections::BTreeSet;
use std::path::Path;
use std::{env, fs};

use robequarry::{Cell, Corner, Outline, Refusal, SectionKind};
use robequarry_checks::draw::{any_taken, Shape};
use robequarry_checks::random::Random;
use robequarry_checks::reference::cells::Enclosed;
use robequarry_checks::walks::outlines;
use robequarry_checks::Point;
use robequarry_program::engine::Help;
use robequarry_program::explain::told;
use robequarry_program::gallery::gallery;
use robequarry_program::input::{entries, Entry};
use robequarry_program::picture::{self, beside, picture};
use robequarry_program::pile::{Layers, Section};
use support::xml::{parse, Element};

type Cells = BTreeSet<(i32, i32)>;

/// A number that is whole, as corners are, or half, as centres are, in halves.
fn halves(number: f64) -> i32 {
    assert_eq!((2.0 * number).fract(), 0.0, "{number}");
    (2.0 * number) as i32
}

/// The cells under the rectangles of a class; a rectangle may be as wide as a run of cells.
fn cells(plot: &Element, class: &str) -> Cells {
    let mut cells = Cells::new();
    for rect in plot.of_class(class) {
        let [x, y, width, height] = ["x", "y", "width", "height"].map(|name| halves(rect.number(name)) / 2);
        assert_eq!(height, 1);
        cells.extend((x..x + width).map(|col| (col, y)));
    }
    cells
}

/// The points of a line, in halves of columns and rows.
fn points(line: &Element) -> Vec<(i32, i32)> {
    let point = |pair: &str| {
        let (x, y) = pair.split_once(',').expect("a point has two numbers");
        (halves(x.parse().expect("a number")), halves(y.parse().expect("a number")))
    };
    line.attribute("points").split(' ').map(point).collect()
}

fn only<'a>(plot: &'a Element, class: &str) -> Option<&'a Element> {
    let found = plot.of_class(class);
    assert!(found.len() <= 1, "{class}");
    found.first().copied()
}

fn centre(cell: Cell) -> (i32, i32) {
    (2 * i32::from(cell.col) + 1, 2 * i32::from(cell.row) + 1)
}

/// Reads the picture of an outline back, and holds it to what the library and the reference say.
fn holds(outline: &Outline) {
    let verdict = outline.test();
    let picture = parse(&picture("a < b & c", outline, &verdict));
    assert_eq!(picture.name, "svg");
    assert!(picture.children[0].text.starts_with("a < b & c: "));
    let plots = picture.of_class("plot");
    assert_eq!(plots.len(), 1);
    let plot = plots[0];
    if !told(&verdict) {
        assert!(cells(plot, "cells").is_empty() && plot.of_class("piece").is_empty() && plot.of_class("edges").is_empty());
        return;
    }

    let start = Point::new(outline.start.col, outline.start.row);
    let enclosed: Cells = Enclosed::of(start, &outline.letters).cells().collect();
    assert_eq!(cells(plot, "cells"), enclosed, "{outline:?}");
    let missing = cells(plot, "missing");
    triangle(&picture, plot, outline, &enclosed);
    match verdict {
        Ok(edges) => {
            let in_hull = |&(col, row): &(i32, i32)| edges.contains(Cell::new(col as u16, row as u16)).unwrap();
            assert!(enclosed.iter().all(in_hull) && missing.is_empty(), "{outline:?}");
            let mut at = centre(edges.anchor());
            let mut way = vec![at];
            for (cols, rows) in edges.steps() {
                at = (at.0 + 2 * i32::from(cols), at.1 + 2 * i32::from(rows));
                way.push(at);
            }
            assert_eq!(points(only(plot, "edges").expect("edges are drawn")), way);
            assert_eq!(round(plot), sides(outline), "{outline:?}");
        }
        Err(Refusal::Dent { length, missing: lowest, .. }) => {
            let first = missing.iter().min_by_key(|&&(col, row)| (row, col));
            assert_eq!(first, Some(&(lowest.col.into(), lowest.row.into())), "{outline:?}");
            let factor = points(only(plot, "factor").expect("the factor is drawn"));
            let chord = points(only(plot, "chord").expect("the chord is drawn"));
            assert_eq!(factor.len(), length + 1);
            assert_eq!(chord, [factor[0], factor[length]]);
            assert!(factor.iter().all(|(x, y)| enclosed.contains(&((x - 1) / 2, (y - 1) / 2))), "{outline:?}");
            assert_eq!(round(plot), sides(outline), "{outline:?}");
        }
        Err(_) => {
            assert!(!missing.is_empty() && missing.is_disjoint(&enclosed), "{outline:?}");
            assert!(plot.of_class("edges").is_empty());
        }
    }
}

/// The three cells of the witness are enclosed, and joined in a triangle; where no cell is missing, there is none.
fn triangle(picture: &Element, plot: &Element, outline: &Outline, enclosed: &Cells) {
    let drawn = only(plot, "triangle").map(points);
    let witness = outline.witness().expect("the letters go round a block");
    let Some(witness) = witness else {
        return assert_eq!((drawn, picture.of_class("named").len()), (None, 0), "{outline:?}");
    };
    assert_eq!(picture.of_class("named").len(), 2, "in the plot and in the legend");
    assert_eq!(picture.of_class("tip").len(), 5, "three in the plot and two in the legend");
    let [a, b, c] = witness.cells.map(centre);
    assert_eq!(drawn, Some(vec![a, b, c, a]), "{outline:?}");
    assert!([a, b, c].iter().all(|(x, y)| enclosed.contains(&(x / 2, y / 2))), "{outline:?}");
}

/// An outline beside its completion: the cells of the second plot are those of the first and the added ones, which are the missing ones.
fn completion(outline: &Outline) {
    let Some(help) = Help::of(outline) else {
        return;
    };
    let picture = parse(&beside("a & b", outline, &outline.test(), &help.completed));
    let plots = picture.of_class("plot");
    assert_eq!(plots.len(), 2);
    let (drawn, missing) = (cells(plots[0], "cells"), cells(plots[0], "missing"));
    let (completed, added) = (cells(plots[1], "cells"), cells(plots[1], "added"));
    assert_eq!(completed, drawn.union(&missing).copied().collect(), "{outline:?}");
    assert_eq!(added, missing, "{outline:?}");
    assert!(cells(plots[0], "added").is_empty() && cells(plots[1], "missing").is_empty());
    assert_eq!((plots[0].of_class("edges").len(), plots[1].of_class("edges").len()), (0, 1));
    assert_eq!(round(plots[1]), sides(&help.completed), "{outline:?}");
}

/// The sides that pieces 1 to 4 walk, each as the corner with the lower numbers and whether it runs up.
fn round(plot: &Element) -> BTreeSet<(i32, i32, bool)> {
    let pieces = plot.of_class("piece");
    assert_eq!(pieces.len(), 4);
    let mut sides = BTreeSet::new();
    let mut end = points(pieces[3]).pop();
    for (number, piece) in pieces.iter().enumerate() {
        assert!(piece.has_class(&format!("p{}", number + 1)));
        let points = points(piece);
        assert_eq!(points.first().copied(), end, "each piece begins where the one before it ends");
        end = points.last().copied();
        for pair in points.windows(2) {
            let (low, high) = (pair[0].min(pair[1]), pair[0].max(pair[1]));
            sides.insert((low.0 / 2, low.1 / 2, low.0 == high.0));
        }
    }
    sides
}

/// The sides that the letters walk.
fn sides(outline: &Outline) -> BTreeSet<(i32, i32, bool)> {
    let (mut col, mut row) = (i32::from(outline.start.col), i32::from(outline.start.row));
    let mut sides = BTreeSet::new();
    for letter in &outline.letters {
        let (c, r) = [(1, 0), (0, 1), (-1, 0), (0, -1)][usize::from(*letter)];
        sides.insert((col.min(col + c), row.min(row + r), c == 0));
        (col, row) = (col + c, row + r);
    }
    sides
}

#[test]
fn every_outline_of_2_by_2() {
    for outline in outlines(2, Point::new(0, 253)) {
        let outline = Outline::new(Corner::new(outline.start.col, outline.start.row), outline.letters);
        holds(&outline);
        completion(&outline);
    }
}

#[test]
fn drawings_and_garbage() {
    let mut random = Random::new(28);
    for shape in Shape::ALL {
        for side in [2, 5, 9, 14, 30] {
            let outline = shape.draw_in(&mut random, side);
            let outline = Outline::new(Corner::new(outline.start.col, outline.start.row), outline.letters);
            holds(&outline);
            completion(&outline);
        }
    }
    for length in (0..40).chain([612, 613, 2048]) {
        let letters: Vec<u8> = (0..length).map(|_| random.below(5) as u8).collect();
        holds(&Outline::new(Corner::new(random.below(260) as u16, 0), letters.clone()));
        holds(&Outline::new(Corner::new(u16::MAX, u16::MAX), letters));
    }
}

#[test]
fn specimens() {
    for text in [robequarry_program::gallery::SPECIMENS, robequarry_program::gallery::TRAINING] {
        for entry in entries(text) {
            let outline = entry.outline;
            holds(&outline);
            completion(&outline);
        }
    }
}

fn enclosed(outline: &Outline) -> Cells {
    Enclosed::of(Point::new(outline.start.col, outline.start.row), &outline.letters).cells().collect()
}

fn from(drawn: robequarry_checks::Outline) -> Outline {
    Outline::new(Corner::new(drawn.start.col, drawn.start.row), drawn.letters)
}

/// Two blocks: the cells of both, and of each alone, and both hulls' corner cells.
#[test]
fn comparisons() {
    let mut random = Random::new(31);
    for round in 0..60 {
        let draw = |random: &mut Random| match round % 2 {
            0 => from(any_taken(random)),
            _ => from(Shape::Ellipse.draw_in(random, 9)),
        };
        let (first, second) = (draw(&mut random), draw(&mut random));
        let (one, two) = (first.test().expect("it is taken"), second.test().expect("it is taken"));
        let said = robequarry_program::verdict::Said { what: "a".to_string(), place: "b".to_string() };
        let picture = parse(&picture::comparison("a & b", &said, (&first, &one), (&second, &two)));
        let plot = picture.of_class("plot")[0];
        let (a, b) = (enclosed(&first), enclosed(&second));
        assert_eq!(cells(plot, "cells"), a.intersection(&b).copied().collect());
        assert_eq!(cells(plot, "first"), a.difference(&b).copied().collect());
        assert_eq!(cells(plot, "second"), b.difference(&a).copied().collect());
        for (class, edges) in [("edges", &one), ("others", &two)] {
            let points = points(only(plot, class).expect("edges are drawn"));
            assert_eq!((points[0], points.len()), (centre(edges.anchor()), edges.steps().len() + 1));
        }
    }
}

#[test]
fn witnesses() {
    let mut random = Random::new(32);
    let mut drawn = 0;
    for shape in Shape::ALL.into_iter().cycle().take(80) {
        let outline = from(shape.draw_in(&mut random, 12));
        let Some(help) = Help::of(&outline) else { continue };
        let picture = parse(&picture::witness("a & b", &outline, &help));
        let plot = picture.of_class("plot")[0];
        assert_eq!(cells(plot, "cells"), enclosed(&outline));
        let missing = (i32::from(help.witness.missing.col), i32::from(help.witness.missing.row));
        assert_eq!(cells(plot, "missing"), Cells::from([missing]));
        triangle(&picture, plot, &outline, &enclosed(&outline));
        assert!(plot.of_class("piece").is_empty() && plot.of_class("edges").is_empty());
        drawn += 1;
    }
    assert!(drawn > 20);
}

/// The cells that a section marks, by counting.
fn marks(layers: &[Cells], section: &Section) -> Cells {
    let at = i32::from(section.at);
    let along = |cell: &(i32, i32)| match section.kind {
        SectionKind::Column => (cell.0 == at).then_some(cell.1),
        SectionKind::Row => (cell.1 == at).then_some(cell.0),
    };
    (0..).zip(layers).flat_map(|(layer, cells)| cells.iter().filter_map(along).map(move |other| (layer, other))).collect()
}

/// The first dented section is the one that the library's check names, and a drawn one has its cells.
#[test]
fn sections_of_piles() {
    let mut random = Random::new(33);
    let mut refused = 0;
    for round in 0..40 {
        let base = from(Shape::Ellipse.draw_in(&mut random, 8));
        let other = from(Shape::Ellipse.draw_in(&mut random, 8));
        let layers: Vec<Outline> = (0..random.from_to(1, 16))
            .map(|_| match random.below(if round < 10 { 1 } else { 8 }) {
                0..6 => base.clone(),
                6 => other.clone(),
                _ => Outline::new(Corner::new(0, 0), []),
            })
            .collect();
        let entry = |outline: &Outline| Entry { name: None, outline: outline.clone() };
        let entries: Vec<Entry> = layers.iter().map(entry).collect();
        let Ok(mut pile) = Layers::set(&entries, |_, _, _| {}) else { panic!("every layer is taken") };
        let counted: Vec<Cells> =
            layers.iter().map(|layer| if layer.letters.is_empty() { Cells::new() } else { enclosed(layer) }).collect();
        let dented = pile.dented();
        let named = dented.first().map(|section| Refusal::Section { kind: section.kind, at: section.at });
        assert_eq!(pile.check().err(), named);
        refused += usize::from(named.is_some());
        for section in dented.iter().take(2).chain(&pile.largest()) {
            let picture = parse(&picture::section("a & b", section));
            let plot = picture.of_class("plot")[0];
            assert_eq!(cells(plot, "cells"), marks(&counted, section));
            assert_eq!(cells(plot, "missing"), section.missing().into_iter().collect());
        }
        let some: Vec<Section> = dented.into_iter().take(5).chain(pile.largest()).collect();
        assert_eq!(parse(&picture::sections("a & b", &some)).of_class("plot").len(), some.len());
    }
    assert!(refused > 5);
}

/// The pictures in docs/pictures/ are those that the gallery makes, and every one is well-formed.
#[test]
fn the_documents_show_this_gallery() {
    let folder = Path::new(env!("CARGO_MANIFEST_DIR")).join("../../docs/pictures");
    for (name, svg) in gallery() {
        parse(&svg);
        let shown = fs::read_to_string(folder.join(&name)).unwrap_or_default();
        assert!(shown == svg, "docs/pictures/{name} is another: run `robequarry gallery docs/pictures`");
    }
}
