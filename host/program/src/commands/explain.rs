use robequarry::{Outline, Verdict};

use super::{is_json, object, one_and_comments, plain, title, Command, Console, Failure, Status};
use crate::arguments::Arguments;
use crate::engine::Help;
use crate::explain::{digits, explain, factor_edges, told};
use crate::input::Entry;
use crate::paths::shown;
use crate::report::{verdict_row, Row, Value};
use crate::story::{Piece, Story, NAMES};
use crate::units::Units;
use crate::walk::Point;
use crate::words::is_christoffel;

pub const COMMAND: Command = Command {
    name: "explain",
    usage: "explain FILE [--outline N] [--format F]",
    summary: "tell one outline's story: pieces, words, factors, edges",
    help: "\
Tells how the verdict on one outline comes about: the four corners W, N, E, S, the pieces between them, each piece's word and
its factors, whether each is a Christoffel word, the edges and the anchor; or what the outline is refused for. If a cell is
missing, it also names three marked cells whose triangle holds that cell, and tells what to draw instead: the smallest convex
block that has all the marked cells. The verdict, the edges, the anchor, the named cells and that block are the proved library's;
the steps between are worked out by this program. Where a line of the file gives units, as the page writes it, the anchor or the
missing cell is told in them too. With --format json the same is one object.",
    statuses: &[
        (0, "the outline is taken"),
        (1, "the outline is refused"),
        (2, "something is wrong with the call, or with the file"),
    ],
    options: &["--outline", "--format", "--text", "--fitting"],
    run,
};

fn run(arguments: &Arguments, console: &mut Console) -> Result<Status, Failure> {
    let [path] = plain(arguments, "explain takes one file")?;
    let json = is_json(arguments, "explain")?;
    let (number, entry, comments) = one_and_comments(path, arguments, arguments.number("--outline"))?;
    let verdict = entry.outline.test();
    let units: Vec<Units> = comments.iter().filter_map(|comment| Units::of(comment)).collect();
    match json {
        true => {
            object(&arguments.origin.row(), console)?;
            let file = shown(path);
            let mut row = row(&file, number, &entry, &verdict);
            row.extend(in_units(&entry.outline, &verdict, &units).map(|told| ("units", Value::text(told))));
            object(&row, console)?;
        }
        false => {
            console.line(explain(&title(number, &entry), &entry.outline, &verdict).trim_end())?;
            if let Some(told) = in_units(&entry.outline, &verdict, &units) {
                console.line(told)?;
            }
        }
    }
    Ok(Status::of(verdict.is_ok()))
}

/// The anchor, or the lowest missing cell, in the units of the file.
fn in_units(outline: &Outline, verdict: &Verdict, units: &[Units]) -> Option<String> {
    let (what, cell) = match verdict {
        Ok(edges) => ("anchor", edges.anchor()),
        Err(_) => ("missing cell", outline.witness().ok().flatten()?.missing),
    };
    let told = units.iter().filter_map(|one| {
        let cell = one.cell((cell.col.into(), cell.row.into()))?;
        Some(format!("{} {cell}", one.party))
    });
    let told: Vec<String> = told.collect();
    (!told.is_empty()).then(|| format!("in the file's units, the {what}: {}", told.join("; ")))
}

/// The story as a row: the verdict's, and then the letters, the pieces and what to draw instead.
fn row<'a>(file: &'a str, number: usize, entry: &'a Entry, verdict: &Verdict) -> Row<'a> {
    let mut row = verdict_row(file, number, entry.name.as_deref().unwrap_or(""), &entry.outline, verdict);
    row.truncate(row.len() - 2);
    row[0].1 = Value::text("story");
    let outline = &entry.outline;
    let story = told(verdict).then(|| Story::of(outline));
    let pieces = story.as_ref().map(|story| {
        let edges = factor_edges(story, verdict);
        Value::List(story.pieces.iter().zip(&edges).map(|(one, edges)| piece(story, one, edges)).collect())
    });
    row.extend([
        ("start", Value::Pair(outline.start.col.into(), outline.start.row.into())),
        ("word", Value::text(digits(&outline.letters))),
        ("clockwise", Value::perhaps(story.as_ref().map(|story| Value::number(u8::from(story.clockwise))))),
        ("cells", Value::perhaps(story.as_ref().map(|story| Value::number(story.cells())))),
        ("pieces", Value::perhaps(pieces)),
        ("instead", Value::perhaps(Help::of(outline).map(|help| line(&help.completed)))),
    ]);
    row
}

fn line(outline: &Outline) -> Value<'static> {
    Value::text(robequarry::text::line(outline).expect("the library's letters are digits"))
}

fn piece<'a>(story: &Story, piece: &Piece, edges: &[Point]) -> Value<'a> {
    let factors = piece.factors.iter().zip(edges).map(|(&factor, &(cols, rows))| {
        let copy = piece.copy(factor);
        let letters: Vec<u8> = piece.letters[1 + factor.at..][..factor.length].to_vec();
        let fields = [
            ("letters", Value::text(digits(&letters))),
            ("times", Value::number(factor.times)),
            ("christoffel", Value::number(u8::from(is_christoffel(copy)))),
            ("edge", Value::Pair(cols, rows)),
        ];
        Value::Object(fields.map(|(name, value)| (name.into(), value)).to_vec())
    });
    let (from, to) = (NAMES[piece.number - 1], NAMES[piece.number % 4]);
    let back_step = piece.back_step.map(|i| Value::number(story.sent(piece.from + i)));
    let fields = [
        ("piece", Value::number(piece.number)),
        ("from", Value::text(from)),
        ("to", Value::text(to)),
        ("letters", Value::text(digits(&piece.letters))),
        ("back_step", Value::perhaps(back_step)),
        ("factors", Value::List(factors.collect())),
    ];
    Value::Object(fields.map(|(name, value)| (name.into(), value)).to_vec())
}
