//! What is said of an outline, as a row.

use robequarry::{Cell, Outline, Refusal, Verdict};

use super::row::{Row, Value};
use crate::verdict::{fields, meaning, TAKEN};

/// The columns of `check --format csv`, which are the names in its JSON.
pub const VERDICT_COLUMNS: &[&str] = &[
    "type", "file", "outline", "name", "letters", "number", "meaning", "place", "piece", "length", "cell", "anchor",
    "edges", "missing", "witness", "line", "byte",
];

/// A row that is about a file, and not about an outline of it, with these columns.
pub fn file_row<'a>(kind: &'static str, file: &'a str, said: Row<'a>) -> Row<'a> {
    let mut row: Row = VERDICT_COLUMNS.iter().map(|name| (*name, Value::Nothing)).collect();
    let known = [("type", Value::text(kind)), ("file", Value::text(file))];
    for (name, value) in known.into_iter().chain(said) {
        let at = VERDICT_COLUMNS.iter().position(|column| *column == name).expect("it is a column");
        row[at].1 = value;
    }
    row
}

fn pair(cell: Cell) -> (i32, i32) {
    (cell.col.into(), cell.row.into())
}

fn cell(cell: Cell) -> Value<'static> {
    let (col, row) = pair(cell);
    Value::Pair(col, row)
}

/// The row of an outline: the reply's fields, nothing where the contract names none; the edges of a taken outline; and where a cell
/// is missing, the lowest one and three marked cells round it.
pub fn verdict_row<'a>(file: &'a str, number: usize, name: &'a str, outline: &Outline, verdict: &Verdict) -> Row<'a> {
    let said = fields(verdict);
    let witness = match verdict {
        Err(Refusal::BackStep { .. } | Refusal::Dent { .. }) => outline.witness().ok().flatten(),
        _ => None,
    };
    let edges = verdict.as_ref().ok();
    let steps = |edges: &robequarry::Edges| edges.steps().map(|(cols, rows)| (cols.into(), rows.into())).collect();
    vec![
        ("type", Value::text("outline")),
        ("file", Value::text(file)),
        ("outline", Value::number(number)),
        ("name", if name.is_empty() { Value::Nothing } else { Value::name(name) }),
        ("letters", Value::number(outline.letters.len())),
        ("number", Value::number(said.number)),
        ("meaning", Value::text(verdict.as_ref().err().map_or(TAKEN, |refusal| meaning(refusal.number())))),
        ("place", Value::perhaps(said.place.map(Value::number))),
        ("piece", Value::perhaps(said.piece.map(Value::number))),
        ("length", Value::perhaps(said.length.map(Value::number))),
        ("cell", Value::perhaps(said.cell.map(cell))),
        ("anchor", Value::perhaps(edges.map(|edges| cell(edges.anchor())))),
        ("edges", Value::perhaps(edges.map(|edges| Value::Pairs(steps(edges))))),
        ("missing", Value::perhaps(witness.map(|witness| cell(witness.missing)))),
        ("witness", Value::perhaps(witness.map(|witness| Value::Pairs(witness.cells.map(pair).to_vec())))),
        ("line", Value::Nothing),
        ("byte", Value::Nothing),
    ]
}
