use std::ffi::OsString;
use std::path::Path;

use robequarry::{text, Cell, Edges};

use super::{form_to_write, guard, number, put, refused, written, Command, Console, Failure, Status};
use crate::arguments::Arguments;
use crate::audit;
use crate::engine;
use crate::input::Form;
use crate::output::Sink;

pub const COMMAND: Command = Command {
    name: "border",
    usage: "border COLUMN ROW [DX DY ...] | --edges FILE",
    summary: "the outline of an anchor and edges, or of a file of them",
    help: "\
Writes the outline that has this anchor and these edges, clockwise from W, as a line of the text form. Edges are pairs of columns
and rows, clockwise from the anchor. Where no taken outline has them, it writes the refusal.

    robequarry border 0 1  1 1  1 -1  -1 -1  -1 1

With --edges it does so for each line of a file: a list of edges as `audit` reads it, or a CSV as `check --format csv` writes it, of
which it takes what has edges. What it writes is a file of outlines; a line after a # says which edges have no outline.

    robequarry border --edges controllers.txt -o outlines.txt",
    statuses: &[
        (0, "every list of edges has an outline"),
        (1, "one has none"),
        (2, "something is wrong with the call, or with the file"),
        (3, "there was no list of edges"),
    ],
    options: &["--edges", "--out", "--to", "--force"],
    run,
};

fn run(arguments: &Arguments, console: &mut Console) -> Result<Status, Failure> {
    match (arguments.path("--edges"), &arguments.plain[..]) {
        (Some(path), []) => from_file(path, arguments, console),
        (Some(_), _) => Err(Failure::Call("--edges and numbers contradict each other: give one of them".to_string())),
        (None, [col, row, edges @ ..]) => {
            let anchor = Cell::new(number(col, "a column")?, number(row, "a row")?);
            let numbers = edges.iter().map(|word: &OsString| number(word, "a number of an edge"));
            from_numbers(&Edges::new(anchor, numbers.collect::<Result<Vec<i16>, _>>()?), arguments, console)
        }
        _ => Err(Failure::Call("border takes an anchor, COLUMN ROW, and edges, DX DY each, or --edges FILE".to_string())),
    }
}

fn sink(arguments: &Arguments) -> Result<Sink, Failure> {
    Ok(Sink::to(arguments.path("--out"), form_to_write(arguments)?.unwrap_or(Form::Text)))
}

fn from_numbers(edges: &Edges, arguments: &Arguments, console: &mut Console) -> Result<Status, Failure> {
    let mut sink = sink(arguments)?;
    match engine::border(edges) {
        Ok(outline) => {
            put(sink.outline(&outline, "", console), Path::new("border"), 0)?;
            written(sink, Path::new("border"), console)?;
            Ok(Status::Taken)
        }
        Err(refusal) => refused(refusal, console),
    }
}

fn from_file(path: &Path, arguments: &Arguments, console: &mut Console) -> Result<Status, Failure> {
    let faulty = |sentence: String| Failure::File(path.to_path_buf(), sentence);
    if let Some(out) = arguments.path("--out") {
        guard(out, &[path], arguments)?;
    }
    let lines = audit::open(path).map_err(|error| faulty(format!("cannot be read: {error}")))?;
    let mut sink = sink(arguments)?;
    let (mut all, mut number) = (true, 0);
    for line in lines.map_err(|wrong| faulty(wrong.to_string()))? {
        let line = line.map_err(|wrong| faulty(wrong.to_string()))?;
        let Some(edges) = line.account.edges else {
            continue;
        };
        match engine::border(&edges) {
            Ok(outline) => put(sink.outline(&outline, &line.name, console), path, number)?,
            Err(refusal) => {
                let (list, refused) = (text::edge_line(&edges), refusal.number());
                put(sink.remark(&format!("{list}: refused, {refused}: {refusal}"), console), path, number)?;
                all = false;
            }
        }
        number += 1;
    }
    written(sink, path, console)?;
    Ok(if number == 0 { Status::Nothing } else { Status::of(all) })
}
