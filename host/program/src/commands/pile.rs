use std::path::Path;

use robequarry::limits::LAYERS;
use robequarry::{Refusal, SectionKind, Verdict};

use super::{every, is_json, object, plain, Command, Console, Failure, Status};
use crate::arguments::Arguments;
use crate::input::Entry;
use crate::paths::shown;
use crate::pile::{Layers, Refused};
use crate::report::{json_line, verdict_row, Row, Value};
use crate::verdict::Said;

pub const COMMAND: Command = Command {
    name: "pile",
    usage: "pile FILE [--format F]",
    summary: "check sixteen layers: that no section through them is dented",
    help: "\
Sets the outlines of a file as the layers 0 to 15 of a pile, and checks every section through them, at each column and each row. It
writes a line for each layer, and then that the pile has passed, or the first section that is dented with a cell that is missing from
it. An outline without letters is an empty layer, and so are the layers that the file does not have. `draw --pile` draws sections.

With --format json it writes an object for each layer and one for the pile.",
    statuses: &[
        (0, "the pile passes"),
        (1, "it does not pass, or a layer is refused"),
        (2, "something is wrong with the call, or with the file"),
        (3, "the file has no outline, so that nothing was checked"),
    ],
    options: &["--format", "--text", "--fitting"],
    run,
};

fn run(arguments: &Arguments, console: &mut Console) -> Result<Status, Failure> {
    let [path] = plain(arguments, "pile takes one file")?;
    let json = is_json(arguments, "pile")?;
    if json {
        object(&arguments.origin.row(), console)?;
    }
    let entries = every(path, arguments, console)?;
    if entries.is_empty() {
        say(json, 0, None, "nothing was checked: there is no layer", console)?;
        return Ok(Status::Nothing);
    }
    let Some(mut layers) = set(path, &entries, arguments, console)? else {
        return Ok(Status::Refused);
    };
    match layers.check() {
        Ok(()) => {
            say(json, 0, None, "passed - no section is dented", console)?;
            Ok(Status::Taken)
        }
        Err(refusal) => {
            let (missing, section) = match refusal {
                Refusal::Section { kind, at } => (layers.section(kind, at).said().place, Some((kind, at))),
                other => (other.to_string(), None),
            };
            let (number, sentence) = (refusal.number(), format!("refused, {}: {refusal} - {missing}", refusal.number()));
            say(json, number, section, &sentence, console)?;
            Ok(Status::Refused)
        }
    }
}

/// Says what became of the pile.
fn say(
    json: bool,
    number: u16,
    section: Option<(SectionKind, u16)>,
    sentence: &str,
    console: &mut Console,
) -> Result<(), Failure> {
    if !json {
        return Ok(console.line(sentence)?);
    }
    let at = |wanted: SectionKind| section.filter(|(kind, _)| *kind == wanted).map(|(_, at)| Value::number(at));
    let row: Row = vec![
        ("type", Value::text("pile")),
        ("number", Value::number(number)),
        ("meaning", Value::text(sentence)),
        ("column", Value::perhaps(at(SectionKind::Column))),
        ("row", Value::perhaps(at(SectionKind::Row))),
    ];
    object(&row, console)
}

/// The layers of a file; none where one is refused, or where the file has none.
pub fn layers(path: &Path, arguments: &Arguments, console: &mut Console) -> Result<Option<Layers>, Failure> {
    let entries = every(path, arguments, console)?;
    set(path, &entries, arguments, console)
}

/// Outlines as layers, each told; none where one is refused.
fn set(path: &Path, entries: &[Entry], arguments: &Arguments, console: &mut Console) -> Result<Option<Layers>, Failure> {
    let mut lines = Vec::new();
    let json = is_json(arguments, "pile")?;
    let tell = arguments.path("--out").is_none();
    let file = shown(path);
    let set = Layers::set(entries, |layer, entry: &Entry, verdict| {
        if json {
            let mut line = Vec::new();
            json_line(&mut line, &layer_row(&file, layer, entry, verdict));
            return lines.push(String::from_utf8_lossy(&line).trim_end().to_string());
        }
        let name = entry.name.as_deref().map_or(String::new(), |name| format!(" ({})", robequarry::text::Escaped(name)));
        let said = verdict.map(|verdict| Said::of(&entry.outline, verdict));
        let words = said.map_or("empty".to_string(), |said| format!("{} - {}", said.what, said.place));
        // Beside a picture only what is refused is told.
        if tell || verdict.is_some_and(Result::is_err) {
            lines.push(format!("layer {layer}{name}: {words}"));
        }
    });
    for line in lines {
        console.line(line)?;
    }
    match set {
        Ok(layers) => Ok(Some(layers)),
        Err(Refused::TooMany) => {
            let refusal = Refusal::Layer;
            let (number, outlines) = (refusal.number(), entries.len());
            let last = LAYERS - 1;
            let sentence =
                format!("refused, {number}: {refusal} - the file has {outlines} outlines, and layers are 0 to {last}");
            say(json, number, None, &sentence, console)?;
            Ok(None)
        }
        Err(Refused::Layer(layer, refusal)) => {
            let number = refusal.number();
            say(json, number, None, &format!("refused, {number}: layer {layer} is not set"), console)?;
            Ok(None)
        }
    }
}

/// A layer as a row: the verdict's fields, or that it is empty.
fn layer_row<'a>(file: &'a str, layer: usize, entry: &'a Entry, verdict: Option<&Verdict>) -> Row<'a> {
    let name = entry.name.as_deref().unwrap_or("");
    let Some(verdict) = verdict else {
        return vec![
            ("type", Value::text("layer")),
            ("file", Value::text(file)),
            ("layer", Value::number(layer)),
            ("name", Value::perhaps(entry.name.as_deref().map(Value::text))),
            ("meaning", Value::text("empty")),
        ];
    };
    let mut row = verdict_row(file, layer, name, &entry.outline, verdict);
    row.truncate(row.len() - 2);
    (row[0].1, row[2].0) = (Value::text("layer"), "layer");
    row
}
