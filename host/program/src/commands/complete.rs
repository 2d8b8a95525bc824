use std::path::{Path, PathBuf};

use super::{
    answer, faulty, files, form_to_write, guard, object, plain, put, read, say_empty, title, written, Command, Console,
    Failure, Status,
};
use crate::arguments::Arguments;
use crate::input::{Entry, Form};
use crate::output::Sink;
use crate::paths::shown;
use crate::report::{Format, Row, Value};
use crate::verdict::{count, meaning, Said};

pub const COMMAND: Command = Command {
    name: "complete",
    usage: "complete FILE|FOLDER [-o OUT] [--to FORM]",
    summary: "the smallest convex block round each outline, as a file of outlines",
    help: "\
Writes for each outline the smallest convex block that has all its cells: its border, clockwise from W, in the text form with the
outline's name, or as a fitting file. What it writes is a file that every command reads, and every outline in it is taken. A block
that is taken stays as it is, and comments stay. Letters that go round no block, refusals 1 to 6, have no completion: a line after a #
says so.

Of a folder it writes each file's completions into a folder OUT, under the same names, and in the same forms unless --to says another.
With --format json it writes an object a line: the outline's number and name, the refusal or 0, and the completion.

    robequarry complete drawn.txt -o completed.txt
    robequarry complete clinic -o completed",
    statuses: &[
        (0, "every outline has a completion, also where the test refuses some"),
        (1, "an outline has none"),
        (2, "something is wrong with the call, or with a file"),
        (3, "there was no outline to complete"),
    ],
    options: &["--out", "--to", "--format", "--force", "--text", "--fitting"],
    run,
};

fn run(arguments: &Arguments, console: &mut Console) -> Result<Status, Failure> {
    let [path] = plain(arguments, "complete takes one file or folder")?;
    let (out, json) = (arguments.path("--out"), arguments.format() == Format::Json);
    if arguments.format() == Format::Csv {
        return Err(Failure::Call("complete writes text or json, not csv".to_string()));
    }
    if json && (out.is_some() || arguments.to().is_some()) {
        return Err(Failure::Call("--format json goes to standard output, without --out and --to".to_string()));
    }
    if json {
        object(&arguments.origin.row(), console)?;
    }
    if !path.is_dir() {
        if let Some(out) = out {
            guard(out, &[path], arguments)?;
        }
        let form = form_to_write(arguments)?.unwrap_or(Form::Text);
        return one_file(path, out, form, arguments, console);
    }
    let (mut status, mut any) = (Status::Taken, false);
    for file in files(path, console)? {
        let target = match out {
            Some(folder) => Some(target(path, &file, folder, arguments)?),
            None if json => None,
            None => return Err(Failure::Call("a folder's completions need a folder: -o FOLDER".to_string())),
        };
        let form = arguments.to().or_else(|| Form::by_name(&file)).unwrap_or(Form::Text);
        let done = one_file(&file, target.as_deref(), form, arguments, console)?;
        any |= done != Status::Nothing;
        status = if done == Status::Nothing { status } else { status.worse(done) };
    }
    Ok(if any { status } else { Status::Nothing })
}

/// Where the completions of a folder's file go: under the same name in the other folder, with the ending of the form.
fn target(folder: &Path, file: &Path, out: &Path, arguments: &Arguments) -> Result<PathBuf, Failure> {
    let mut target = out.join(file.strip_prefix(folder).unwrap_or(file));
    if let Some(to) = arguments.to() {
        target.set_extension(match to {
            Form::Text => "txt",
            Form::Fitting => "fit",
            Form::Image => "img",
        });
    }
    guard(&target, &[file], arguments)?;
    let parent = target.parent().unwrap_or(out);
    std::fs::create_dir_all(parent)
        .map_err(|error| Failure::File(parent.to_path_buf(), format!("cannot be written: {error}")))?;
    Ok(target)
}

fn one_file(
    path: &Path,
    out: Option<&Path>,
    form: Form,
    arguments: &Arguments,
    console: &mut Console,
) -> Result<Status, Failure> {
    let json = arguments.format() == Format::Json;
    let mut sink = Sink::to(out, form);
    let (mut number, mut all) = (0, true);
    let mut reader = read(path, arguments)?;
    while let Some(entry) = reader.next() {
        let entry = entry.map_err(|fault| faulty(path, fault))?;
        if json {
            let row = row(path, number, &entry);
            object(&row.0, console)?;
            all &= row.1;
        } else {
            put(sink.comments(&reader.comments(), console), path, number)?;
            all &= write(&mut sink, path, number, &entry, console)?;
        }
        answer(path, console)?;
        number += 1;
        console.progress(|| count(number, "outline"))?;
    }
    say_empty(path, &reader, console)?;
    if !json {
        put(sink.comments(&reader.comments(), console), path, number)?;
        written(sink, path, console)?;
    }
    Ok(if number == 0 { Status::Nothing } else { Status::of(all) })
}

/// Writes the completion of an outline, or why there is none. Returns whether there is one.
fn write(sink: &mut Sink, path: &Path, number: usize, entry: &Entry, console: &mut Console) -> Result<bool, Failure> {
    match entry.outline.complete() {
        Ok(completed) => {
            let name = entry.name.as_deref().unwrap_or("");
            put(sink.outline(&completed, name, console), path, number)?;
            Ok(true)
        }
        Err(refusal) => {
            let said = Said::of(&entry.outline, &Err(refusal));
            let remark = format!("{}: {} - {}", title(number, entry), said.what, said.place);
            put(sink.remark(&remark, console), path, number)?;
            Ok(false)
        }
    }
}

/// The same as a row, and whether there is a completion.
fn row(path: &Path, number: usize, entry: &Entry) -> (Row<'static>, bool) {
    let completed = entry.outline.complete();
    let refusal = completed.as_ref().err().map_or(0, |refusal| refusal.number());
    let letters = |letters: &[u8]| Value::text(crate::explain::digits(letters));
    let (start, line) = match &completed {
        Ok(outline) => (Value::Pair(outline.start.col.into(), outline.start.row.into()), letters(&outline.letters)),
        Err(_) => (Value::Nothing, Value::Nothing),
    };
    let row = vec![
        ("type", Value::text("completion")),
        ("file", Value::text(shown(path))),
        ("outline", Value::number(number)),
        ("name", Value::perhaps(entry.name.clone().map(Value::text))),
        ("number", Value::number(refusal)),
        ("meaning", if refusal == 0 { Value::Nothing } else { Value::text(meaning(refusal)) }),
        ("start", start),
        ("letters", line),
    ];
    (row, completed.is_ok())
}
