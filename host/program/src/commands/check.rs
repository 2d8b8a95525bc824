use std::io::Write;
use std::path::{Path, PathBuf};

use super::{answer, described, guard, say_bare_folders, Command, Console, Failure, Status};
use crate::arguments::Arguments;
use crate::fleet::{self, Done, End, Source};
use crate::html::{Report, Shown};
use crate::input::{Fault, Piece, Walk};
use crate::output::whole;
use crate::report::{csv_line, csv_names, file_row, json_line, verdict_row, Format, Row, Tally, Value, VERDICT_COLUMNS};
use crate::verdict::{count, Said};

pub const COMMAND: Command = Command {
    name: "check",
    usage: "check FILE|FOLDER... [--format F] [--summary | --refused]",
    summary: "test every outline of files and folders, and say what each verdict means",
    help: "\
Tests each outline of each file, and of each file in a folder and its folders, in the order of their names. It writes a line for each
outline: taken with its edges and anchor, or refused with the refusal's number, what it means and where. A summary follows: files,
outlines, how many are taken, how often each refusal occurs, the longest outline and the most edges. A fault of a file is told, and
no more of that file is read; its lines before the fault stand, and the other files are read. With --keep-going the lines of a text
after a faulty one are read as well, and each faulty line is told. Outlines from standard input are answered line by line.

In a folder only regular files are read, and of these only names that end in .fit, .txt or .img, in capitals or not; --every-file reads
any name. What is passed over is counted in the summary, and --verbose names it.

With --format json each outline is an object on a line of its own, and so are each fault, each file without an outline and the
summary; the first line says where they came from. With --format csv each of these is a line of a table, after a comment that says where
it came from, and the summary goes to standard error. docs/PROGRAM.md describes the fields.

With --report a page is written as well, for a browser or for paper, with nothing outside of it: the summary, the faults, and each
refused outline with its picture, three cells that show what is missing, and what to draw instead.",
    statuses: &[
        (0, "every outline is taken"),
        (1, "an outline is refused"),
        (2, "something is wrong with the call, or a file has a fault"),
        (3, "nothing was checked: no file was read, or none holds an outline; or all are taken, and a folder has no file in it"),
    ],
    options: &[
        "--format", "--summary", "--refused", "--report", "--force", "--verbose", "--keep-going", "--every-file", "--text",
        "--fitting",
    ],
    run,
};

/// How outlines are written.
#[derive(Clone, Copy)]
struct Manner {
    format: Format,
    /// The summary alone.
    summary: bool,
    /// Only what is refused.
    refused: bool,
    /// The file's name before each line.
    names: bool,
    keep_going: bool,
    verbose: bool,
    report: bool,
}

/// What a worker makes of a piece: what is written, and what is counted.
#[derive(Default)]
struct Made {
    lines: Vec<u8>,
    /// Sentences about faulty lines.
    faults: Vec<String>,
    tally: Tally,
    /// The refused outlines for a report.
    shown: Vec<Shown>,
}

fn run(arguments: &Arguments, console: &mut Console) -> Result<Status, Failure> {
    let paths: Vec<PathBuf> = arguments.plain.iter().map(PathBuf::from).collect();
    let manner = manner(arguments, &paths)?;
    let page = arguments.path("--report");
    if let Some(page) = page {
        let inputs: Vec<&Path> = paths.iter().map(PathBuf::as_path).collect();
        guard(page, &inputs, arguments)?;
    }
    let mut report = page.map(|_| Report::new(&arguments.origin));
    begin(arguments, manner, console)?;
    let mut tally = Tally::default();
    let bare = say_bare_folders(&paths, arguments.has("--every-file"), console)?;
    let files = Walk::of(paths.into_iter(), arguments.has("--every-file"));
    let work = |source: &Source, piece: &Piece| judge(source, piece, manner);
    fleet::run(files, arguments.form(), work, |done| take(done, &mut tally, manner, report.as_mut(), console))?;
    summarise(&tally, manner, console)?;
    if let (Some(page), Some(report)) = (page, report) {
        let failed = |error| Failure::File(page.to_path_buf(), format!("cannot be written: {error}"));
        match page.as_os_str() == "-" {
            true => console.bytes(report.html(&tally).as_bytes())?,
            false => whole(page, report.html(&tally).as_bytes()).map_err(failed)?,
        }
    }
    Ok(match (tally.faults + tally.faulty_lines, tally.refused(), tally.outlines) {
        (0, 0, 0) => Status::Nothing,
        (0, 0, _) if bare => Status::Nothing,
        (0, 0, _) => Status::Taken,
        (0, ..) => Status::Refused,
        _ => Status::Faulty,
    })
}

fn manner(arguments: &Arguments, paths: &[PathBuf]) -> Result<Manner, Failure> {
    if paths.is_empty() {
        return Err(Failure::Call("check takes files and folders; nothing is given".to_string()));
    }
    let (format, summary) = (arguments.format(), arguments.has("--summary"));
    if summary && format == Format::Csv {
        return Err(Failure::Call("--summary and --format csv contradict each other: a summary is no table".to_string()));
    }
    Ok(Manner {
        format,
        summary,
        refused: arguments.has("--refused"),
        names: paths.len() > 1 || paths[0].is_dir(),
        keep_going: arguments.has("--keep-going"),
        verbose: arguments.has("--verbose"),
        report: arguments.has("--report"),
    })
}

/// Says where what follows came from, and names the columns of a table.
fn begin(arguments: &Arguments, manner: Manner, console: &mut Console) -> Result<(), Failure> {
    let mut lines = Vec::new();
    match manner.format {
        Format::Text => {}
        Format::Json => json_line(&mut lines, &arguments.origin.row()),
        Format::Csv => {
            writeln!(lines, "# {}", arguments.origin.line())?;
            csv_names(&mut lines, VERDICT_COLUMNS);
        }
    }
    Ok(console.bytes(&lines)?)
}

/// Tests the outlines of a piece, and writes their lines.
fn judge(source: &Source, piece: &Piece, manner: Manner) -> fleet::Result<Made> {
    let mut made = Made::default();
    for (i, entry) in piece.entries().enumerate() {
        let number = piece.outlines + i;
        let (outline, name) = match entry {
            Ok(entry) => entry,
            Err(fault) => {
                write_row(&mut made.lines, &fault_row(&source.name, Some(number), &fault), manner);
                made.faults.push(fault.to_string());
                if manner.keep_going && fault.is_of_a_line() {
                    made.tally.faulty_lines += 1;
                    continue;
                }
                made.tally.faults += 1;
                return fleet::Result { made, ended: true };
            }
        };
        let verdict = outline.test();
        made.tally.note(&source.name, number, outline.letters.len(), &verdict);
        if manner.report && verdict.is_err() {
            made.shown.push(Shown::of(&source.name, number, &name, &outline, &verdict));
        }
        if manner.summary || manner.refused && verdict.is_ok() {
            continue;
        }
        match manner.format {
            Format::Text => {
                let (file, colon) = if manner.names { (&*source.name, ": ") } else { ("", "") };
                let (title, said) = (described(number, &name), Said::of(&outline, &verdict));
                writeln!(made.lines, "{file}{colon}{title}: {} - {}", said.what, said.place).expect("memory has room");
            }
            _ => write_row(&mut made.lines, &verdict_row(&source.name, number, &name, &outline, &verdict), manner),
        }
    }
    fleet::Result { made, ended: false }
}

/// Writes a row for machines. JSON leaves out line and byte where there are none, and of a file what is nothing.
fn write_row(lines: &mut Vec<u8>, row: &Row, manner: Manner) {
    let about_file = row.first().is_none_or(|(_, kind)| *kind != Value::text("outline"));
    match manner.format {
        Format::Text => {}
        Format::Csv => csv_line(lines, row),
        Format::Json if about_file => {
            let said =
                |(name, value): &&(&str, Value)| ["number", "line", "byte"].contains(name) || *value != Value::Nothing;
            json_line(lines, &row.iter().filter(said).cloned().collect());
        }
        Format::Json => json_line(lines, &row[..row.len() - 2].to_vec()),
    }
}

/// Writes what a worker made, in its turn.
fn take(
    done: Done<Made>,
    tally: &mut Tally,
    manner: Manner,
    mut report: Option<&mut Report>,
    console: &mut Console,
) -> Result<(), Failure> {
    let source = &done.source;
    let mut lines = Vec::new();
    let mut remarks: Vec<String> = Vec::new();
    let mut faults: Vec<String> = Vec::new();
    if let Some(made) = done.made {
        tally.add(made.tally);
        lines = made.lines;
        faults = made.faults;
        if let Some(report) = report.as_deref_mut() {
            report.refused(made.shown);
        }
    }
    if let Some(fault) = &done.fault {
        tally.faults += 1;
        write_row(&mut lines, &fault_row(&source.name, None, fault), manner);
        faults.push(fault.to_string());
    }
    remarks.extend(faults.iter().cloned());
    match done.end {
        Some(End::PassedOver(why)) => {
            tally.pass_over(why);
            if manner.verbose {
                let said = vec![("meaning", Value::text(why.words()))];
                write_row(&mut lines, &file_row("passed over", &source.name, said), manner);
                remarks.push(format!("passed over: {}", why.words()));
            }
        }
        Some(End::File(nothing)) => {
            tally.files += 1;
            if let Some(nothing) = nothing {
                tally.empty += 1;
                let said = vec![("meaning", Value::text(nothing.words()))];
                write_row(&mut lines, &file_row("empty", &source.name, said), manner);
                remarks.push(nothing.words().to_string());
                faults.push(nothing.words().to_string());
            }
        }
        None => {}
    }
    if let Some(report) = report {
        faults.iter().for_each(|fault| report.fault(&source.name, fault));
    }
    console.bytes(&lines)?;
    for remark in remarks {
        console.remark(format_args!("{}: {remark}", source.name))?;
    }
    answer(&source.path, console)?;
    console.progress(|| format!("{}, {}", count(tally.files, "file"), count(tally.outlines, "outline")))?;
    Ok(())
}

/// A fault as a row. The outline is the one that should stand there.
fn fault_row<'a>(file: &'a str, outline: Option<usize>, fault: &Fault) -> Row<'a> {
    let number = |number: Option<usize>| Value::perhaps(number.map(Value::number));
    let said = vec![
        ("outline", number(outline)),
        ("number", number(fault.number().map(usize::from))),
        ("meaning", Value::text(fault.to_string())),
        ("line", number(fault.line())),
        ("byte", number(fault.byte())),
    ];
    file_row("fault", file, said)
}

fn summarise(tally: &Tally, manner: Manner, console: &mut Console) -> Result<(), Failure> {
    match manner.format {
        Format::Text => console.bytes(tally.text().as_bytes())?,
        Format::Csv => console.remark(tally.text().trim_end())?,
        Format::Json => {
            let mut line = Vec::new();
            json_line(&mut line, &tally.row());
            console.bytes(&line)?;
        }
    }
    Ok(())
}
