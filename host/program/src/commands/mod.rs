//! The commands, each with its help, and what all of them share: files, faults and exit statuses.

mod audit;
mod bench;
mod border;
mod check;
mod compare;
mod complete;
mod completions;
mod convert;
mod draw;
mod explain;
mod gallery;
mod image;
mod manual;
mod pile;
mod reading;
mod row;

use std::ffi::{OsStr, OsString};
use std::fs;
use std::io::{self, Write};
use std::os::unix::fs::MetadataExt;
use std::path::{Path, PathBuf};
use std::str::FromStr;

use robequarry::text::Escaped;
use robequarry::Refusal;

use crate::arguments::{nearest, Arguments};
use crate::console;
use crate::engine::AtWork;
use crate::explain::wrapped;
use crate::input::{Entry, Fault, Form, Found, Reader, Walk};
use crate::options;
use crate::origin::Origin;
use crate::output::{self, Sink};
use crate::paths::shown;
use crate::report::{json_line, Format, Row};
use crate::verdict::{described, Said};

type Console = console::Console<io::Stdout, io::Stderr>;

/// How a command ended, if nothing was wrong with the call or the file.
#[derive(Clone, Copy, PartialEq)]
enum Status {
    /// Every outline was taken.
    Taken,
    /// One was refused.
    Refused,
    /// A file had a fault, which has been told; others were read.
    Faulty,
    /// There was nothing to look at, or something was not compared: no reason to be at ease.
    Nothing,
}

impl Status {
    /// The worse of two: a fault, a refusal, nothing looked at, and all well.
    fn worse(self, other: Self) -> Self {
        let rank = |status: Self| [Status::Faulty, Status::Refused, Status::Nothing].iter().position(|one| *one == status);
        match (rank(self), rank(other)) {
            (None, _) => other,
            (Some(a), Some(b)) if b < a => other,
            _ => self,
        }
    }

    fn of(taken: bool) -> Self {
        if taken {
            Status::Taken
        } else {
            Status::Refused
        }
    }
}

/// Why a command could not be done.
enum Failure {
    /// The call is no such call.
    Call(String),
    /// Something is wrong with this file.
    File(PathBuf, String),
    /// Nothing can be written.
    Output(io::Error),
}

impl From<io::Error> for Failure {
    fn from(error: io::Error) -> Self {
        Failure::Output(error)
    }
}

/// A command of the table: help, completions and the manual page go by it.
pub struct Command {
    pub name: &'static str,
    pub usage: &'static str,
    pub summary: &'static str,
    pub help: &'static str,
    /// Each exit status, and what it says.
    pub statuses: &'static [(u8, &'static str)],
    pub options: &'static [&'static str],
    run: fn(&Arguments, &mut Console) -> Result<Status, Failure>,
}

const COMMANDS: &[&Command] = &[
    &check::COMMAND,
    &audit::COMMAND,
    &image::COMMAND,
    &explain::COMMAND,
    &draw::COMMAND,
    &complete::COMMAND,
    &convert::COMMAND,
    &row::COMMAND,
    &reading::COMMAND,
    &compare::COMMAND,
    &border::COMMAND,
    &pile::COMMAND,
    &bench::COMMAND,
    &gallery::COMMAND,
    &completions::COMMAND,
    &manual::COMMAND,
];

const INTRODUCTION: &str = "\
robequarry says whether a block of cells on a chart of 255 by 255 is convex, and why if it is not.

A block is given by its border: a start corner, and letters that walk once round the block along the sides of its cells,
0 right, 1 up, 2 left, 3 down, either way round. An outline that is taken has edges, which lead round the hull of the block
from its anchor; one that is refused has the refusal's number and place. Of a block that is not convex, three marked cells show
that a cell is missing, and the smallest convex block round it is what to draw instead. Verdicts, these cells and this block
come from the proved library.";

const FILES: &str = "\
Files hold one or more outlines, numbered from 0, in one of three forms:
  text           an outline a line: the start's column and row, then the letters in a row; a name may follow a #
                     0 1 101030323212    # a plus
  fitting file   records of bytes: 4B 4F, column, row, the count of letters (two bytes, low first), the letters
  image          622 bytes, as rq_save writes them of one place of a controller: a record, zeros, and a checksum
A file shows its form by itself; --text or --fitting says it. The file `-` is standard input.";

const STATUSES: &str = "\
Exit status: 0 if all is well, 1 if an outline, or what is asked of it, is refused or differs, 2 if something is wrong with the call or
a file, 3 if nothing was looked at, or something was not compared. Each command's help says what its own statuses mean.";

/// The statuses of a command in lines.
pub fn statuses(command: &Command) -> String {
    let line = |(status, meaning): &(u8, &str)| {
        let lines = wrapped(meaning, 120);
        format!("  {status}   {}", lines.join("\n      "))
    };
    format!("Exit status:\n{}", command.statuses.iter().map(line).collect::<Vec<_>>().join("\n"))
}

/// Runs a call of the program, and gives its exit status.
pub fn run(words: Vec<OsString>) -> u8 {
    let mut console = Console::new();
    let name = words.first().and_then(|name| COMMANDS.iter().find(|command| *name == command.name)).map(|found| found.name);
    let done = dispatch(words, &mut console);
    let flushed = console.flush().map_err(Failure::Output);
    match done.and_then(|status| flushed.map(|()| status)) {
        Ok(Status::Taken) => 0,
        Ok(Status::Refused) => 1,
        Ok(Status::Faulty) => 2,
        Ok(Status::Nothing) => 3,
        Err(failure) => {
            report(failure, name);
            2
        }
    }
}

/// Says what is wrong, and which help says more. Where standard error is closed there is nobody to tell.
fn report(failure: Failure, command: Option<&str>) {
    let name = command.map_or(String::new(), |name| format!("{name} "));
    let message = match failure {
        Failure::Call(message) => format!("{}\nTry `robequarry {name}--help`.", Escaped(&message)),
        Failure::File(path, message) => format!("{}: {message}", shown(&path)),
        Failure::Output(error) => format!("the output cannot be written: {error}"),
    };
    let _ = writeln!(io::stderr(), "robequarry: {message}");
}

fn dispatch(words: Vec<OsString>, console: &mut Console) -> Result<Status, Failure> {
    let origin = Origin::of(&words);
    let mut words = words.into_iter();
    let Some(name) = words.next() else {
        return Err(Failure::Call("no command is given".to_string()));
    };
    if name == "--help" || name == "-h" || name == "help" {
        return help(words.next(), console);
    }
    if name == "--version" || name == "-V" {
        console.line(version())?;
        return Ok(Status::Taken);
    }
    let command = command(&name)?;
    let mut arguments = Arguments::parse(words, command.options).map_err(Failure::Call)?;
    arguments.origin = origin;
    if arguments.has("--help") {
        console.line(command_help(command))?;
        return Ok(Status::Taken);
    }
    (command.run)(&arguments, console)
}

fn command(name: &OsString) -> Result<&'static Command, Failure> {
    let found = COMMANDS.iter().find(|command| *name == command.name);
    found.copied().ok_or_else(|| {
        let name = name.to_string_lossy();
        let near = nearest(&name, COMMANDS.iter().map(|command| command.name));
        let near = near.map_or(String::new(), |near| format!("; is it `{near}`?"));
        Failure::Call(format!("there is no command `{name}`{near}"))
    })
}

/// This program, and which library is in it.
fn version() -> String {
    let [program, library] = [env!("CARGO_PKG_VERSION"), robequarry::VERSION];
    format!("robequarry {program}\nlibrary {library}, librobequarry.a SHA-256 {}", robequarry::ARCHIVE)
}

/// Of one command or, where none is named, of all.
fn help(name: Option<OsString>, console: &mut Console) -> Result<Status, Failure> {
    match name {
        Some(name) => console.line(command_help(command(&name)?))?,
        None => {
            let row = |command: &&Command| format!("  {:<48} {}", command.usage, command.summary);
            let rows: Vec<String> = COMMANDS.iter().map(row).collect();
            let more = "`robequarry COMMAND --help` says more of a command.";
            let rows = rows.join("\n");
            console.line(format!("{INTRODUCTION}\n\nCommands:\n{rows}\n\n{FILES}\n\n{STATUSES}\n\n{more}"))?;
        }
    }
    Ok(Status::Taken)
}

fn command_help(command: &Command) -> String {
    format!(
        "robequarry {}\n\n{}\n\n{}\n\n{FILES}\n\n{}",
        command.usage,
        command.help,
        options::help(command.options),
        statuses(command)
    )
}

/// The plain words of a call, if there are as many as the command takes.
fn plain<'a, const N: usize>(arguments: &'a Arguments, what: &str) -> Result<[&'a Path; N], Failure> {
    let words: Vec<&Path> = arguments.plain.iter().map(Path::new).collect();
    words.try_into().map_err(|words: Vec<&Path>| {
        let given = match words.len() {
            0 => "nothing is given".to_string(),
            n if n < N => "too little is given".to_string(),
            _ => format!("`{}` is one too many", shown(words[N])),
        };
        Failure::Call(format!("{what}; {given}"))
    })
}

/// A number among the plain words.
fn number<T: FromStr>(word: &OsStr, what: &str) -> Result<T, Failure> {
    let number = word.to_str().and_then(|word| word.parse().ok());
    number.ok_or_else(|| Failure::Call(format!("`{}` is not {what}", word.to_string_lossy())))
}

/// Opens a file of outlines.
fn read(path: &Path, arguments: &Arguments) -> Result<Reader, Failure> {
    Reader::open(path, arguments.form()).map_err(|error| faulty(path, Fault::Unread(error)))
}

fn faulty(path: &Path, fault: Fault) -> Failure {
    Failure::File(path.to_path_buf(), fault.to_string())
}

fn title(number: usize, entry: &Entry) -> String {
    described(number, entry.name.as_deref().unwrap_or(""))
}

/// One outline of a file: the wanted one or the first, with its number. A fault ahead of it is a fault.
fn one(path: &Path, arguments: &Arguments, wanted: Option<usize>) -> Result<(usize, Entry), Failure> {
    one_and_comments(path, arguments, wanted).map(|(number, entry, _)| (number, entry))
}

/// The same, with the comments that stand before it.
fn one_and_comments(
    path: &Path,
    arguments: &Arguments,
    wanted: Option<usize>,
) -> Result<(usize, Entry, Vec<String>), Failure> {
    let mut reader = read(path, arguments)?;
    let number = wanted.unwrap_or(0);
    let (mut read, mut comments) = (0, Vec::new());
    while let Some(entry) = reader.next() {
        comments.extend(reader.comments());
        let entry = entry.map_err(|fault| faulty(path, fault))?;
        if read == number {
            return Ok((number, entry, comments));
        }
        read += 1;
    }
    let holds = match read {
        0 => reader.nothing().map_or("it holds no outline", |nothing| nothing.words()).to_string(),
        1 => "its only outline is number 0".to_string(),
        _ => format!("its outlines are numbered 0 to {}", read - 1),
    };
    Err(Failure::File(path.to_path_buf(), format!("there is no outline {number}: {holds}")))
}

/// Every outline of a file. A fault is a fault of the whole; an empty file is said to be empty.
fn every(path: &Path, arguments: &Arguments, console: &mut Console) -> Result<Vec<Entry>, Failure> {
    let mut reader = read(path, arguments)?;
    let entries = reader.by_ref().map(|entry| entry.map_err(|fault| faulty(path, fault))).collect::<Result<_, _>>()?;
    say_empty(path, &reader, console)?;
    Ok(entries)
}

/// The files of a path: itself, or those of a folder, in order. What cannot be read is a fault of the whole; what is passed over is said.
fn files(path: &Path, console: &mut Console) -> Result<Vec<PathBuf>, Failure> {
    let (mut files, mut passed_over) = (Vec::new(), 0);
    for found in Walk::of([path.to_path_buf()].into_iter(), false) {
        match found {
            Found::File(file) => files.push(file),
            Found::PassedOver(..) => passed_over += 1,
            Found::Unread(file, error) => return Err(faulty(&file, Fault::Unread(error))),
        }
    }
    if passed_over > 0 {
        console.remark(format_args!("{}: {passed_over} passed over; `check --verbose` names them", shown(path)))?;
    }
    Ok(files)
}

/// Refuses to write over a file that is read, unless that is wished: one that is named, one below a folder, or another name of it.
fn guard(out: &Path, inputs: &[&Path], arguments: &Arguments) -> Result<(), Failure> {
    let Some(own) = fs::metadata(out).ok().filter(|metadata| metadata.is_file()) else {
        return Ok(());
    };
    if arguments.has("--force") || out.as_os_str() == "-" {
        return Ok(());
    }
    let same = |path: &Path| fs::metadata(path).is_ok_and(|found| (found.dev(), found.ino()) == (own.dev(), own.ino()));
    let named = inputs.iter().map(|path| path.to_path_buf());
    let mut read = Walk::of(named.collect::<Vec<_>>().into_iter(), true);
    match read.any(|found| matches!(found, Found::File(path) if same(&path))) {
        true => {
            let sentence = format!("{} is read, and would be written over: give another name, or --force", shown(out));
            Err(Failure::Call(sentence))
        }
        false => Ok(()),
    }
}

/// The folders of a call in which there is nothing to read: they are named, so that none counts as looked at.
fn say_bare_folders(paths: &[PathBuf], every_file: bool, console: &mut Console) -> Result<bool, Failure> {
    let mut any = false;
    for path in paths.iter().filter(|path| path.is_dir()) {
        let mut found = Walk::of([path.clone()].into_iter(), every_file);
        if !found.any(|found| !matches!(found, Found::PassedOver(..))) {
            console.remark(format_args!("{}: there is no file of outlines in this folder", shown(path)))?;
            any = true;
        }
    }
    Ok(any)
}

/// Whether a command writes JSON, of the two that it can write.
fn is_json(arguments: &Arguments, command: &str) -> Result<bool, Failure> {
    match arguments.format() {
        Format::Csv => Err(Failure::Call(format!("{command} writes text or json, not csv"))),
        format => Ok(format == Format::Json),
    }
}

/// Writes an object on a line.
fn object(row: &Row, console: &mut Console) -> Result<(), Failure> {
    let mut line = Vec::new();
    json_line(&mut line, row);
    Ok(console.bytes(&line)?)
}

/// Who types lines waits for answers.
fn answer(path: &Path, console: &mut Console) -> Result<(), Failure> {
    if path.as_os_str() == "-" {
        console.flush()?;
    }
    Ok(())
}

/// Says that a file is empty, where it is.
fn say_empty(path: &Path, reader: &Reader, console: &mut Console) -> Result<(), Failure> {
    if let Some(nothing) = reader.nothing() {
        console.remark(format_args!("{}: {}", shown(path), nothing.words()))?;
    }
    Ok(())
}

/// One outline of a file at work on a holder; none where it is refused, and that is said.
fn at_work(path: &Path, arguments: &Arguments, console: &mut Console) -> Result<Option<AtWork>, Failure> {
    let (number, entry) = one(path, arguments, arguments.number("--outline"))?;
    let verdict = entry.outline.test();
    if verdict.is_err() {
        let said = Said::of(&entry.outline, &verdict);
        console.line(format_args!("{}: {} - {}", title(number, &entry), said.what, said.place))?;
        return Ok(None);
    }
    Ok(Some(AtWork::of(&entry.outline).expect("what a test takes a holder takes")))
}

/// The form in which outlines are written: that of --to, or that of the file's name. The two must agree.
fn form_to_write(arguments: &Arguments) -> Result<Option<Form>, Failure> {
    let name = arguments.path("--out").and_then(|out| Some((out, Form::by_name(out)?)));
    match (arguments.to(), name) {
        (Some(to), Some((out, form))) if to != form => {
            Err(Failure::Call(format!("--to {} and the name {} contradict each other", to.word(), shown(out))))
        }
        (to, name) => Ok(to.or(name.map(|(_, form)| form))),
    }
}

/// What became of writing an outline of a file.
fn put(put: Result<(), output::Failure>, path: &Path, number: usize) -> Result<(), Failure> {
    put.map_err(|failure| match failure {
        output::Failure::Outline(sentence) => Failure::File(path.to_path_buf(), format!("outline {number}: {sentence}")),
        output::Failure::File(path, error) => Failure::File(path, format!("cannot be written: {error}")),
        output::Failure::Output(error) => Failure::Output(error),
    })
}

/// Ends the writing of outlines of a file.
fn written(sink: Sink, path: &Path, console: &mut Console) -> Result<(), Failure> {
    put(sink.finish(console), path, 0)
}

/// Says why the library refused what was asked.
fn refused(refusal: Refusal, console: &mut Console) -> Result<Status, Failure> {
    console.line(format_args!("refused, {}: {refusal}", refusal.number()))?;
    Ok(Status::Refused)
}
