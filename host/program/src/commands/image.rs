use std::fs;
use std::io::{self, Read};
use std::path::{Path, PathBuf};

use robequarry::image::{self, Image};
use robequarry::text;

use super::{
    audit, form_to_write, guard, is_json, object, put, say_bare_folders, written, Command, Console, Failure, Status,
};
use crate::arguments::Arguments;
use crate::input::{ends_in, Entry, Fault, Form, Found, Walk};
use crate::output::Sink;
use crate::paths::shown;
use crate::report::{verdict_row, Value};
use crate::verdict::{count, Said};

pub const COMMAND: Command = Command {
    name: "image",
    usage: "image FILE|FOLDER... [-o OUT] [--drawn FILE]",
    summary: "read images out of controllers: verdict, outline, and whether they are as drawn",
    help: "\
Reads images, as rq_save writes them of one place of a controller: 622 bytes with a checksum. For each it writes the verdict on its
outline, and the outline as a line of the text form. Of a folder it reads the names that end in .img, in capitals or not. An image that
is damaged is refused by 26, and that of an empty place is said to be empty. `-` is standard input.

With -o the outlines are written to a text or a fitting file, each under the name of its image. With --drawn the image or the folder is
held to the outlines of a file or a folder, as `audit` does: an image belongs to the outline whose serial number or name is the name of
the image's file. `convert --to image` writes one.

    robequarry image controllers -o read.txt
    robequarry image controllers --drawn drawn.txt",
    statuses: &[
        (0, "every image is whole and its outline is taken; with --drawn, each was compared and agrees"),
        (1, "an outline is refused; with --drawn, something differs"),
        (2, "something is wrong with the call, or an image is damaged or cannot be read"),
        (3, "there was no image, or only empty places; with --drawn, something was not compared"),
    ],
    options: &["--out", "--to", "--drawn", "--format", "--differences", "--force"],
    run,
};

fn run(arguments: &Arguments, console: &mut Console) -> Result<Status, Failure> {
    let paths: Vec<PathBuf> = arguments.plain.iter().map(PathBuf::from).collect();
    match (arguments.path("--drawn"), &paths[..]) {
        (_, []) => return Err(Failure::Call("image takes images or folders of them; nothing is given".to_string())),
        (Some(_), _) if arguments.has("--out") => {
            return Err(Failure::Call("--drawn and --out contradict each other: give one of them".to_string()));
        }
        (Some(_), [images]) if images.as_os_str() == "-" => {
            let sentence = "--drawn finds an outline by the name of the image's file, and standard input has none";
            return Err(Failure::Call(sentence.to_string()));
        }
        (Some(drawn), [images]) => return audit::compare(images, drawn, arguments, console),
        (Some(_), _) => return Err(Failure::Call("--drawn takes one image or one folder of them".to_string())),
        (None, _) => {}
    }
    let (out, json) = (arguments.path("--out"), is_json(arguments, "image")?);
    if let Some(out) = out {
        let inputs: Vec<&Path> = paths.iter().map(PathBuf::as_path).collect();
        guard(out, &inputs, arguments)?;
    }
    if json {
        object(&arguments.origin.row(), console)?;
    }
    let form = form_to_write(arguments)?.unwrap_or(Form::Text);
    let mut sink = Sink::to(out, form);
    let (mut status, mut images, mut passed_over) = (Status::Taken, 0, 0);
    if say_bare_folders(&paths, false, console)? {
        status = Status::Nothing;
    }
    let named: Vec<PathBuf> = paths.clone();
    for found in Walk::of(paths.into_iter(), false) {
        let path = match found {
            Found::File(path) if named.contains(&path) || ends_in(&path, "img") => path,
            Found::Unread(path, error) => {
                console.remark(format_args!("{}: {}", shown(&path), Fault::Unread(error)))?;
                status = status.worse(Status::Faulty);
                continue;
            }
            _ => {
                passed_over += 1;
                continue;
            }
        };
        images += 1;
        match read(&path) {
            Err(fault) => {
                console.remark(format_args!("{}: {fault}", shown(&path)))?;
                if json {
                    let said = [("file", Value::text(shown(&path))), ("meaning", Value::text(fault.to_string()))];
                    object(&[("type", Value::text("fault"))].into_iter().chain(said).collect(), console)?;
                }
                status = status.worse(Status::Faulty);
            }
            Ok(None) => {
                say(&path, "an empty place", json, console)?;
                status = status.worse(Status::Nothing);
            }
            Ok(Some(entry)) => {
                status = status.worse(tell(&path, &entry, json, out, console)?);
                if out.is_some() {
                    put(sink.outline(&entry.outline, entry.name.as_deref().unwrap_or(""), console), &path, 0)?;
                }
            }
        }
    }
    if out.is_some() {
        written(sink, Path::new("image"), console)?;
    }
    if passed_over > 0 {
        console.remark(format_args!("{passed_over} passed over: the name does not end in .img"))?;
    }
    if images == 0 {
        console.remark("there was no image")?;
        status = status.worse(Status::Nothing);
    }
    Ok(status)
}

/// The bytes of standard input, and no more than show that they are too many.
fn standard_input() -> io::Result<Vec<u8>> {
    let mut bytes = Vec::new();
    io::stdin().lock().take(image::BYTES as u64 + 1).read_to_end(&mut bytes)?;
    Ok(bytes)
}

/// The outline of an image, under the name of its file; none where the place was empty.
fn read(path: &Path) -> Result<Option<Entry>, Fault> {
    let from_input = path.as_os_str() == "-";
    let bytes = if from_input { standard_input() } else { fs::read(path) }.map_err(Fault::Unread)?;
    let image = Image::try_from(&bytes[..]).map_err(Fault::Image)?;
    let name = path.file_stem().filter(|_| !from_input).map(|stem| shown(Path::new(stem)));
    Ok(image.outline().map(|outline| Entry { name, outline: outline.clone() }))
}

fn say(path: &Path, what: &'static str, json: bool, console: &mut Console) -> Result<(), Failure> {
    match json {
        true => {
            let row =
                vec![("type", Value::text("empty")), ("file", Value::text(shown(path))), ("meaning", Value::text(what))];
            object(&row, console)
        }
        false => Ok(console.line(format_args!("{}: {what}", shown(path)))?),
    }
}

/// Says the verdict on an image's outline, and the outline.
fn tell(path: &Path, entry: &Entry, json: bool, out: Option<&Path>, console: &mut Console) -> Result<Status, Failure> {
    let verdict = entry.outline.test();
    if json {
        let file = shown(path);
        let mut row = verdict_row(&file, 0, entry.name.as_deref().unwrap_or(""), &entry.outline, &verdict);
        row.truncate(row.len() - 2);
        row[0].1 = Value::text("image");
        row.push(("line", Value::perhaps(text::line(&entry.outline).map(Value::text))));
        object(&row, console)?;
    } else if out.is_none_or(|out| out.as_os_str() != "-") {
        let said = Said::of(&entry.outline, &verdict);
        let letters = count(entry.outline.letters.len(), "letter");
        console.line(format_args!("{}: {letters}: {} - {}", shown(path), said.what, said.place))?;
        console.line(format_args!("  {}", text::line(&entry.outline).unwrap_or_else(|| "letters above 9".to_string())))?;
    }
    Ok(Status::of(verdict.is_ok()))
}
