use std::fs;
use std::path::{Path, PathBuf};

use robequarry::limits::LAST_CELL;
use robequarry::{Edges, Outline, SectionKind, Verdict};

use super::{compare, every, files, guard, one, pile, plain, title, Command, Console, Failure, Status};
use crate::arguments::Arguments;
use crate::engine::{self, Help};
use crate::input::Entry;
use crate::output::whole;
use crate::picture::{self, beside, sheet, Tile};
use crate::verdict::{count, Said};

pub const COMMAND: Command = Command {
    name: "draw",
    usage: "draw FILE|FOLDER -o OUT [--outline N] [--all | ...]",
    summary: "draw outlines: block, pieces, edges, or why they are refused",
    help: "\
Draws one outline as an SVG that stands alone: the chart with its axes, the marked cells, the border with its four pieces, the
corners W, N, E, S, and the hull's edges from the anchor, as the tablet draws them. Of a refused outline it shows the reason
where it is: the letter, the back-step, or the dented factor with its chord and the missing cells; and where a cell is missing,
three marked cells and their triangle, which holds the lowest missing one. The picture is written for a refused outline as well.

One of these draws something else: --all every outline of the file on a sheet; --complete the outline beside the smallest convex block
that has all its cells; --witness three marked cells and the missing cell in their triangle alone; --compare OTHER the block upon a
block of another file, which --second chooses, with the cells of both and of each alone; --pile the outlines as layers of a pile, and
its dented sections, or the largest ones where it passes, or the one at --column or --row.

Into a folder OUT: --refused writes a picture of each refused outline of a file or a folder, beside what to draw instead. A folder
without it gets a sheet for each of its files. A folder with --compare OTHER, a folder too, gets a picture for each pair of outlines with
the same serial number or name in files of the same name. A picture is called after the file and the outline's number.

    robequarry draw drawn.txt --all -o sheet.svg
    robequarry draw then.txt --compare now.txt -o both.svg
    robequarry draw clinic --refused -o pictures",
    statuses: &[
        (0, "what is drawn is taken"),
        (
            1,
            "an outline that is drawn is refused, or there is nothing to draw; the picture is written all \
             the same where there is one",
        ),
        (2, "something is wrong with the call or the file, or the picture cannot be written"),
        (3, "there was no outline to draw"),
    ],
    options: &[
        "--out", "--outline", "--all", "--refused", "--complete", "--witness", "--compare", "--second", "--pile", "--column",
        "--row", "--force", "--text", "--fitting",
    ],
    run,
};

/// A sheet has at most this many outlines.
const MOST_TILES: usize = 400;

/// A sheet has at most this many sections.
const MOST_SECTIONS: usize = 12;

/// The columns and the plots of a sheet of outlines.
const SHEET: (usize, f64) = (4, 226.0);

/// A picture and how the command ends; no picture where there is nothing to draw, which has been said.
type Drawn = (Option<String>, Status);

fn run(arguments: &Arguments, console: &mut Console) -> Result<Status, Failure> {
    let [path] = plain(arguments, "draw takes one file")?;
    let Some(out) = arguments.path("--out") else {
        return Err(Failure::Call("draw needs a name for its picture: -o OUT.svg".to_string()));
    };
    if arguments.has("--second") && !arguments.has("--compare") {
        return Err(Failure::Call("--second goes with --compare".to_string()));
    }
    if path.is_dir() || arguments.has("--refused") {
        return many(path, out, arguments, console);
    }
    refuse_other_formats(out)?;
    let inputs: Vec<&Path> = [path].into_iter().chain(arguments.path("--compare")).collect();
    guard(out, &inputs, arguments)?;
    let draw = match () {
        () if arguments.has("--all") => all,
        () if arguments.has("--witness") => witness,
        () if arguments.has("--compare") => comparison,
        () if arguments.has("--pile") => sections,
        () => outline,
    };
    let (svg, status) = draw(path, arguments, console)?;
    match svg {
        None => {}
        Some(svg) if out.as_os_str() == "-" => console.line(svg.trim_end())?,
        Some(svg) => write(out, &svg)?,
    }
    Ok(status)
}

fn write(out: &Path, svg: &str) -> Result<(), Failure> {
    let failed = |error| Failure::File(out.to_path_buf(), format!("cannot be written: {error}"));
    whole(out, svg.as_bytes()).map_err(failed)
}

/// Pictures of a file or a folder, into a folder.
fn many(path: &Path, out: &Path, arguments: &Arguments, console: &mut Console) -> Result<Status, Failure> {
    for option in ["--outline", "--complete", "--witness", "--pile", "--second"] {
        if arguments.has(option) {
            return Err(Failure::Call(format!("{option} is for one file, and here many pictures are drawn")));
        }
    }
    let other = arguments.path("--compare");
    if other.is_some_and(|other| !other.is_dir()) {
        return Err(Failure::Call("--compare takes a folder where the other is one".to_string()));
    }
    if out.as_os_str() == "-" || out.is_file() {
        return Err(Failure::Call("many pictures need a folder: -o FOLDER".to_string()));
    }
    let (mut drawn, mut outlines, mut status) = (0, 0, Status::Taken);
    for file in files(path, console)? {
        let within = match file.strip_prefix(path) {
            Ok(within) if !within.as_os_str().is_empty() => within.to_path_buf(),
            _ => PathBuf::from(file.file_name().unwrap_or(file.as_os_str())),
        };
        let pictures = match other {
            Some(other) => compared(&file, &other.join(&within), arguments, console)?,
            None => drawings(&file, arguments, console)?,
        };
        outlines += pictures.outlines;
        status = status.worse(pictures.status);
        for (name, svg) in pictures.drawn {
            let mut target = out.join(&within).into_os_string();
            target.push(name);
            let target = PathBuf::from(target);
            let folder = target.parent().unwrap_or(out);
            fs::create_dir_all(folder)
                .map_err(|error| Failure::File(folder.to_path_buf(), format!("cannot be written: {error}")))?;
            write(&target, &svg)?;
            drawn += 1;
            console.progress(|| count(drawn, "picture"))?;
        }
    }
    if let Some(other) = other {
        for file in files(other, console)? {
            let within = file.strip_prefix(other).unwrap_or(&file);
            if !path.join(within).is_file() {
                console
                    .line(format_args!("{}: NOT COMPARED: the other folder has no such file", crate::paths::shown(&file)))?;
                status = status.worse(Status::Nothing);
            }
        }
    }
    console.line(format_args!("{} in {}", count(drawn, "picture"), crate::paths::shown(out)))?;
    Ok(if outlines == 0 { status.worse(Status::Nothing) } else { status })
}

/// Pictures of a file, with the ends of their names.
struct Pictures {
    drawn: Vec<(String, String)>,
    /// How many outlines were looked at.
    outlines: usize,
    status: Status,
}

/// The refused outlines of a file, or a sheet of all of them.
fn drawings(file: &Path, arguments: &Arguments, console: &mut Console) -> Result<Pictures, Failure> {
    let entries = every(file, arguments, console)?;
    let status = Status::of(entries.iter().all(|entry| entry.outline.test().is_ok()));
    let mut drawn = Vec::new();
    if !arguments.has("--refused") && !entries.is_empty() {
        drawn.push((".svg".to_string(), sheet_of(file, &entries)?));
    }
    for (number, entry) in entries.iter().enumerate().filter(|_| arguments.has("--refused")) {
        let verdict = entry.outline.test();
        if verdict.is_err() {
            drawn.push((format!("-{number}.svg"), with_help(&name(number, entry), &entry.outline, &verdict)));
        }
    }
    Ok(Pictures { drawn, outlines: entries.len(), status })
}

/// The pairs of two files, one block upon the other. What cannot be compared is said.
fn compared(file: &Path, other: &Path, arguments: &Arguments, console: &mut Console) -> Result<Pictures, Failure> {
    let shown = crate::paths::shown;
    if !other.is_file() {
        console.line(format_args!("{}: NOT COMPARED: there is no {}", shown(file), shown(other)))?;
        return Ok(Pictures { drawn: Vec::new(), outlines: 0, status: Status::Nothing });
    }
    let (one, two) = (every(file, arguments, console)?, every(other, arguments, console)?);
    let (together, lonely) = compare::paired(&one, &two);
    let mut pictures = Pictures { drawn: Vec::new(), outlines: one.len(), status: Status::Taken };
    for (which, number) in lonely {
        let (file, entry) = if which == "first" { (file, &one[number]) } else { (other, &two[number]) };
        console.line(format_args!("{}: NOT COMPARED: {} has no other", shown(file), title(number, entry)))?;
        pictures.status = pictures.status.worse(Status::Nothing);
    }
    for (i, j) in together {
        let (first, second) = ((i, &one[i]), (j, &two[j]));
        match (first.1.outline.test(), second.1.outline.test()) {
            (Ok(a), Ok(b)) => pictures.drawn.push((format!("-{i}.svg"), upon((first, &a), (second, &b)))),
            _ => {
                let sentence = format_args!("{}: NOT COMPARED: {} is refused then or now", shown(file), title(i, &one[i]));
                console.line(sentence)?;
                pictures.status = pictures.status.worse(Status::Refused);
            }
        }
    }
    Ok(pictures)
}

/// Pictures are SVG, and a name that promises another format would be wrong.
fn refuse_other_formats(out: &Path) -> Result<(), Failure> {
    let extension = out.extension().map(|extension| extension.to_string_lossy().to_lowercase());
    let Some(other) = extension.filter(|name| ["png", "jpg", "jpeg", "gif", "webp", "pdf"].contains(&name.as_str())) else {
        return Ok(());
    };
    let (svg, other) = (out.with_extension("svg"), other.to_uppercase());
    let (svg, out_name) = (svg.display(), out.display());
    let sentence = format!(
        "pictures are SVG, not {other}: draw {svg}, and a browser or `rsvg-convert {svg} -o {out_name}` makes the {other}"
    );
    Err(Failure::File(out.to_path_buf(), sentence))
}

/// The name of a picture of an outline.
fn name(number: usize, entry: &Entry) -> String {
    entry.name.clone().unwrap_or_else(|| title(number, entry))
}

fn outline(path: &Path, arguments: &Arguments, _: &mut Console) -> Result<Drawn, Failure> {
    let (number, entry) = one(path, arguments, arguments.number("--outline"))?;
    let verdict = entry.outline.test();
    let title = name(number, &entry);
    let svg = match arguments.has("--complete") {
        true => with_help(&title, &entry.outline, &verdict),
        false => picture::picture(&title, &entry.outline, &verdict),
    };
    Ok((Some(svg), Status::of(verdict.is_ok())))
}

/// An outline beside what to draw instead, where a cell is missing.
fn with_help(title: &str, outline: &Outline, verdict: &Verdict) -> String {
    match Help::of(outline) {
        Some(help) => beside(title, outline, verdict, &help.completed),
        None => picture::picture(title, outline, verdict),
    }
}

fn all(path: &Path, arguments: &Arguments, console: &mut Console) -> Result<Drawn, Failure> {
    let entries = every(path, arguments, console)?;
    if entries.is_empty() {
        return Ok((None, Status::Nothing));
    }
    let taken = entries.iter().all(|entry| entry.outline.test().is_ok());
    Ok((Some(sheet_of(path, &entries)?), Status::of(taken)))
}

fn sheet_of(path: &Path, entries: &[Entry]) -> Result<String, Failure> {
    if entries.len() > MOST_TILES {
        let n = entries.len();
        let sentence = format!("a sheet has space for {MOST_TILES} outlines, and these are {n}: draw parts of the file");
        return Err(Failure::File(path.to_path_buf(), sentence));
    }
    let judged: Vec<(String, Verdict)> =
        entries.iter().enumerate().map(|(number, entry)| (name(number, entry), entry.outline.test())).collect();
    let tiles: Vec<Tile> =
        entries.iter().zip(&judged).map(|(entry, (title, verdict))| tile(entry, title, verdict)).collect();
    Ok(sheet(&crate::paths::shown(path), &tiles, SHEET.0.min(tiles.len()), SHEET.1))
}

fn tile<'a>(entry: &'a Entry, title: &'a str, verdict: &'a Verdict) -> Tile<'a> {
    Tile { title, outline: &entry.outline, verdict, added: Vec::new() }
}

fn witness(path: &Path, arguments: &Arguments, console: &mut Console) -> Result<Drawn, Failure> {
    let (number, entry) = one(path, arguments, arguments.number("--outline"))?;
    let Some(help) = Help::of(&entry.outline) else {
        let said = Said::of(&entry.outline, &entry.outline.test());
        let title = title(number, &entry);
        console.line(format_args!("{title}: no cell is missing, so there is no witness: {} - {}", said.what, said.place))?;
        return Ok((None, Status::Refused));
    };
    Ok((Some(picture::witness(&name(number, &entry), &entry.outline, &help)), Status::Refused))
}

fn comparison(path: &Path, arguments: &Arguments, console: &mut Console) -> Result<Drawn, Failure> {
    let other = arguments.path("--compare").expect("it was given");
    let (first, second) = (arguments.number("--outline"), arguments.number("--second"));
    let Some(first) = compare::taken(path, arguments, first, "first", console)? else {
        return Ok((None, Status::Refused));
    };
    let Some(second) = compare::taken(other, arguments, second, "second", console)? else {
        return Ok((None, Status::Refused));
    };
    let svg = upon(((first.number, &first.entry), &first.edges), ((second.number, &second.entry), &second.edges));
    Ok((Some(svg), Status::Taken))
}

/// An outline of a file with its number, and its edges.
type Judged<'a> = ((usize, &'a Entry), &'a Edges);

/// One taken block upon another.
fn upon((first, edges): Judged, (second, others): Judged) -> String {
    let comparison = engine::compare(edges, others).expect("edges of taken outlines are compared");
    let (what, place) = compare::words(comparison.nesting);
    let said = Said { what: what.to_string(), place: place.to_string() };
    let title = format!("{}, and {}", name(first.0, first.1), name(second.0, second.1));
    picture::comparison(&title, &said, (&first.1.outline, edges), (&second.1.outline, others))
}

fn sections(path: &Path, arguments: &Arguments, console: &mut Console) -> Result<Drawn, Failure> {
    let Some(mut layers) = pile::layers(path, arguments, console)? else {
        return Ok((None, Status::Refused));
    };
    let passed = layers.check().is_ok();
    let title = path.to_string_lossy();
    let wanted = [("--column", SectionKind::Column), ("--row", SectionKind::Row)];
    for (option, kind) in wanted {
        if let Some(at) = arguments.number(option) {
            let at = u16::try_from(at).ok().filter(|at| *at <= LAST_CELL);
            let at = at.ok_or_else(|| Failure::Call(format!("{option} is a number from 0 to {LAST_CELL}")))?;
            let section = layers.section(kind, at);
            let title = format!("{title}: {}", section.title().to_lowercase());
            return Ok((Some(picture::section(&title, &section)), Status::of(passed)));
        }
    }
    let mut sections = if passed { layers.largest().into() } else { layers.dented() };
    if sections.len() > MOST_SECTIONS {
        console.remark(format_args!("{} sections are dented; the first {MOST_SECTIONS} are drawn", sections.len()))?;
        sections.truncate(MOST_SECTIONS);
    }
    Ok((Some(picture::sections(&title, &sections)), Status::of(passed)))
}
