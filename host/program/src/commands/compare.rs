use std::collections::HashMap;
use std::path::{Path, PathBuf};

use robequarry::{Comparison, Edges, Nesting};

use super::{every, files, is_json, object, one, plain, title, Command, Console, Failure, Status};
use crate::arguments::Arguments;
use crate::engine;
use crate::input::Entry;
use crate::pairing::{Index, Key};
use crate::paths::shown;
use crate::report::{Row, Value};
use crate::verdict::{at, Said};

pub const COMMAND: Command = Command {
    name: "compare",
    usage: "compare A B [--first N] [--second N] | --all",
    summary: "which of two blocks lies within the other, one or a folder of them",
    help: "\
Tests an outline of each file and says how the cells of the two blocks lie: whether they are the same, one block is within the
other, they have no cell in common, or they cross. Where one lies within the other, or both are equal, the inner one's edges follow.

With --all, and where A and B are folders, each outline of A is compared with the outline of B that has its serial number or its name,
in the file of the same name. Where neither file has names, the outlines are taken in their order. What has no other is not compared,
which is said.

    robequarry compare drawn-2025 drawn-2026
    robequarry compare drawn.txt completed.txt --all",
    statuses: &[
        (0, "everything was compared"),
        (1, "an outline is refused, so that it cannot be compared"),
        (2, "something is wrong with the call, or with a file"),
        (3, "something was not compared, or there was nothing to compare"),
    ],
    options: &["--first", "--second", "--all", "--format", "--text", "--fitting"],
    run,
};

fn run(arguments: &Arguments, console: &mut Console) -> Result<Status, Failure> {
    let [a, b] = plain(arguments, "compare takes two files or two folders")?;
    let json = is_json(arguments, "compare")?;
    if json {
        object(&arguments.origin.row(), console)?;
    }
    if a.is_dir() != b.is_dir() {
        return Err(Failure::Call("compare takes two files or two folders, not one of each".to_string()));
    }
    if a.is_dir() || arguments.has("--all") {
        return many(a, b, arguments, console);
    }
    let (first, second) =
        (one(a, arguments, arguments.number("--first"))?, one(b, arguments, arguments.number("--second"))?);
    pair(Pair { file: None, first, second }, json, console)
}

/// Two outlines, each with its number, and the file where there are several.
struct Pair {
    file: Option<String>,
    first: (usize, Entry),
    second: (usize, Entry),
}

/// Compares two outlines, and says it.
fn pair(pair: Pair, json: bool, console: &mut Console) -> Result<Status, Failure> {
    let Pair { file, first, second } = &pair;
    let [one, two] = [first, second].map(|(_, entry)| entry.outline.test());
    let compared = match (&one, &two) {
        (Ok(one), Ok(two)) => Some(engine::compare(one, two).expect("edges of taken outlines are compared")),
        _ => None,
    };
    if json {
        object(&row(&pair, [&one, &two], compared), console)?;
        return Ok(Status::of(compared.is_some()));
    }
    let before = file.as_ref().map_or(String::new(), |file| format!("{file}: "));
    for (which, (number, entry), verdict) in [("first", first, &one), ("second", second, &two)] {
        let said = Said::of(&entry.outline, verdict);
        if file.is_none() || verdict.is_err() {
            console.line(format_args!("{before}{which}: {}: {} - {}", title(*number, entry), said.what, said.place))?;
        }
    }
    if let Some(comparison) = compared {
        let before = if before.is_empty() { before } else { format!("{before}{}: ", title(first.0, &first.1)) };
        say(&before, comparison, console)?;
    }
    Ok(Status::of(compared.is_some()))
}

fn row(
    Pair { file, first, second }: &Pair,
    verdicts: [&robequarry::Verdict; 2],
    compared: Option<Comparison>,
) -> Row<'static> {
    let [one, two] = verdicts.map(|verdict| Value::number(verdict.as_ref().err().map_or(0, |refusal| refusal.number())));
    let pairs = |edges: &Edges| Value::Pairs(edges.steps().map(|(cols, rows)| (cols.into(), rows.into())).collect());
    let inner = compared.and_then(|compared| compared.inner);
    let anchor = inner.map(|edges| Value::Pair(edges.anchor().col.into(), edges.anchor().row.into()));
    let name = |entry: &Entry| Value::perhaps(entry.name.clone().map(Value::text));
    vec![
        ("type", Value::text("comparison")),
        ("file", Value::perhaps(file.clone().map(Value::text))),
        ("first", Value::number(first.0)),
        ("first_name", name(&first.1)),
        ("first_number", one),
        ("second", Value::number(second.0)),
        ("second_name", name(&second.1)),
        ("second_number", two),
        ("nesting", Value::perhaps(compared.map(|compared| Value::text(words(compared.nesting).0)))),
        ("inner_anchor", Value::perhaps(anchor)),
        ("inner_edges", Value::perhaps(inner.map(pairs))),
    ]
}

/// Compares every outline of two files, or of the files of two folders.
fn many(a: &Path, b: &Path, arguments: &Arguments, console: &mut Console) -> Result<Status, Failure> {
    let json = is_json(arguments, "compare")?;
    let within =
        |folder: &Path, file: PathBuf| (file.strip_prefix(folder).map_or_else(|_| file.clone(), Path::to_path_buf), file);
    let pairs: Vec<(String, Option<PathBuf>, Option<PathBuf>)> = match a.is_dir() {
        false => vec![(shown(a), Some(a.to_path_buf()), Some(b.to_path_buf()))],
        true => {
            let first: Vec<_> = files(a, console)?.into_iter().map(|file| within(a, file)).collect();
            let mut second: HashMap<PathBuf, PathBuf> = files(b, console)?.into_iter().map(|file| within(b, file)).collect();
            let mut pairs: Vec<_> =
                first.into_iter().map(|(name, file)| (shown(&name), Some(file), second.remove(&name))).collect();
            let mut rest: Vec<_> = second.into_iter().collect();
            rest.sort();
            pairs.extend(rest.into_iter().map(|(name, file)| (shown(&name), None, Some(file))));
            pairs
        }
    };
    let (mut status, mut compared) = (Status::Taken, 0);
    let alone = |file: &str, what: String, console: &mut Console| -> Result<(), Failure> {
        match json {
            true => {
                let kind = ("type", Value::text("not compared"));
                object(&vec![kind, ("file", Value::text(file)), ("meaning", Value::text(what))], console)
            }
            false => Ok(console.line(format_args!("{file}: NOT COMPARED: {what}"))?),
        }
    };
    for (file, first, second) in pairs {
        let (Some(first), Some(second)) = (&first, &second) else {
            let which = if first.is_some() { "first" } else { "second" };
            alone(&file, format!("only the {which} folder has this file"), console)?;
            status = status.worse(Status::Nothing);
            continue;
        };
        let (one, two) = (every(first, arguments, console)?, every(second, arguments, console)?);
        let (together, lonely) = paired(&one, &two);
        for (i, j) in together {
            let found = Pair { file: Some(file.clone()), first: (i, one[i].clone()), second: (j, two[j].clone()) };
            status = status.worse(pair(found, json, console)?);
            compared += 1;
        }
        for (which, number) in lonely {
            let entry = if which == "first" { &one[number] } else { &two[number] };
            alone(&file, format!("{} of the {which} has no other", title(number, entry)), console)?;
            status = status.worse(Status::Nothing);
        }
    }
    Ok(if compared == 0 { status.worse(Status::Nothing) } else { status })
}

/// Pairs of outlines by their places in two lists, and which of the first or the second list have no other.
pub type Together = (Vec<(usize, usize)>, Vec<(&'static str, usize)>);

/// The outlines that belong together: by serial number or name or, where no outline has one, in their order.
pub fn paired(one: &[Entry], two: &[Entry]) -> Together {
    let key = |entry: &Entry| Key::of(entry.name.as_deref().unwrap_or(""));
    let nameless = one.iter().chain(two).all(|entry| entry.name.is_none());
    let index = Index::of(two.iter().map(key).zip(0..));
    let (mut together, mut lonely) = (Vec::new(), Vec::new());
    for (i, entry) in one.iter().enumerate() {
        let found = if nameless { (i < two.len()).then_some(i) } else { index.find(&key(entry)).ok() };
        match found {
            Some(j) => together.push((i, j)),
            None => lonely.push(("first", i)),
        }
    }
    let other = (0..two.len()).filter(|j| !together.iter().any(|(_, found)| found == j));
    lonely.extend(other.map(|j| ("second", j)).collect::<Vec<_>>());
    (together, lonely)
}

/// A taken outline of a file, and its edges.
pub struct Taken {
    pub number: usize,
    pub entry: Entry,
    pub edges: Edges,
}

/// Tests an outline for a picture, and says a refusal. None where it is refused.
pub fn taken(
    path: &Path,
    arguments: &Arguments,
    wanted: Option<usize>,
    which: &str,
    console: &mut Console,
) -> Result<Option<Taken>, Failure> {
    let (number, entry) = one(path, arguments, wanted)?;
    let verdict = entry.outline.test();
    let said = Said::of(&entry.outline, &verdict);
    if verdict.is_err() {
        console.line(format_args!("{which}: {}: {} - {}", title(number, &entry), said.what, said.place))?;
    }
    Ok(verdict.ok().map(|edges| Taken { number, entry, edges }))
}

/// A nesting in a word, and what it means.
pub fn words(nesting: Nesting) -> (&'static str, &'static str) {
    match nesting {
        Nesting::Equal => ("equal", "both blocks have the same cells"),
        Nesting::FirstWithin => ("first within second", "every cell of the first is one of the second, which has more"),
        Nesting::SecondWithin => ("second within first", "every cell of the second is one of the first, which has more"),
        Nesting::NoCommonCell => ("no common cell", "no cell is in both"),
        Nesting::Crossing => ("crossing", "some cells are in both, and some of each in it alone"),
    }
}

fn say(before: &str, comparison: Comparison, console: &mut Console) -> Result<(), Failure> {
    let (word, meaning) = words(comparison.nesting);
    console.line(format_args!("{before}{word} - {meaning}"))?;
    if let Some(inner) = comparison.inner.filter(|_| before.is_empty()) {
        let edges: Vec<String> = inner.steps().map(|(cols, rows)| at((cols.into(), rows.into()))).collect();
        console.line(format_args!(
            "inner: anchor {}, edges {}",
            inner.anchor(),
            if edges.is_empty() { "none".to_string() } else { edges.join(" ") }
        ))?;
    }
    Ok(())
}
