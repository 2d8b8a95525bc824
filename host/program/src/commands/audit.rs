use std::io::Write;
use std::path::{Path, PathBuf};

use super::{plain, Command, Console, Failure, Status};
use crate::arguments::Arguments;
use crate::audit::{self, marked, Account, Finding, Line, Now, Outlines};
use crate::pairing::Unpaired;
use crate::paths::shown;
use crate::report::{csv_line, csv_names, json_line, Format, Row, Value};
use crate::verdict::{at, count, described};
use crate::walk::Point;

pub const COMMAND: Command = Command {
    name: "audit",
    usage: "audit OLD NEW [--format F] [--differences]",
    summary: "hold verdicts, edges, rows or images of controllers to what is drawn now",
    help: "\
Compares what was said of outlines then with what is said now, and names the cells that differ. OLD is a CSV of verdicts, as
`check --format csv` writes it; an image, or a folder of images, as rq_save writes them; or a list of what was read out of controllers,
a line each: the anchor's column and row, then columns and rows for each edge; or the word rows, the lowest row, then the first and
the last column of each row. A name follows a #. NEW is a file of outlines or a folder of them, which are tested now, or another CSV.

    0 1  1 1  1 -1  -1 -1  -1 1   # wearer 1, knee, serial=4711
    rows 0  1 1  0 2  1 1         # wearer 1, knee, serial=4711

What belongs together is found by the serial number, which stands as serial=... in a name, or, where one of the two has none, by the
rest of the name. An image has the name of its file. A CSV says the file and the outline's number, and a name that contradicts them
counts more. With --by-position line i of a list, from 0, belongs to outline i. What is found in one of the two only is not compared, and
that is counted.

A controller whose edges or rows let a cell in that its outline does not mark is unsafe, and is named with the lowest such cell. Edges
and rows that leave marked cells out, lists that answer for no cell, other verdicts and other fields of a verdict are told as well.
docs/PROGRAM.md describes the columns of a CSV.

    robequarry audit then.csv fleet
    robequarry audit controllers.txt outlines.txt --differences",
    statuses: &[
        (0, "everything was compared, and agrees"),
        (1, "something differs"),
        (2, "something is wrong with the call, or with a file; what was read has been compared"),
        (3, "nothing differs, but something was not compared, or there was nothing to compare"),
    ],
    options: &["--format", "--differences", "--by-position", "--keep-going", "--text", "--fitting"],
    run,
};

const COLUMNS: &[&str] = &["file", "outline", "name", "finding", "then", "now", "let_in", "left_out"];

/// So many cells are written out in a sentence.
const MOST_CELLS: usize = 4;

/// What was found of one outline.
struct Found {
    file: String,
    outline: Option<usize>,
    name: String,
    finding: Finding,
    then: Option<Account>,
    now: Option<Account>,
    /// Why it was not compared.
    unpaired: Option<Unpaired>,
}

#[derive(Default)]
struct Counts {
    agree: usize,
    differ: usize,
    hazards: usize,
    not_compared: usize,
}

/// How findings are written.
struct Teller<'a> {
    format: Format,
    differences: bool,
    counts: Counts,
    console: &'a mut Console,
}

fn run(arguments: &Arguments, console: &mut Console) -> Result<Status, Failure> {
    let [old, new] = plain(arguments, "audit takes what was said then, and what is there now")?;
    compare(old, new, arguments, console)
}

/// Holds what was said then to what is there now.
pub fn compare(old: &Path, new: &Path, arguments: &Arguments, console: &mut Console) -> Result<Status, Failure> {
    let unread = |path: PathBuf| move |error: std::io::Error| Failure::File(path, format!("cannot be read: {error}"));
    let lines = audit::open(old).map_err(unread(old.to_path_buf()))?;
    let mut lines = lines.map_err(|wrong| Failure::File(old.to_path_buf(), wrong.to_string()))?;
    let (keep_going, by_position) = (arguments.has("--keep-going"), arguments.has("--by-position"));
    let mut faults = Vec::new();
    let opened = Outlines::open(new, arguments.form(), keep_going, &mut faults);
    let mut outlines = opened.map_err(unread(new.to_path_buf()))?;
    let (format, differences) = (arguments.format(), arguments.has("--differences"));
    let mut teller = Teller { format, differences, counts: Counts::default(), console };
    teller.begin(arguments)?;
    for line in lines.by_ref() {
        match line {
            Ok(line) => {
                let now = outlines.find(&line, by_position, &mut faults);
                teller.tell(&found(line, now))?;
            }
            Err(wrong) => {
                faults.push((old.to_path_buf(), wrong.to_string()));
                if !wrong.goes_on() {
                    break;
                }
            }
        }
    }
    let mut told = Ok(());
    outlines.rest(&mut faults, |file, outline, key, now| {
        if told.is_ok() {
            let name = key.name.clone().or(key.serial.clone()).unwrap_or_default();
            told = teller.tell(&only_now(file, outline, name, now));
        }
    });
    told?;
    let passed_over = outlines.passed_over() + lines.passed_over();
    if passed_over > 0 {
        teller.console.remark(format_args!("{passed_over} passed over; `check --verbose` names them"))?;
    }
    teller.end(&faults)
}

/// An account held to what there is now.
fn found(line: Line, now: Result<(String, usize, Now), Unpaired>) -> Found {
    let Line { file, outline, name, account: then, .. } = line;
    let (place, number, now) = match now {
        Err(unpaired) => {
            let (file, finding) = (file.unwrap_or_default(), Finding::default());
            let outline = outline.filter(|_| !line.by_place);
            return Found { file, outline, name, finding, then: Some(then), now: None, unpaired: Some(unpaired) };
        }
        Ok(now) => now,
    };
    let file = file.unwrap_or(place);
    let (name, now, finding) = match now {
        Now::Account(now) => {
            let finding = Finding::of(&then, &now, None);
            (name, now, finding)
        }
        Now::Outline(entry) => {
            let now = Account::of(&entry.outline.test());
            let same = then.edges.is_some() && then.edges == now.edges && then.rows.is_none();
            let marked = (!same).then(|| marked(&entry.outline, now.number));
            let finding = Finding::of(&then, &now, marked.as_ref());
            (if name.is_empty() { entry.name.unwrap_or_default() } else { name }, now, finding)
        }
    };
    Found { file, outline: Some(number), name, finding, then: Some(then), now: Some(now), unpaired: None }
}

/// An outline of which nothing was said then.
fn only_now(file: String, outline: usize, known: String, now: Now) -> Found {
    let (name, now) = match now {
        Now::Outline(entry) => (entry.name.unwrap_or_default(), Account::of(&entry.outline.test())),
        Now::Account(account) => (known, account),
    };
    let unpaired = Some(Unpaired::Unknown);
    Found { file, outline: Some(outline), name, finding: Finding::default(), then: None, now: Some(now), unpaired }
}

impl Found {
    fn word(&self) -> &'static str {
        match (&self.then, self.unpaired) {
            (None, _) => "only now",
            (_, Some(Unpaired::Unknown)) => "only then",
            (_, Some(_)) => "not compared",
            _ => self.finding.word(),
        }
    }

    /// What differs, in a sentence without its end.
    fn sentence(&self) -> String {
        let Finding { let_in, left_out, list_refused, field, by_rows, .. } = &self.finding;
        let by = if *by_rows { "rows" } else { "edges" };
        match (self.word(), list_refused, field) {
            ("only now", ..) => "NOT COMPARED: nothing was said of it then".to_string(),
            ("only then", ..) if self.outline.is_some() => "NOT COMPARED: there is no such outline now".to_string(),
            ("only then" | "not compared", ..) => {
                format!("NOT COMPARED: {}", self.unpaired.expect("it is the reason"))
            }
            ("unsafe", ..) => format!("UNSAFE: the {by} let the unmarked cell {} in{}", at(let_in[0]), more(let_in)),
            ("cells left out", ..) => format!("the {by} leave the marked cell {} out{}", at(left_out[0]), more(left_out)),
            (_, Some(refusal), _) => format!("the edges answer for no cell: refusal {}, {refusal}", refusal.number()),
            ("verdict", ..) => "the verdict is another".to_string(),
            (_, _, Some(field)) => format!("the {field} of the refusal is another"),
            _ => "agrees".to_string(),
        }
    }

    fn line(&self) -> String {
        let file = if self.file.is_empty() { String::new() } else { format!("{}: ", self.file) };
        let words = |account: &Option<Account>| account.as_ref().map_or("nothing".to_string(), Account::words);
        let title = match self.outline {
            Some(outline) => described(outline, &self.name),
            None if self.name.is_empty() => "a line without a name".to_string(),
            None => robequarry::text::Escaped(&self.name).to_string(),
        };
        let sentence = self.sentence();
        format!("{file}{title}: {sentence} - then {}; now {}", words(&self.then), words(&self.now))
    }

    fn row(&self) -> Row<'_> {
        let number =
            |account: &Option<Account>| Value::perhaps(account.as_ref().map(|account| Value::number(account.number)));
        let text = |text: &'_ str| if text.is_empty() { Value::Nothing } else { Value::text(text.to_string()) };
        vec![
            ("file", text(&self.file)),
            ("outline", Value::perhaps(self.outline.map(Value::number))),
            ("name", if self.name.is_empty() { Value::Nothing } else { Value::name(self.name.as_str()) }),
            ("finding", Value::text(self.word())),
            ("then", number(&self.then)),
            ("now", number(&self.now)),
            ("let_in", Value::Pairs(self.finding.let_in.clone())),
            ("left_out", Value::Pairs(self.finding.left_out.clone())),
        ]
    }
}

/// The cells after the first one.
fn more(cells: &[Point]) -> String {
    let shown: Vec<String> = cells.iter().skip(1).take(MOST_CELLS - 1).map(|&cell| at(cell)).collect();
    match cells.len() {
        1 => String::new(),
        n if n <= MOST_CELLS => format!(", and {}", shown.join(" ")),
        n => format!(", and {} and {} more", shown.join(" "), n - MOST_CELLS),
    }
}

impl Teller<'_> {
    /// Says where what follows came from, and names the columns of a table.
    fn begin(&mut self, arguments: &Arguments) -> Result<(), Failure> {
        let mut lines = Vec::new();
        match self.format {
            Format::Text => {}
            Format::Json => json_line(&mut lines, &arguments.origin.row()),
            Format::Csv => {
                writeln!(lines, "# {}", arguments.origin.line())?;
                csv_names(&mut lines, COLUMNS);
            }
        }
        Ok(self.console.bytes(&lines)?)
    }

    fn tell(&mut self, found: &Found) -> Result<(), Failure> {
        let agrees = found.unpaired.is_none() && found.finding.agrees();
        let counts = &mut self.counts;
        *match (&found.unpaired, agrees) {
            (Some(_), _) => &mut counts.not_compared,
            (None, true) => &mut counts.agree,
            (None, false) => &mut counts.differ,
        } += 1;
        self.counts.hazards += usize::from(!found.finding.let_in.is_empty());
        if agrees && self.differences {
            return Ok(());
        }
        let mut line = Vec::new();
        match self.format {
            Format::Text => writeln!(line, "{}", found.line())?,
            Format::Csv => csv_line(&mut line, &found.row()),
            Format::Json => {
                let mut row = found.row();
                row.insert(0, ("type", Value::text("audit")));
                json_line(&mut line, &row);
            }
        }
        self.console.bytes(&line)?;
        let outlines = self.counts.agree + self.counts.differ + self.counts.not_compared;
        self.console.progress(|| count(outlines, "outline"))?;
        Ok(())
    }

    /// Says faults and counts, and how it ended.
    fn end(self, faults: &[(PathBuf, String)]) -> Result<Status, Failure> {
        for (path, fault) in faults {
            let mut line = Vec::new();
            let (file, said) = (Value::text(shown(path)), Value::text(fault.as_str()));
            match self.format {
                Format::Text => {}
                Format::Json => {
                    json_line(&mut line, &vec![("type", Value::text("fault")), ("file", file), ("meaning", said)])
                }
                Format::Csv => {
                    let mut row: Row = COLUMNS.iter().map(|name| (*name, Value::Nothing)).collect();
                    (row[0].1, row[2].1, row[3].1) = (file, said, Value::text("fault"));
                    csv_line(&mut line, &row);
                }
            }
            self.console.bytes(&line)?;
            self.console.remark(format_args!("{}: {fault}", shown(path)))?;
        }
        let Counts { agree, differ, hazards, not_compared } = self.counts;
        let all = agree + differ + not_compared;
        let outlines = count(all, "outline");
        let summary = format!("{outlines}: {agree} agree, {differ} differ, {hazards} unsafe, {not_compared} not compared");
        match self.format {
            Format::Text => self.console.line(summary)?,
            Format::Csv => self.console.remark(summary)?,
            Format::Json => {
                let mut line = Vec::new();
                let counts = [
                    ("outlines", all),
                    ("agree", agree),
                    ("differ", differ),
                    ("unsafe", hazards),
                    ("not_compared", not_compared),
                    ("faults", faults.len()),
                ];
                let kind = [("type", Value::text("summary"))];
                let row = counts.into_iter().map(|(name, number)| (name, Value::number(number)));
                json_line(&mut line, &kind.into_iter().chain(row).collect());
                self.console.bytes(&line)?;
            }
        }
        Ok(match (faults.is_empty(), differ, not_compared, all) {
            (false, ..) => Status::Faulty,
            (true, 0, 0, 1..) => Status::Taken,
            (true, 0, ..) => Status::Nothing,
            _ => Status::Refused,
        })
    }
}
