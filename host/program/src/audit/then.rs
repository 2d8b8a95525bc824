//! What was said then: a CSV of verdicts; a list of edges and rows read out of controllers, a line each; or images, a file each.

use std::fmt;
use std::io::{self, Read};
use std::path::{Path, PathBuf};

use robequarry::image::Image;
use robequarry::text::{self, Escaped};
use robequarry::{Cell, Edges};

use super::account::Account;
use super::csv::{self, Table};
use crate::input::{self, ends_in, Found, LineWrong, TextLines, Walk, LONGEST_LINE};
use crate::pairing::Key;
use crate::paths::shown;
use crate::story::Rows;

/// The word with which a line of rows begins.
const ROWS: &str = "rows";

/// A line: an account of an outline, and who gave it.
#[derive(Clone, Debug, PartialEq)]
pub struct Line {
    /// The file of the outline, where it is named.
    pub file: Option<String>,
    /// The outline's number in its file, where a table has it, or its place in a list.
    pub outline: Option<usize>,
    /// Whether the number is no more than a place in a list.
    pub by_place: bool,
    pub key: Key,
    /// The controller or the outline's name; may be empty.
    pub name: String,
    pub account: Account,
}

/// What is wrong with a line of such a file, or with an image.
#[derive(Debug)]
pub struct Wrong {
    /// The image, where it is one.
    file: Option<String>,
    line: usize,
    what: What,
}

#[derive(Debug)]
enum What {
    Csv(csv::Wrong),
    Text(text::Wrong),
    /// The table has no column of this name.
    Column(&'static str),
    /// A field that is not what its column needs.
    Field(&'static str, String),
    /// A row has so many fields, and the table another number of columns.
    Fields(usize, usize),
    /// The row says that a file could not be read, or not all of it: file and reason.
    Then(String, String),
    /// A line of rows is none.
    Rows,
    Image(robequarry::image::Wrong),
    Unread(io::Error),
}

impl Wrong {
    fn of(line: usize, what: What) -> Self {
        Wrong { file: None, line, what }
    }

    /// Whether the lines that follow can be read.
    pub fn goes_on(&self) -> bool {
        match &self.what {
            What::Csv(wrong) => wrong.is_of_a_line(),
            What::Column(_) => false,
            _ => true,
        }
    }
}

impl fmt::Display for Wrong {
    fn fmt(&self, f: &mut fmt::Formatter<'_>) -> fmt::Result {
        match &self.file {
            Some(file) => write!(f, "{file}: ")?,
            None => write!(f, "line {}: ", self.line)?,
        }
        match &self.what {
            What::Csv(csv::Wrong::Line(LineWrong::Unread(error))) | What::Unread(error) => {
                write!(f, "cannot be read: {error}")
            }
            What::Csv(csv::Wrong::Line(LineWrong::Long)) => write!(f, "it has more than {LONGEST_LINE} bytes (fault 25)"),
            What::Csv(csv::Wrong::Quotes) => write!(f, "a quote has no end"),
            What::Text(wrong) => wrong.fmt(f),
            What::Column(name) => write!(f, "a table of verdicts needs a column `{name}`"),
            What::Fields(fields, columns) => write!(f, "it has {fields} fields, and the table has {columns} columns"),
            What::Then(file, why) => {
                write!(f, "{file} was not read, or not to its end, when this was written: {}", Escaped(why))
            }
            What::Field(name, field) => write!(f, "`{}` is not what the column `{name}` holds", Escaped(field)),
            What::Rows => {
                write!(
                    f,
                    "rows are the lowest row and then a first and a last column for each, as in `rows 0  1 1  0 2  1 1`"
                )
            }
            What::Image(wrong) => wrong.fmt(f),
        }
    }
}

/// The lines of a file, a table or a list; or the images of a folder.
pub enum List {
    Table(Table<Box<dyn Read>>),
    /// Lines, and how many have edges and rows.
    Lines {
        first: Option<String>,
        lines: TextLines<Box<dyn Read>>,
        edges: usize,
        rows: usize,
    },
    Images {
        folder: PathBuf,
        files: Walk,
        passed_over: usize,
    },
}

/// Opens a file or a folder, and sees what it is: a table begins with the name of a column, after comments.
pub fn open(path: &Path) -> io::Result<Result<List, Wrong>> {
    if path.is_dir() || ends_in(path, "img") {
        let files = Walk::of([path.to_path_buf()].into_iter(), false);
        return Ok(Ok(List::Images { folder: path.to_path_buf(), files, passed_over: 0 }));
    }
    let mut lines = TextLines::of(input::open(path)?);
    loop {
        let first = match lines.take() {
            Err(LineWrong::Unread(error)) => return Err(error),
            Err(wrong) => return Ok(Err(Wrong::of(lines.line, What::Csv(csv::Wrong::Line(wrong))))),
            Ok(None) => return Ok(Ok(List::Lines { first: None, lines, edges: 0, rows: 0 })),
            Ok(Some(line)) => line,
        };
        let begin = first.trim_start();
        if begin.is_empty() || begin.starts_with('#') {
            continue;
        }
        let rows = begin.split_ascii_whitespace().next() == Some(ROWS);
        if rows || !begin.starts_with(|char: char| char.is_ascii_alphabetic() || char == '"') {
            return Ok(Ok(List::Lines { first: Some(first), lines, edges: 0, rows: 0 }));
        }
        let line = lines.line;
        return Ok(Table::after(&first, lines).map_err(|wrong| Wrong::of(line, What::Csv(wrong))).and_then(|table| {
            let has = |name: &str| table.names.iter().any(|column| column == name);
            let said = has("number") || has("anchor") || has("rows");
            match (has("outline") || has("name") || has("serial") || has("controller"), said) {
                (false, _) => Err(Wrong::of(line, What::Column("outline"))),
                (_, false) => Err(Wrong::of(line, What::Column("number"))),
                _ => Ok(List::Table(table)),
            }
        }));
    }
}

impl List {
    pub fn is_table(&self) -> bool {
        matches!(self, List::Table(_))
    }

    /// How much of a folder was not read, so far.
    pub fn passed_over(&self) -> usize {
        match self {
            List::Images { passed_over, .. } => *passed_over,
            _ => 0,
        }
    }

    fn next_line(&mut self) -> Result<Option<Line>, Wrong> {
        match self {
            List::Table(table) => loop {
                let read = table.row();
                let number = table.line();
                let wrong = |what| Wrong::of(number, what);
                let Some(row) = read.map_err(|error| wrong(What::Csv(error)))? else {
                    return Ok(None);
                };
                if let Some(line) = from_row(&table.names, &row).map_err(wrong)? {
                    return Ok(Some(line));
                }
            },
            List::Lines { first, lines, edges, rows } => next_of_list(first, lines, edges, rows),
            List::Images { folder, files, passed_over } => next_image(folder, files, passed_over),
        }
    }
}

impl Iterator for List {
    type Item = Result<Line, Wrong>;

    fn next(&mut self) -> Option<Self::Item> {
        self.next_line().transpose()
    }
}

/// The next line that has edges or rows.
fn next_of_list(
    first: &mut Option<String>,
    lines: &mut TextLines<Box<dyn Read>>,
    edges: &mut usize,
    rows: &mut usize,
) -> Result<Option<Line>, Wrong> {
    loop {
        let next = match first.take() {
            Some(line) => Some(line),
            None => lines.take().map_err(|wrong| Wrong::of(lines.line, What::Csv(csv::Wrong::Line(wrong))))?,
        };
        let Some(text) = next else {
            return Ok(None);
        };
        let (content, _) = text.split_once('#').unwrap_or((&text, ""));
        let line = |place: usize, name: &str, account: Account| {
            let (name, key) = (name.to_string(), Key::of(name));
            Line { file: None, outline: Some(place), by_place: true, key, name, account }
        };
        if content.split_ascii_whitespace().next() == Some(ROWS) {
            *rows += 1;
            // The name is read as that of edges is.
            let name = text::edges(&text.replacen(ROWS, "", 1)).ok().flatten().map(|(_, name)| name.into_owned());
            let table = rows_of(content).ok_or_else(|| Wrong::of(lines.line, What::Rows))?;
            let account = Account { rows: Some(table), ..Account::default() };
            return Ok(Some(line(*rows - 1, &name.unwrap_or_default(), account)));
        }
        if content.trim().is_empty() {
            continue;
        }
        *edges += 1;
        match text::edges(&text) {
            Ok(Some((list, name))) => return Ok(Some(line(*edges - 1, &name, Account::taken(list)))),
            Ok(None) => {}
            Err(wrong) => return Err(Wrong::of(lines.line, What::Text(wrong))),
        }
    }
}

/// Rows from the lowest up: `rows 0  1 1  0 2  1 1`. A row without a cell has its first column above its last.
fn rows_of(content: &str) -> Option<Rows> {
    let content = content.trim().strip_prefix(ROWS).unwrap_or(content);
    let numbers = numbers::<u16>(content)?;
    let (lowest, columns) = numbers.split_first()?;
    if columns.len() % 2 != 0 {
        return None;
    }
    let row = |(i, ends): (usize, &[u16])| (i32::from(*lowest) + i as i32, vec![(ends[0].into(), ends[1].into())]);
    let rows = columns.chunks_exact(2).enumerate().map(row);
    Some(rows.filter(|(_, runs): &(i32, Vec<(i32, i32)>)| runs[0].0 <= runs[0].1).collect())
}

/// The next image of a folder, known by its file's name.
fn next_image(folder: &Path, files: &mut Walk, passed_over: &mut usize) -> Result<Option<Line>, Wrong> {
    for found in files {
        let (path, bytes) = match found {
            Found::File(path) if ends_in(&path, "img") => {
                let bytes = std::fs::read(&path);
                (path, bytes)
            }
            Found::Unread(path, error) => (path, Err(error)),
            _ => {
                *passed_over += 1;
                continue;
            }
        };
        let within = path.strip_prefix(folder).unwrap_or(&path);
        let file = Some(shown(if within.as_os_str().is_empty() { &path } else { within }));
        let bytes = bytes.map_err(|error| Wrong { file: file.clone(), line: 0, what: What::Unread(error) })?;
        let image = Image::try_from(&bytes[..]).map_err(|wrong| Wrong { file, line: 0, what: What::Image(wrong) })?;
        let name = path.file_stem().map(|stem| shown(Path::new(stem))).unwrap_or_default();
        let account = match image.outline() {
            Some(outline) => Account::of(&outline.test()),
            None => Account { rows: Some(Rows::new()), ..Account::default() },
        };
        return Ok(Some(Line { file: None, outline: None, by_place: false, key: Key::of_image(&name), name, account }));
    }
    Ok(None)
}

/// The line of a table; none where it is about a file and not about an outline. A column that is not there, or an empty field, says
/// nothing.
fn from_row(names: &[String], row: &[String]) -> Result<Option<Line>, What> {
    let whole = |name: &str| {
        let at = names.iter().position(|column| column == name)?;
        row.get(at).map(String::as_str).filter(|field| !field.trim().is_empty())
    };
    let field = |name: &str| whole(name).map(str::trim);
    // A row that was cut may lack what would have differed.
    if row.len() != names.len() {
        return Err(What::Fields(row.len(), names.len()));
    }
    match field("type") {
        None | Some("outline") => {}
        Some("fault") => {
            let text = |name| field(name).unwrap_or_default().to_string();
            return Err(What::Then(text("file"), text("meaning")));
        }
        // A file without outlines.
        Some(_) => return Ok(None),
    }
    let number = |name: &'static str| match field(name) {
        None => Ok(None),
        Some(text) => text.parse::<usize>().map(Some).map_err(|_| What::Field(name, text.to_string())),
    };
    let cell = |name: &'static str| match field(name) {
        None => Ok(None),
        Some(text) => numbers::<u16>(text)
            .and_then(|numbers| <[u16; 2]>::try_from(numbers).ok())
            .map(|[col, row]| Some(Cell::new(col, row)))
            .ok_or_else(|| What::Field(name, text.to_string())),
    };
    let said = number("number")?;
    let edges = match (cell("anchor")?, field("edges")) {
        (Some(anchor), text) if said.unwrap_or(0) == 0 => {
            let text = text.unwrap_or("");
            Some(Edges::new(anchor, numbers::<i16>(text).ok_or_else(|| What::Field("edges", text.to_string()))?))
        }
        _ => None,
    };
    let rows = match field("rows") {
        None => None,
        Some(text) => Some(rows_of(text).ok_or_else(|| What::Field("rows", text.to_string()))?),
    };
    if said.is_none() && edges.is_none() && rows.is_none() {
        return Err(What::Field("number", String::new()));
    }
    let account = Account {
        number: u16::try_from(said.unwrap_or(0)).map_err(|_| What::Field("number", said.unwrap_or(0).to_string()))?,
        place: number("place")?,
        piece: number("piece")?,
        length: number("length")?,
        cell: cell("cell")?,
        edges,
        rows,
    };
    let outline = number("outline")?;
    let name = field("name").map(|name| text::unescaped(name).into_owned());
    let serial = field("serial").or(field("controller")).map(str::to_string);
    let mut key = Key::of(name.as_deref().unwrap_or(""));
    key.serial = serial.clone().or(key.serial);
    if outline.is_none() && key.is_none() {
        return Err(What::Field("outline", String::new()));
    }
    let name = field("controller").map(str::to_string).or(name).or(serial).unwrap_or_default();
    Ok(Some(Line { file: whole("file").map(str::to_string), outline, by_place: false, key, name, account }))
}

fn numbers<T: std::str::FromStr>(text: &str) -> Option<Vec<T>> {
    text.split_ascii_whitespace().map(|number| number.parse().ok()).collect()
}

#[cfg(test)]
mod tests {
    use super::*;

    #[test]
    fn lists_of_rows() {
        let plus = rows_of("rows 0  1 1  0 2  1 1 ").unwrap();
        assert_eq!(plus, Rows::from([(0, vec![(1, 1)]), (1, vec![(0, 2)]), (2, vec![(1, 1)])]));
        assert_eq!(rows_of("5 1 0 7 7").unwrap(), Rows::from([(6, vec![(7, 7)])]));
        assert_eq!(rows_of("rows 3").unwrap(), Rows::new());
        assert!(rows_of("rows").is_none() && rows_of("rows 1 2").is_none() && rows_of("rows 1 2 x").is_none());
    }
}
