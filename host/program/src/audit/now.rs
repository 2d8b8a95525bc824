//! What is said now: of outlines in a file or a folder, by the library; or by another table.

use std::collections::HashMap;
use std::path::{Path, PathBuf};

use super::account::Account;
use super::then::{self, Line};
use crate::input::{Entry, Fault, Form, Found, Reader, Walk};
use crate::pairing::{Index, Key, Unpaired};
use crate::paths::shown;

/// What is found of an outline.
pub enum Now {
    Outline(Entry),
    Account(Account),
}

/// Outlines by file and number, and by serial number and name. The outlines of one file are in memory at a time; a table is there whole.
pub enum Outlines {
    Files(Files),
    Table(Table),
}

/// Which outline it is: the file, or the table's line, and the number in it.
#[derive(Clone, Copy, PartialEq, Eq, Hash)]
pub struct Place {
    file: usize,
    outline: usize,
}

pub struct Files {
    files: Vec<File>,
    by_name: HashMap<String, usize>,
    /// Whether the files are those of a folder, whose names tell them apart.
    folder: bool,
    /// What was before the names of files then and is no more: one beginning for all of them, so that of two files with the same name in
    /// different folders none is taken for the other.
    gone: Option<String>,
    open: Option<Opened>,
    form: Option<Form>,
    keep_going: bool,
    passed_over: usize,
    index: Option<Index<Place>>,
}

struct File {
    path: PathBuf,
    name: String,
    asked: Vec<bool>,
}

struct Opened {
    file: usize,
    /// A faulty line has its number, and no outline.
    entries: Vec<Option<Entry>>,
}

#[derive(Default)]
pub struct Table {
    lines: Vec<Line>,
    asked: Vec<bool>,
    by_number: HashMap<(Option<String>, usize), usize>,
    index: Option<Index<Place>>,
}

/// What is wrong with what is there now, told as it is found.
pub type Unread = Vec<(PathBuf, String)>;

impl Outlines {
    /// Of a folder, a file of outlines or a table.
    pub fn open(path: &Path, form: Option<Form>, keep_going: bool, faults: &mut Unread) -> std::io::Result<Self> {
        if !path.is_dir() && form.is_none() && path.as_os_str() != "-" && Form::by_name(path).is_none() {
            if let Ok(table) = then::open(path)? {
                if table.is_table() {
                    return Ok(Outlines::Table(Table::of(table, path, faults)));
                }
            }
        }
        let (mut files, mut by_name, folder, mut passed_over) = (Vec::new(), HashMap::new(), path.is_dir(), 0);
        for found in Walk::of([path.to_path_buf()].into_iter(), false) {
            match found {
                Found::File(file) => {
                    let within = shown(file.strip_prefix(path).unwrap_or(&file));
                    let name = shown(&file);
                    by_name.insert(name.clone(), files.len());
                    by_name.insert(within, files.len());
                    files.push(File { path: file, name, asked: Vec::new() });
                }
                Found::Unread(path, error) => faults.push((path, Fault::Unread(error).to_string())),
                Found::PassedOver(..) => passed_over += 1,
            }
        }
        Ok(Outlines::Files(Files {
            files,
            by_name,
            folder,
            gone: None,
            open: None,
            form,
            keep_going,
            passed_over,
            index: None,
        }))
    }

    /// How much of a folder was not read.
    pub fn passed_over(&self) -> usize {
        match self {
            Outlines::Files(files) => files.passed_over,
            Outlines::Table(_) => 0,
        }
    }

    /// The outline that a line speaks of. A number of a list counts only where that is asked.
    pub fn find(&mut self, line: &Line, by_position: bool, faults: &mut Unread) -> Result<(String, usize, Now), Unpaired> {
        let number = line.outline.filter(|_| !line.by_place || by_position);
        match self {
            Outlines::Table(table) => table.find(line, number),
            Outlines::Files(files) => files.find(line, number, faults),
        }
    }

    /// The outlines of which no line spoke: file and number of each.
    pub fn rest(&mut self, faults: &mut Unread, mut each: impl FnMut(String, usize, &Key, Now)) {
        match self {
            Outlines::Table(Table { lines, asked, .. }) => {
                for (line, _) in lines.iter().zip(asked).filter(|(_, asked)| !**asked) {
                    let (file, outline) = (line.file.clone().unwrap_or_default(), line.outline.unwrap_or(0));
                    each(file, outline, &line.key, Now::Account(line.account.clone()));
                }
            }
            Outlines::Files(files) => files.rest(faults, each),
        }
    }
}

impl Table {
    fn of(table: then::List, path: &Path, faults: &mut Unread) -> Self {
        let mut kept = Table::default();
        for line in table {
            match line {
                Ok(line) => {
                    if let Some(number) = line.outline {
                        kept.by_number.insert((line.file.clone(), number), kept.lines.len());
                    }
                    kept.lines.push(line);
                }
                Err(wrong) => {
                    faults.push((path.to_path_buf(), wrong.to_string()));
                    if !wrong.goes_on() {
                        break;
                    }
                }
            }
        }
        kept.asked = vec![false; kept.lines.len()];
        kept
    }

    fn find(&mut self, line: &Line, number: Option<usize>) -> Result<(String, usize, Now), Unpaired> {
        let numbered = number.and_then(|number| self.by_number.get(&(line.file.clone(), number)).copied());
        let fits = |at: &usize| line.by_place || !self.lines[*at].key.contradicts(&line.key);
        let at = match numbered.filter(fits) {
            Some(at) => at,
            None => {
                let keys = self.lines.iter().enumerate().map(|(i, line)| (line.key.clone(), Place { file: i, outline: 0 }));
                let found = self.index.get_or_insert_with(|| Index::of(keys)).find(&line.key);
                found.map_err(|why| if number.is_some() { Unpaired::Unknown } else { why })?.file
            }
        };
        self.asked[at] = true;
        let found = &self.lines[at];
        let (file, outline) = (found.file.clone().unwrap_or_default(), found.outline.unwrap_or(0));
        Ok((file, outline, Now::Account(found.account.clone())))
    }
}

impl Files {
    fn find(&mut self, line: &Line, number: Option<usize>, faults: &mut Unread) -> Result<(String, usize, Now), Unpaired> {
        let place = self.place(line, number, faults)?;
        let entry = self.read(place.file, faults).get(place.outline).cloned().flatten().ok_or(Unpaired::Unknown)?;
        self.files[place.file].asked[place.outline] = true;
        let name = if self.folder { self.files[place.file].name.clone() } else { String::new() };
        Ok((name, place.outline, Now::Outline(entry)))
    }

    /// Where the outline of a line is.
    fn place(&mut self, line: &Line, number: Option<usize>, faults: &mut Unread) -> Result<Place, Unpaired> {
        if number.is_some() || line.file.is_some() {
            let file = self.file(line).ok_or(Unpaired::Unknown)?;
            let entries = self.read(file, faults);
            let numbered = number.and_then(|number| entries.get(number)?.as_ref());
            if let Some(entry) = numbered {
                if line.by_place || !key(entry).contradicts(&line.key) {
                    return Ok(Place { file, outline: number.expect("it was found by it") });
                }
            }
            // Within a file a name may have moved to another number.
            let entries = entries.iter().enumerate();
            let keys = entries.filter_map(|(outline, entry)| Some((key(entry.as_ref()?), Place { file, outline })));
            return Index::of(keys).find(&line.key).map_err(|_| Unpaired::Unknown);
        }
        if self.index.is_none() {
            let mut keys = Vec::new();
            for file in 0..self.files.len() {
                let entries = self.read(file, faults).iter().enumerate();
                keys.extend(entries.filter_map(|(outline, entry)| Some((key(entry.as_ref()?), Place { file, outline }))));
            }
            self.index = Some(Index::of(keys.into_iter()));
        }
        self.index.as_ref().expect("it was made").find(&line.key)
    }

    /// The file that a line names: by its whole path, or else by the end of it that is a path within the folder. A list names none, and
    /// then there must be one file.
    fn file(&mut self, line: &Line) -> Option<usize> {
        let Some(name) = line.file.as_deref().filter(|name| *name != "standard input") else {
            return (self.files.len() == 1).then_some(0);
        };
        let ends = std::iter::once(0).chain(name.match_indices('/').map(|(at, _)| at + 1));
        let by_end = ends.filter_map(|at| Some((at, *self.by_name.get(&name[at..])?))).next();
        // The one file that was named may be elsewhere now; its own name is the same.
        let own = name.rfind('/').map_or(0, |at| at + 1);
        let elsewhere = || (0..self.files.len()).find(|at| self.files[*at].name.rsplit('/').next() == Some(&name[own..]));
        let (at, file) = by_end.or_else(|| Some((own, elsewhere().filter(|_| !self.folder)?)))?;
        let gone = &name[..at];
        (self.gone.get_or_insert_with(|| gone.to_string()) == gone).then_some(file)
    }

    /// The outlines of a file, read where another one was open.
    fn read(&mut self, at: usize, faults: &mut Unread) -> &[Option<Entry>] {
        if self.open.as_ref().is_none_or(|opened| opened.file != at) {
            let file = &mut self.files[at];
            let told = !file.asked.is_empty();
            let mut entries = Vec::new();
            let mut fault = |fault: &Fault| {
                if !told {
                    faults.push((file.path.clone(), fault.to_string()));
                }
            };
            match Reader::open(&file.path, self.form) {
                Err(error) => fault(&Fault::Unread(error)),
                Ok(mut reader) => {
                    while let Some(read) = reader.next() {
                        if let Err(found) = &read {
                            fault(found);
                            if !self.keep_going || !found.is_of_a_line() {
                                reader.end();
                                break;
                            }
                        }
                        entries.push(read.ok());
                    }
                }
            }
            file.asked.resize(entries.len(), false);
            self.open = Some(Opened { file: at, entries });
        }
        &self.open.as_ref().expect("it was read").entries
    }

    fn rest(&mut self, faults: &mut Unread, mut each: impl FnMut(String, usize, &Key, Now)) {
        for at in 0..self.files.len() {
            let asked = &self.files[at].asked;
            if !asked.is_empty() && asked.iter().all(|asked| *asked) {
                continue;
            }
            self.read(at, faults);
            let Opened { entries, .. } = self.open.take().expect("it was read");
            let name = if self.folder { self.files[at].name.as_str() } else { "" };
            for (number, entry) in entries.into_iter().enumerate() {
                if let Some(entry) = entry.filter(|_| !self.files[at].asked[number]) {
                    each(name.to_string(), number, &key(&entry), Now::Outline(entry));
                }
            }
        }
    }
}

fn key(entry: &Entry) -> Key {
    Key::of(entry.name.as_deref().unwrap_or(""))
}
