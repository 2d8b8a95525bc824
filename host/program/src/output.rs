//! Outlines written to a file or to standard output, in any form.

use std::fs::{self, File};
use std::io::{self, BufWriter, Write};
use std::path::{Path, PathBuf};
use std::process;

use robequarry::image::Image;
use robequarry::limits::LONGEST_FILE;
use robequarry::text::{unescaped, Escaped};
use robequarry::{fitting, text, Outline};

use crate::console::Console;
use crate::input::Form;

/// Why an outline was not written.
pub enum Failure {
    /// The form has no way to write it: a sentence.
    Outline(String),
    /// This file cannot be written.
    File(PathBuf, io::Error),
    /// Standard output cannot be written.
    Output(io::Error),
}

/// Where outlines go. A file gets its name when it is whole, so that nothing is left half written, and a file that is read may be written.
pub struct Sink {
    form: Form,
    target: Option<PathBuf>,
    file: Option<Draft>,
    bytes: Vec<u8>,
}

/// A file under a name of its own, until it is whole.
struct Draft {
    path: PathBuf,
    file: BufWriter<File>,
    /// Whether it takes its name at the end. What is no regular file is written at once.
    renamed: bool,
}

impl Draft {
    fn of(target: &Path) -> io::Result<Self> {
        let renamed = fs::metadata(target).map_or(true, |metadata| metadata.is_file());
        let mut name = target.as_os_str().to_os_string();
        if renamed {
            name.push(format!(".{}.part", process::id()));
        }
        let path = PathBuf::from(name);
        Ok(Draft { file: BufWriter::new(File::create(&path)?), path, renamed })
    }

    fn finish(mut self, target: &Path) -> io::Result<()> {
        self.file.flush()?;
        if self.renamed {
            fs::rename(&self.path, target)?;
            self.renamed = false;
        }
        Ok(())
    }
}

impl Drop for Draft {
    /// What did not become whole is taken away.
    fn drop(&mut self) {
        if self.renamed {
            let _ = fs::remove_file(&self.path);
        }
    }
}

/// Writes a whole file, under another name until it is whole.
pub fn whole(target: &Path, bytes: &[u8]) -> io::Result<()> {
    let mut draft = Draft::of(target)?;
    draft.file.write_all(bytes)?;
    draft.finish(target)
}

impl Sink {
    /// To a file or, where there is none or it is `-`, to standard output.
    pub fn to(target: Option<&Path>, form: Form) -> Self {
        let target = target.filter(|path| path.as_os_str() != "-").map(Path::to_path_buf);
        Sink { form, target, file: None, bytes: Vec::new() }
    }

    /// Writes an outline with its name, which may be empty. Only a text has names.
    pub fn outline<O: Write, E: Write>(
        &mut self,
        outline: &Outline,
        name: &str,
        console: &mut Console<O, E>,
    ) -> Result<(), Failure> {
        match self.form {
            Form::Text => {
                let line = text::line(outline).ok_or_else(|| Failure::Outline(no_digit(outline)))?;
                let name = if name.is_empty() { String::new() } else { format!("  # {}", Escaped(name)) };
                self.line(&format!("{line}{name}"), console)
            }
            Form::Fitting => {
                let record = fitting::record(outline).ok_or_else(|| Failure::Outline(no_record(outline)))?;
                if self.bytes.len() + record.len() > LONGEST_FILE {
                    let most = format!("a fitting file has at most {LONGEST_FILE} bytes: write several files");
                    return Err(Failure::Outline(most));
                }
                self.bytes.extend(record);
                Ok(())
            }
            Form::Image if !self.bytes.is_empty() => {
                Err(Failure::Outline("an image holds one outline: choose it by --outline".to_string()))
            }
            Form::Image => {
                self.bytes.extend(image(outline).map_err(Failure::Outline)?);
                Ok(())
            }
        }
    }

    /// Writes comments as they stand in a text. Other forms have no place for them.
    pub fn comments<O: Write, E: Write>(&mut self, comments: &[String], console: &mut Console<O, E>) -> Result<(), Failure> {
        let comments = comments.iter().filter(|_| self.form == Form::Text);
        let lines: Vec<String> = comments.map(|comment| Escaped(&unescaped(comment)).to_string()).collect();
        lines.iter().try_for_each(|line| self.line(line, console))
    }

    /// Writes a line that is no outline, behind a `#`; beside another form than text it goes to standard error.
    pub fn remark<O: Write, E: Write>(&mut self, line: &str, console: &mut Console<O, E>) -> Result<(), Failure> {
        match self.form {
            Form::Text => self.line(&format!("# {line}"), console),
            _ => console.remark(line).map_err(Failure::Output),
        }
    }

    fn line<O: Write, E: Write>(&mut self, line: &str, console: &mut Console<O, E>) -> Result<(), Failure> {
        let Some(path) = &self.target else {
            return console.line(line).map_err(Failure::Output);
        };
        let failed = |error| Failure::File(path.clone(), error);
        if self.file.is_none() {
            self.file = Some(Draft::of(path).map_err(failed)?);
        }
        writeln!(self.file.as_mut().expect("it was created").file, "{line}").map_err(failed)
    }

    /// Writes what is left. A file is written even where it holds nothing, but no image without an outline.
    pub fn finish<O: Write, E: Write>(self, console: &mut Console<O, E>) -> Result<(), Failure> {
        if self.form == Form::Image && self.bytes.is_empty() {
            return Err(Failure::Outline("there is no outline of which an image could be written".to_string()));
        }
        match (self.target, self.file) {
            (None, _) => console.bytes(&self.bytes).map_err(Failure::Output),
            (Some(path), Some(draft)) => draft.finish(&path).map_err(|error| Failure::File(path, error)),
            (Some(path), None) => whole(&path, &self.bytes).map_err(|error| Failure::File(path, error)),
        }
    }
}

/// The image that a controller saves of a taken outline: that of its border, clockwise from W.
fn image(outline: &Outline) -> Result<Vec<u8>, String> {
    let refused = |number: u16| format!("refused by {number}: an image is written of a taken outline");
    let edges = outline.test().map_err(|refusal| refused(refusal.number()))?;
    let border = edges.border().map_err(|refusal| refused(refusal.number()))?;
    Ok(Image::of(&border).expect("the border of a taken outline fits an image").bytes().to_vec())
}

fn no_digit(outline: &Outline) -> String {
    let place = outline.letters.iter().position(|&letter| letter > 9).unwrap_or(0);
    format!("the text form has digits alone, and the byte at place {place} is {}", outline.letters[place])
}

fn no_record(outline: &Outline) -> String {
    let (start, letters) = (outline.start, outline.letters.len());
    format!(
        "a record has a byte for each number of the start, here {start}, and two for the count of letters, here {letters}"
    )
}
