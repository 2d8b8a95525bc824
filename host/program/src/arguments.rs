//! The words of a call: plain ones, and options with or without a value.

use std::ffi::{OsStr, OsString};
use std::os::unix::ffi::OsStrExt;
use std::path::Path;

use crate::input::Form;
use crate::options::{self, Choice, Value, CONTRADICTIONS, NEEDS};
use crate::origin::Origin;
use crate::report::Format;

#[derive(Debug, Default)]
pub struct Arguments {
    pub plain: Vec<OsString>,
    /// Options by their long names, each once; a value is empty where the option takes none.
    given: Vec<(&'static str, OsString)>,
    /// What is written of where something came from.
    pub origin: Origin,
}

impl Arguments {
    /// Reads the words that follow a command's name. What is wrong with them is a sentence.
    pub fn parse(words: impl IntoIterator<Item = OsString>, taken: &[&str]) -> Result<Self, String> {
        let mut arguments = Arguments::default();
        let mut words = words.into_iter();
        while let Some(word) = words.next() {
            if word == "--" {
                arguments.plain.extend(words.by_ref());
                break;
            }
            let Some((name, attached)) = option(&word) else {
                arguments.plain.push(word);
                continue;
            };
            let choice = known(&name, taken)?;
            let value = match (choice.value, attached) {
                (Value::None, Some(value)) => {
                    return Err(format!("{} takes no value, not `{}`", choice.name, value.to_string_lossy()));
                }
                (Value::None, None) => OsString::new(),
                (_, Some(value)) => value,
                (kind, None) => {
                    words.next().ok_or_else(|| format!("{0} needs a value: {0} {1}", choice.name, kind.name()))?
                }
            };
            arguments.give(choice, value)?;
        }
        arguments.agree()?;
        Ok(arguments)
    }

    fn give(&mut self, choice: &'static Choice, value: OsString) -> Result<(), String> {
        let (name, shown) = (choice.name, value.to_string_lossy().into_owned());
        match choice.value {
            Value::Number if shown.parse::<usize>().is_err() => return Err(format!("{name} needs a number, not `{shown}`")),
            Value::OneOf(words) if !words.contains(&shown.as_str()) => {
                return Err(format!("{name} is one of {}, not `{shown}`", words.join(", ")));
            }
            _ => {}
        }
        match self.given.iter().find(|(given, _)| *given == name) {
            Some((_, before)) if *before != value => {
                Err(format!("{name} is given twice, as `{}` and as `{shown}`", before.to_string_lossy()))
            }
            Some(_) => Ok(()),
            None => {
                self.given.push((name, value));
                Ok(())
            }
        }
    }

    /// Whether the options agree with each other.
    fn agree(&self) -> Result<(), String> {
        for group in CONTRADICTIONS {
            let given: Vec<&str> = group.iter().copied().filter(|name| self.has(name)).collect();
            if let [one, other, ..] = given[..] {
                return Err(format!("{one} and {other} contradict each other: give one of them"));
            }
        }
        match NEEDS.iter().find(|(name, other)| self.has(name) && !self.has(other)) {
            Some((name, other)) => Err(format!("{name} goes with {other}")),
            None => Ok(()),
        }
    }

    pub fn has(&self, name: &str) -> bool {
        self.given.iter().any(|(given, _)| *given == name)
    }

    fn value(&self, name: &str) -> Option<&OsStr> {
        self.given.iter().find(|(given, _)| *given == name).map(|(_, value)| value.as_os_str())
    }

    pub fn path(&self, name: &str) -> Option<&Path> {
        self.value(name).map(Path::new)
    }

    pub fn number(&self, name: &str) -> Option<usize> {
        self.value(name)?.to_str()?.parse().ok()
    }

    /// The form in which a file is read, where it is given.
    pub fn form(&self) -> Option<Form> {
        match (self.has("--text"), self.has("--fitting")) {
            (true, _) => Some(Form::Text),
            (_, true) => Some(Form::Fitting),
            _ => None,
        }
    }

    /// The form in which outlines are written, where it is given.
    pub fn to(&self) -> Option<Form> {
        self.value("--to").and_then(OsStr::to_str).map(|word| match word {
            "text" => Form::Text,
            "image" => Form::Image,
            _ => Form::Fitting,
        })
    }

    pub fn format(&self) -> Format {
        match self.value("--format").and_then(OsStr::to_str) {
            Some("json") => Format::Json,
            Some("csv") => Format::Csv,
            _ => Format::Text,
        }
    }
}

/// The option of a name that this command takes.
fn known(name: &str, taken: &[&str]) -> Result<&'static Choice, String> {
    let choice = match name.strip_prefix('-').filter(|rest| rest.chars().count() == 1) {
        Some(letter) => letter.chars().next().and_then(options::short),
        None => options::named(name),
    };
    let takes = |choice: &&Choice| choice.name == "--help" || taken.contains(&choice.name);
    choice.filter(takes).ok_or_else(|| {
        let near = nearest(name, taken.iter().copied());
        format!("there is no option {name} here{}", near.map_or(String::new(), |near| format!("; is it {near}?")))
    })
}

/// The name of an option and the value that is attached to it, where the word is an option: `--name`, `--name=value`, `-n` or `-nvalue`.
/// A `-` alone is standard input, and a number may be below 0.
fn option(word: &OsStr) -> Option<(String, Option<OsString>)> {
    let bytes = word.as_bytes();
    if !bytes.starts_with(b"-") || bytes == b"-" || word.to_str().is_some_and(|word| word.parse::<f32>().is_ok()) {
        return None;
    }
    let owned = |part: &[u8]| OsStr::from_bytes(part).to_os_string();
    let text = |part: &[u8]| String::from_utf8_lossy(part).into_owned();
    if bytes.starts_with(b"--") {
        let Some(at) = bytes.iter().position(|&byte| byte == b'=') else {
            return Some((text(bytes), None));
        };
        return Some((text(&bytes[..at]), Some(owned(&bytes[at + 1..]))));
    }
    let value = (bytes.len() > 2).then(|| owned(bytes[2..].strip_prefix(b"=").unwrap_or(&bytes[2..])));
    Some((text(&bytes[..2]), value))
}

/// The name that is at most two changes away from a word.
pub fn nearest<'a>(word: &str, names: impl Iterator<Item = &'a str>) -> Option<&'a str> {
    let near = names.map(|name| (distance(word, name), name)).min()?;
    (near.0 <= 2 && near.0 < word.len()).then_some(near.1)
}

/// How many characters are put in, left out or changed to come from one word to the other.
fn distance(a: &str, b: &str) -> usize {
    let b: Vec<char> = b.chars().collect();
    let mut row: Vec<usize> = (0..=b.len()).collect();
    for (i, x) in a.chars().enumerate() {
        let mut corner = row[0];
        row[0] = i + 1;
        for (j, &y) in b.iter().enumerate() {
            let changed = corner + usize::from(x != y);
            corner = row[j + 1];
            row[j + 1] = changed.min(corner + 1).min(row[j] + 1);
        }
    }
    row[b.len()]
}

#[cfg(test)]
mod tests {
    use super::*;

    const TAKEN: &[&str] = &["--out", "--outline", "--text", "--fitting", "--format", "--all"];

    fn parse(words: &[&str]) -> Result<Arguments, String> {
        Arguments::parse(words.iter().map(OsString::from), TAKEN)
    }

    #[test]
    fn plain_words_and_options() {
        for words in [
            &["a", "-o", "b", "--outline", "3", "-1", "-0.5", "-", "--", "-x"][..],
            &["a", "-ob", "--outline=3", "-1", "-0.5", "-", "--", "-x"],
            &["a", "-o=b", "-n3", "-1", "-0.5", "-", "--", "-x"],
        ] {
            let arguments = parse(words).unwrap();
            assert_eq!(arguments.plain, ["a", "-1", "-0.5", "-", "-x"]);
            assert_eq!((arguments.path("--out"), arguments.number("--outline")), (Some("b".as_ref()), Some(3)));
        }
        assert!(parse(&["-h"]).unwrap().has("--help"));
        assert_eq!(parse(&["--out=a=b"]).unwrap().path("--out"), Some("a=b".as_ref()));
        assert!(parse(&["--format", "csv"]).unwrap().format() == Format::Csv);
    }

    #[test]
    fn faults() {
        for (words, sentence) in [
            (&["--complete"][..], "there is no option --complete here"),
            (&["--no"], "there is no option --no here"),
            (&["--formt"], "there is no option --formt here; is it --format?"),
            (&["-x"], "there is no option -x here"),
            (&["-o"], "--out needs a value: --out FILE"),
            (&["-n", "x"], "--outline needs a number, not `x`"),
            (&["--all=yes"], "--all takes no value, not `yes`"),
            (&["--format", "xml"], "--format is one of text, json, csv, not `xml`"),
            (&["--format=json", "--format=csv"], "--format is given twice, as `json` and as `csv`"),
            (&["--text", "--fitting"], "--text and --fitting contradict each other: give one of them"),
            (&["--all", "-n", "3"], "--all and --outline contradict each other: give one of them"),
        ] {
            assert_eq!(parse(words).unwrap_err(), sentence);
        }
        assert!(parse(&["--format=json", "--format", "json"]).is_ok());
    }

    #[test]
    fn a_near_name() {
        assert_eq!(nearest("chekc", ["check", "row"].into_iter()), Some("check"));
        assert_eq!(nearest("xyz", ["check", "row"].into_iter()), None);
        assert_eq!((distance("", "abc"), distance("abc", "abc"), distance("abcd", "acb")), (3, 0, 2));
    }
}
