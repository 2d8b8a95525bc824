//! Every option, once: calls are read by this table, and help, completions and the manual page are made from it.

/// What follows an option.
#[derive(Clone, Copy, PartialEq)]
pub enum Value {
    None,
    File,
    Number,
    OneOf(&'static [&'static str]),
}

impl Value {
    /// The value's name in a usage line.
    pub fn name(self) -> String {
        match self {
            Value::None => String::new(),
            Value::File => "FILE".to_string(),
            Value::Number => "N".to_string(),
            Value::OneOf(words) => words.join("|"),
        }
    }
}

pub struct Choice {
    /// With its two dashes.
    pub name: &'static str,
    pub short: Option<char>,
    pub value: Value,
    pub summary: &'static str,
}

const fn choice(name: &'static str, short: Option<char>, value: Value, summary: &'static str) -> Choice {
    Choice { name, short, value, summary }
}

pub const OPTIONS: &[Choice] = &[
    choice("--out", Some('o'), Value::File, "where to write; `-` is standard output"),
    choice("--outline", Some('n'), Value::Number, "the outline with this number; without it, the first"),
    choice("--first", None, Value::Number, "the outline of A with this number; without it, the first"),
    choice("--second", None, Value::Number, "the outline of the other file with this number; without it, the first"),
    choice(
        "--format",
        None,
        Value::OneOf(&["text", "json", "csv"]),
        "what is written: sentences, JSON or CSV; only check and audit write CSV",
    ),
    choice("--summary", None, Value::None, "the summary alone"),
    choice("--differences", None, Value::None, "only what differs"),
    choice("--refused", None, Value::None, "only what is refused"),
    choice("--report", None, Value::File, "write a page with the summary, the faults and each refused outline"),
    choice("--verbose", None, Value::None, "name what is passed over"),
    choice("--keep-going", None, Value::None, "read the lines of a text that follow a faulty one"),
    choice("--force", None, Value::None, "write over a file that is read"),
    choice(
        "--by-position",
        None,
        Value::None,
        "pair line i of a list with outline i, where names do not say which is which",
    ),
    choice("--every-file", None, Value::None, "in a folder, read files of any name, not only .fit, .txt and .img"),
    choice("--to", None, Value::OneOf(&["text", "fitting", "image"]), "the form in which outlines are written"),
    choice("--drawn", None, Value::File, "hold the images to the outlines of a file or a folder, by their names"),
    choice("--edges", None, Value::File, "read anchors and edges from a file, a list a line"),
    choice("--all", None, Value::None, "every outline of the file, on one sheet"),
    choice("--complete", None, Value::None, "beside the outline the smallest convex block that has all its cells"),
    choice("--witness", None, Value::None, "three marked cells, their triangle and the missing cell in it, and no more"),
    choice("--compare", None, Value::File, "the outline together with one of another file"),
    choice("--pile", None, Value::None, "a section through the file's outlines as layers of a pile"),
    choice("--column", None, Value::Number, "the section at this column"),
    choice("--row", None, Value::Number, "the section at this row"),
    choice("--text", None, Value::None, "read the file as text"),
    choice("--fitting", None, Value::None, "read the file as a fitting file"),
    choice("--help", Some('h'), Value::None, "say what the command does"),
];

/// Options of which a call takes one at most.
pub const CONTRADICTIONS: &[&[&str]] = &[
    &["--text", "--fitting"],
    &["--all", "--refused", "--complete", "--witness", "--compare", "--pile"],
    &["--summary", "--refused"],
    &["--all", "--outline"],
    &["--refused", "--outline"],
    &["--pile", "--outline"],
    &["--column", "--row"],
];

/// Options that mean something only with another.
pub const NEEDS: &[(&str, &str)] = &[("--column", "--pile"), ("--row", "--pile")];

/// The option of this name.
pub fn named(name: &str) -> Option<&'static Choice> {
    OPTIONS.iter().find(|choice| choice.name == name)
}

/// The option with this letter.
pub fn short(letter: char) -> Option<&'static Choice> {
    OPTIONS.iter().find(|choice| choice.short == Some(letter))
}

/// The option as a usage line has it, `-o, --out FILE`.
pub fn usage(choice: &Choice) -> String {
    let short = choice.short.map_or(String::new(), |letter| format!("-{letter}, "));
    format!("{short}{} {}", choice.name, choice.value.name()).trim_end().to_string()
}

/// The lines of a help text for these options.
pub fn help(taken: &[&str]) -> String {
    let all = taken.iter().chain(&["--help"]);
    let choices: Vec<&Choice> = all.map(|name| named(name).expect("a command takes options of the table")).collect();
    let width = choices.iter().map(|choice| usage(choice).len()).max().unwrap_or(0);
    let line = |choice: &&Choice| format!("  {:<width$}   {}", usage(choice), choice.summary);
    choices.iter().map(line).collect::<Vec<_>>().join("\n")
}
