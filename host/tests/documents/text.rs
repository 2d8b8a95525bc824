//! What a document names: spans in backticks, paths, and lines of code.

/// A part of a paragraph or of a table's cell.
#[derive(Clone, Debug, PartialEq)]
pub enum Part {
    /// What stands in backticks.
    Quoted(String),
    /// A path that stands without: words with strokes between them.
    Path(String),
    /// Anything else.
    Plain(String),
}

/// The text without its blocks of code, and the lines of these.
pub fn prose_and_code(text: &str) -> (String, Vec<String>) {
    let mut prose = String::new();
    let mut code = Vec::new();
    let mut fenced = false;
    let mut after_blank = true;
    for line in text.lines() {
        let fence = line.starts_with("```");
        fenced ^= fence;
        let indented = line.starts_with("    ") && after_blank;
        if fence || fenced || indented {
            code.push(line.trim().to_string());
        } else {
            prose.push_str(line);
            prose.push('\n');
        }
        after_blank = line.is_empty() || (indented && after_blank);
    }
    (prose, code)
}

fn in_path(c: char) -> bool {
    c.is_ascii_alphanumeric() || "_./-+".contains(c)
}

/// A word with strokes in it that is no fraction, no choice of words and no address.
fn is_path(word: &str) -> bool {
    let inner = word.trim_end_matches('/');
    let parts: Vec<&str> = inner.split('/').collect();
    let named = parts.iter().all(|part| !part.is_empty() && !part.starts_with(|c: char| c.is_ascii_digit()));
    word.contains('/') && named && inner.starts_with(|c: char| c.is_ascii_lowercase())
}

fn push_plain(text: &str, parts: &mut Vec<Part>) {
    let mut rest = text;
    while !rest.is_empty() {
        let begin = rest.find(in_path).unwrap_or(rest.len());
        let length = rest[begin..].find(|c| !in_path(c)).unwrap_or(rest.len() - begin);
        let word = rest[begin..begin + length].trim_end_matches(['.', '-', '+']);
        if is_path(word) {
            parts.push(Part::Plain(rest[..begin].to_string()));
            parts.push(Part::Path(word.to_string()));
            rest = &rest[begin + word.len()..];
        } else {
            let end = begin + length;
            parts.push(Part::Plain(rest[..end].to_string()));
            rest = &rest[end..];
        }
    }
}

/// Neighbouring plain parts as one.
fn joined(parts: Vec<Part>) -> Vec<Part> {
    let mut all: Vec<Part> = Vec::new();
    for part in parts {
        match (all.last_mut(), part) {
            (Some(Part::Plain(before)), Part::Plain(more)) => before.push_str(&more),
            (_, part) => all.push(part),
        }
    }
    all.retain(|part| *part != Part::Plain(String::new()));
    all
}

/// The parts of a text, with line ends as spaces.
pub fn parts(text: &str) -> Vec<Part> {
    let mut found = Vec::new();
    for (at, span) in text.replace('\n', " ").split('`').enumerate() {
        if at % 2 == 1 {
            found.push(Part::Quoted(span.to_string()));
        } else {
            push_plain(span, &mut found);
        }
    }
    joined(found)
}

/// The target of a link is held by another test: `](..)` and addresses are taken out.
pub fn without_links(text: &str) -> String {
    let mut out = String::new();
    let mut rest = text;
    while let Some(at) = rest.find("](") {
        out.push_str(&rest[..at + 1]);
        rest = rest[at..].split_once(')').map_or("", |(_, after)| after);
    }
    out.push_str(rest);
    out
}
