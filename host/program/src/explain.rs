//! One outline's story in text: from the letters to the verdict.

use std::fmt::Write;

use robequarry::{Edges, Outline, Refusal, Verdict};

use crate::engine::{missing, Help};
use crate::story::{Piece, Story, LETTERS, NAMES};
use crate::verdict::{at, count, shown, Said};
use crate::walk::{corner_cells, direction, start, Point};
use crate::words::{christoffel, divisor, is_christoffel, Factor};

/// Lines are broken before they get longer than this.
const WIDTH: usize = 96;

/// More missing cells than this are counted.
const MOST_CELLS: usize = 24;

/// The story of an outline. `title` is its number in the file and its name.
pub fn explain(title: &str, outline: &Outline, verdict: &Verdict) -> String {
    let mut text = String::new();
    let letters = count(outline.letters.len(), "letter");
    writeln!(text, "{title}: start {}, {letters}", at(start(outline))).expect("a string has room");
    paragraph(&mut text, "  ", &digits(&outline.letters));
    if told(verdict) {
        tell(&mut text, outline, &Story::of(outline), verdict);
    }
    let said = Said::of(outline, verdict);
    text.push('\n');
    paragraph(&mut text, "", &format!("{} - {}", capital(&said.what), said.place));
    if let Ok(edges) = verdict {
        round_the_hull(&mut text, edges);
    }
    if let Some(help) = Help::of(outline) {
        instead(&mut text, outline, &help);
    }
    text
}

/// Whether there is a story: the outline meets none of refusals 1 to 6.
pub fn told(verdict: &Verdict) -> bool {
    matches!(verdict, Ok(_) | Err(Refusal::BackStep { .. } | Refusal::Dent { .. }))
}

fn tell(text: &mut String, outline: &Outline, story: &Story, verdict: &Verdict) {
    let edges = factor_edges(story, verdict);
    let way = match story.clockwise {
        true => "drawn clockwise",
        false => "drawn anticlockwise, so read backward with each letter turned round",
    };
    let corners = story.pieces.iter().zip(NAMES).map(|(piece, name)| format!("{name} {}", at(story.corners[piece.from])));
    let rows: Vec<&i32> = story.rows.keys().collect();
    let (low, high) = (rows[0], rows[rows.len() - 1]);
    paragraph(text, "  ", &format!("{way}; encloses {}, in rows {low} to {high}", count(story.cells(), "cell")));
    paragraph(text, "  ", &format!("cut at {}", corners.collect::<Vec<_>>().join(", ")));
    for piece in &story.pieces {
        text.push('\n');
        tell_piece(text, story, piece, &edges[piece.number - 1]);
        if piece.back_step.is_some() {
            break;
        }
    }
    if verdict.is_err() {
        let missing = missing(outline);
        let mut cells: Vec<String> = missing.iter().take(MOST_CELLS).map(|&cell| at(cell)).collect();
        if missing.len() > MOST_CELLS {
            cells.push(format!("and {} more", missing.len() - MOST_CELLS));
        }
        text.push('\n');
        paragraph(text, "", &format!("In the hull of the block and not in it: {}", cells.join(" ")));
    }
}

/// The edge of each factor of each piece: those of a taken outline are the library's, one after the other.
pub fn factor_edges(story: &Story, verdict: &Verdict) -> [Vec<Point>; 4] {
    let mut steps = verdict.iter().flat_map(|edges| edges.steps()).map(|(cols, rows)| (cols.into(), rows.into()));
    let mut next = |piece: &Piece, factor: Factor| steps.next().unwrap_or_else(|| story.edge(piece.number, factor));
    story.pieces.each_ref().map(|piece| piece.factors.iter().map(|&factor| next(piece, factor)).collect())
}

fn tell_piece(text: &mut String, story: &Story, piece: &Piece, edges: &[Point]) {
    let k = piece.number - 1;
    let [earlier, later] = LETTERS[k];
    let order = format!("{earlier} {} before {later} {}", direction(earlier), direction(later));
    let ends = format!("{} to {}", NAMES[k], NAMES[(k + 1) % 4]);
    paragraph(text, "", &format!("Piece {}, {ends}: {}; {order}", piece.number, digits(&piece.letters)));
    if let Some(i) = piece.back_step {
        let letter = piece.letters[i];
        let place = story.sent(piece.from + i);
        let line = format!("letter {letter} ({}) is neither: a back-step, sent at place {place}", direction(letter));
        return paragraph(text, "  ", &line);
    }
    if piece.word.is_empty() {
        return paragraph(text, "  ", "without its first letter nothing is left: no edge");
    }
    paragraph(text, "  ", &format!("without its first letter: {}", digits(&piece.letters[1..])));
    for (&factor, &edge) in piece.factors.iter().zip(edges) {
        tell_factor(text, piece, factor, edge);
    }
}

fn tell_factor(text: &mut String, piece: &Piece, factor: Factor, edge: Point) {
    let copy = piece.copy(factor);
    let times = if factor.times > 1 { format!(", {} times", factor.times) } else { String::new() };
    let judged = match is_christoffel(copy) {
        true => format!("a Christoffel word; edge {}", at(edge)),
        false => format!("NO Christoffel word: {}", why_not(piece, copy)),
    };
    paragraph(text, "  ", &format!("factor {}{times}: {judged}", word(piece.number, copy)));
}

/// Why a Lyndon word of two letters or more is no Christoffel word.
fn why_not(piece: &Piece, copy: &[bool]) -> String {
    let (earlier, later) = Piece::counts(copy);
    match christoffel(copy.len(), later) {
        Some(straight) => format!("that of {earlier} and {later} letters is {}", word(piece.number, &straight)),
        None => format!("its counts, {earlier} and {later}, share the divisor {}", divisor(earlier, later)),
    }
}

fn round_the_hull(text: &mut String, edges: &Edges) {
    let cells: Vec<String> = corner_cells(edges).into_iter().map(at).collect();
    match cells.len() {
        1 => paragraph(text, "", "The hull is the anchor alone."),
        _ => paragraph(text, "", &format!("The edges lead from cell to cell: {}", cells.join(" > "))),
    }
}

/// Why the block is not convex, and the block to draw in its place.
fn instead(text: &mut String, outline: &Outline, Help { witness, completed }: &Help) {
    text.push('\n');
    paragraph(text, "", &format!("{}.", capital(&shown(witness))));
    let added = Story::of(completed).cells_beyond(&Story::of(outline)).len();
    let letters = count(completed.letters.len(), "letter");
    let line = format!("Draw this instead: start {}, {letters}, {} added", at(start(completed)), count(added, "cell"));
    paragraph(text, "", &line);
    paragraph(text, "  ", &digits(&completed.letters));
}

/// A word in the letters of its piece.
fn word(piece: usize, word: &[bool]) -> String {
    let letters: Vec<u8> = word.iter().map(|&later| LETTERS[piece - 1][usize::from(later)]).collect();
    digits(&letters)
}

/// Letters in a row; a byte above 9 in brackets.
pub fn digits(letters: &[u8]) -> String {
    let digit = |&letter: &u8| if letter < 10 { letter.to_string() } else { format!("[{letter}]") };
    letters.iter().map(digit).collect()
}

pub fn capital(text: &str) -> String {
    let mut chars = text.chars();
    chars.next().map_or(String::new(), |first| first.to_uppercase().chain(chars).collect())
}

/// Adds lines, each after the margin, broken between words; a word that is too long is broken as well.
fn paragraph(text: &mut String, margin: &str, content: &str) {
    for line in wrapped(content, WIDTH - margin.len()) {
        writeln!(text, "{margin}{line}").expect("a string has room");
    }
}

/// A text in lines of at most so many characters.
pub fn wrapped(text: &str, width: usize) -> Vec<String> {
    let mut lines = vec![String::new()];
    for word in text.split(' ') {
        let mut rest = word;
        let last = lines.len() - 1;
        let gap = usize::from(!lines[last].is_empty());
        if lines[last].chars().count() + gap + rest.chars().count() <= width {
            lines[last] += &" "[..gap];
            lines[last] += rest;
            continue;
        }
        if gap > 0 {
            lines.push(String::new());
        }
        while let Some((cut, _)) = rest.char_indices().nth(width) {
            *lines.last_mut().expect("there is a line") += &rest[..cut];
            lines.push(String::new());
            rest = &rest[cut..];
        }
        *lines.last_mut().expect("there is a line") += rest;
    }
    lines
}

#[cfg(test)]
mod tests {
    use super::*;

    #[test]
    fn lines_are_broken_at_spaces_or_anywhere() {
        assert_eq!(wrapped("one two three", 7), ["one two", "three"]);
        assert_eq!(wrapped("a 0123456789 b", 4), ["a", "0123", "4567", "89 b"]);
        assert_eq!(wrapped("", 4), [""]);
    }
}
