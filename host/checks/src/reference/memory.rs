//! Memory of any content: what each call on a holder's four arrays, and on a pile's two, replies and leaves, number for number (contract
//! 10.4 to 10.7, 12.8, and 13.4 to 13.11).

use std::ops::Range;

use robequarry::codec::{CLOSE, COLUMNS, INSIDE, LINE, MOVE, NONE, OUTSIDE, SAME, TAKEN};
use robequarry::limits::{IMAGE, LAST_CELL, LAYERS, LONGEST, MOST_EDGES, MOST_NUMBERS, PARTIES, PLACES, SIDE};
use robequarry::raw::{HolderMemory, PileMemory};
use robequarry::{Action, Call};

use super::calls::{off_chart, test};
use super::cells::Enclosed;
use super::edges::{bad_turning, corner_cells, steps};
use super::images::{image, outline_in};
use super::readings::{located, values, Polygon};
use super::tracing::{outline_with, walk_round};
use super::walk::{is_bad_start, is_no_letter};
use crate::reply::{numbered, placed, said};
use crate::{Fields, Outline, Point};

/// What names the slots of a party.
const WORDS: [u16; 5] = [0x5555, 0x3333, 0x6666, 0x0F0F, 0x5A5A];

/// What says that a pile has passed.
const PASSED: u16 = 0x5AA5;

const ROWS: usize = SIDE as usize;

/// Where a party's draft begins among the heads: its flag, its start's column and row, and its count.
fn draft_head(party: u8) -> usize {
    4 * usize::from(party)
}

/// Where the word of a place stands.
fn word_head(party: u8, place: u8) -> usize {
    8 + 4 * usize::from(party) + usize::from(place)
}

/// A slot, from 0 to 9.
#[derive(Clone, Copy)]
struct Slot(usize);

impl Slot {
    /// The one that a word names.
    fn named(party: u8, word: u16) -> Option<Slot> {
        WORDS.iter().position(|&known| known == word).map(|tag| Slot(5 * usize::from(party) + tag))
    }

    /// The first one of a party that no place names, and its word.
    fn free(memory: &HolderMemory, party: u8) -> (Slot, u16) {
        let named = |word: &&u16| (0..PLACES).any(|place| memory.heads[word_head(party, place)] == **word);
        let &word = WORDS.iter().find(|word| !named(word)).expect("there are more slots than places");
        (Slot::named(party, word).expect("it is one of the words"), word)
    }

    fn head(self) -> usize {
        16 + 3 * self.0
    }

    fn numbers(self) -> Range<usize> {
        MOST_NUMBERS * self.0..MOST_NUMBERS * (self.0 + 1)
    }

    fn rows(self) -> Range<usize> {
        2 * ROWS * self.0..2 * ROWS * (self.0 + 1)
    }

    fn anchor(self, memory: &HolderMemory) -> Point {
        Point::new(memory.heads[self.head()], memory.heads[self.head() + 1])
    }

    /// The edges that are counted; a count above the space is read as the space.
    fn edges(self, memory: &HolderMemory) -> &[i16] {
        let count = usize::from(memory.heads[self.head() + 2]).min(MOST_EDGES);
        &memory.numbers[self.numbers()][..2 * count]
    }
}

/// 19 and 20.
fn refusal(party: u8, place: u8) -> Option<Fields> {
    match (party, place) {
        (PARTIES.., _) => Some(numbered(19)),
        (_, PLACES..) => Some(numbered(20)),
        _ => None,
    }
}

/// The reply to a call, with the memory that it leaves.
pub fn answer(memory: &mut HolderMemory, Call { party, action }: Call) -> Fields {
    if party >= PARTIES {
        return numbered(19);
    }
    match action {
        Action::Begin(start) => begin(memory, party, start.into()),
        Action::Add(letter) => add(memory, party, letter),
        Action::Drop => drop_draft(memory, party),
        Action::Clear { place } => clear(memory, party, place),
        Action::Close { place } => close(memory, party, place),
        Action::Query { place, cell } => ask(memory, party, place, |slot| query(&memory.rows[slot.rows()], cell.into())),
        Action::Row { place, row } => ask(memory, party, place, |slot| columns(&memory.rows[slot.rows()], row)),
        Action::Reading { place, reading } => ask(memory, party, place, |slot| {
            let (anchor, edges) = (slot.anchor(memory), slot.edges(memory));
            // Off the chart, as no outline at work is, nothing is inside.
            match corner_cells(anchor, edges).iter().all(on_chart) || values(reading).is_none() {
                true => located(&Polygon::new(anchor, steps(edges)), reading),
                false => said(OUTSIDE),
            }
        }),
        Action::Piece { place, position } => {
            ask(memory, party, place, |slot| piece(slot.anchor(memory), slot.edges(memory), position))
        }
    }
}

fn on_chart(&(col, row): &(i32, i32)) -> bool {
    let last = i32::from(LAST_CELL);
    (0..=last).contains(&col) && (0..=last).contains(&row)
}

/// 20, 12, or what is said of the slot that the place names.
fn ask(memory: &HolderMemory, party: u8, place: u8, answer: impl FnOnce(Slot) -> Fields) -> Fields {
    if place >= PLACES {
        return numbered(20);
    }
    Slot::named(party, memory.heads[word_head(party, place)]).map_or(numbered(12), answer)
}

fn begin(memory: &mut HolderMemory, party: u8, start: Point) -> Fields {
    let at = draft_head(party);
    if memory.heads[at] != 0 {
        return numbered(14);
    }
    if is_bad_start(start) {
        return numbered(2);
    }
    memory.heads[at..at + 4].copy_from_slice(&[1, start.col, start.row, 0]);
    numbered(0)
}

fn add(memory: &mut HolderMemory, party: u8, letter: u8) -> Fields {
    let at = draft_head(party);
    let count = usize::from(memory.heads[at + 3]);
    if memory.heads[at] == 0 {
        return numbered(13);
    }
    if count >= LONGEST {
        return numbered(15);
    }
    if is_no_letter(letter) {
        return placed(3, count);
    }
    memory.letters[LONGEST * usize::from(party) + count] = letter;
    memory.heads[at + 3] += 1;
    numbered(0)
}

/// A party's draft: its start and its count, as they stand.
pub fn draft(memory: &HolderMemory, party: u8) -> Fields {
    if party >= PARTIES {
        return numbered(19);
    }
    match memory.heads[draft_head(party)..][..4] {
        [0, ..] => numbered(13),
        [_, col, row, count] => Fields { col, row, ..placed(0, count.into()) },
        _ => unreachable!("a draft has four heads"),
    }
}

fn drop_draft(memory: &mut HolderMemory, party: u8) -> Fields {
    match std::mem::take(&mut memory.heads[draft_head(party)]) {
        0 => numbered(13),
        _ => numbered(0),
    }
}

fn clear(memory: &mut HolderMemory, party: u8, place: u8) -> Fields {
    if place >= PLACES {
        return numbered(20);
    }
    memory.heads[word_head(party, place)] = 0;
    numbered(0)
}

fn close(memory: &mut HolderMemory, party: u8, place: u8) -> Fields {
    let at = draft_head(party);
    let begun = std::mem::take(&mut memory.heads[at]) != 0;
    if place >= PLACES {
        return numbered(20);
    }
    if !begun {
        return numbered(13);
    }
    let start = Point::new(memory.heads[at + 1], memory.heads[at + 2]);
    let count = usize::from(memory.heads[at + 3]).min(LONGEST);
    let letters = memory.letters[LONGEST * usize::from(party)..][..count].to_vec();
    take(memory, party, place, &Outline { start, letters })
}

/// Tests an outline. If it is taken, it fills the free slot, which the place then names.
fn take(memory: &mut HolderMemory, party: u8, place: u8, outline: &Outline) -> Fields {
    let tested = test(outline.start, &outline.letters);
    if tested.reply.number != 0 {
        return tested.reply;
    }
    let anchor = Point::new(tested.reply.col, tested.reply.row);
    let mut numbers = [0; MOST_NUMBERS];
    for (to, &(cols, rows)) in numbers.chunks_exact_mut(2).zip(&tested.edges) {
        to.copy_from_slice(&[cols as i16, rows as i16]);
    }
    let edges = &numbers[..2 * tested.edges.len()];
    let old = Slot::named(party, memory.heads[word_head(party, place)]);
    let same = old.is_some_and(|slot| slot.anchor(memory) == anchor && slot.edges(memory) == edges);
    let (slot, word) = Slot::free(memory, party);
    memory.rows[slot.rows()].copy_from_slice(&rows_of(outline));
    memory.heads[slot.head()..slot.head() + 3].copy_from_slice(&[anchor.col, anchor.row, tested.edges.len() as u16]);
    memory.numbers[slot.numbers()].copy_from_slice(&numbers);
    memory.heads[word_head(party, place)] = word;
    Fields { word: if same { SAME } else { TAKEN }, ..tested.reply }
}

/// The rows of a taken outline: of each the first enclosed column, then of each the column past the last; 0 for a row without cells.
fn rows_of(outline: &Outline) -> [u8; 2 * ROWS] {
    let mut rows = [0; 2 * ROWS];
    let mut seen = [false; ROWS];
    for (col, row) in Enclosed::of(outline.start, &outline.letters).cells() {
        let (col, row) = (col as u8, row as usize);
        if !std::mem::replace(&mut seen[row], true) {
            rows[row] = col;
        }
        rows[ROWS + row] = col + 1;
    }
    rows
}

fn query(rows: &[u8], cell: Point) -> Fields {
    if off_chart(cell) {
        return numbered(11);
    }
    let row = usize::from(cell.row);
    let inside = u16::from(rows[row]) <= cell.col && cell.col < u16::from(rows[ROWS + row]);
    said(if inside { INSIDE } else { OUTSIDE })
}

fn columns(rows: &[u8], row: u16) -> Fields {
    if row >= SIDE {
        return numbered(11);
    }
    let (first, past) = (u16::from(rows[usize::from(row)]), u16::from(rows[ROWS + usize::from(row)]));
    match first < past {
        true => Fields { col: first, row: past - 1, ..said(COLUMNS) },
        false => said(NONE),
    }
}

/// A line that would end off the chart, as no outline's at work does, is none.
fn piece(anchor: Point, edges: &[i16], position: u16) -> Fields {
    let (position, last) = (usize::from(position), (edges.len() / 2).max(1));
    let at = |word, col, row| Fields { col, row, ..said(word) };
    match position {
        0 => at(MOVE, anchor.col, anchor.row),
        _ if position == last => said(CLOSE),
        _ if position > last => said(NONE),
        _ => match corner_cells(anchor, edges)[position] {
            cell if on_chart(&cell) => at(LINE, cell.0 as u16, cell.1 as u16),
            _ => said(NONE),
        },
    }
}

/// 19, 20, 27, or the outline at work at a place, clockwise from W; none where the word is 0.
fn held(memory: &HolderMemory, party: u8, place: u8) -> Result<Option<Outline>, Fields> {
    if let Some(refusal) = refusal(party, place) {
        return Err(refusal);
    }
    let word = memory.heads[word_head(party, place)];
    if word == 0 {
        return Ok(None);
    }
    let slot = Slot::named(party, word).ok_or(numbered(27))?;
    let (anchor, edges) = (slot.anchor(memory), slot.edges(memory));
    if off_chart(anchor) || bad_turning(edges) {
        return Err(numbered(27));
    }
    let letters = outline_with(anchor, edges).ok_or(numbered(27))?;
    let outline = Outline { start: anchor, letters };
    match memory.rows[slot.rows()] == rows_of(&outline) {
        true => Ok(Some(outline)),
        false => Err(numbered(27)),
    }
}

/// Contract 13.4.
pub fn check(memory: &HolderMemory, party: u8, place: u8) -> Fields {
    held(memory, party, place).map_or_else(|refusal| refusal, |_| numbered(0))
}

/// Contract 13.5.
pub fn save(memory: &HolderMemory, party: u8, place: u8, buffer: &mut [u8]) -> Fields {
    write(held(memory, party, place), buffer)
}

/// A refusal, 18, or the image.
fn write(held: Result<Option<Outline>, Fields>, buffer: &mut [u8]) -> Fields {
    match held {
        Err(refusal) => refusal,
        Ok(_) if buffer.len() < IMAGE => numbered(18),
        Ok(outline) => {
            buffer[..IMAGE].copy_from_slice(&image(outline.as_ref()));
            numbered(0)
        }
    }
}

/// Contract 13.6.
pub fn restore(memory: &mut HolderMemory, party: u8, place: u8, bytes: &[u8]) -> Fields {
    if let Some(refusal) = refusal(party, place) {
        return refusal;
    }
    match outline_in(bytes) {
        None => numbered(26),
        Some(outline) if outline.letters.is_empty() => clear(memory, party, place),
        Some(outline) => take(memory, party, place, &outline),
    }
}

/// A layer's rows.
fn layer_rows(layer: u8) -> Range<usize> {
    2 * ROWS * usize::from(layer)..2 * ROWS * (usize::from(layer) + 1)
}

/// Sets a layer to an outline.
pub fn pile_set(pile: &mut PileMemory, layer: u8, outline: &Outline) -> Fields {
    if layer >= LAYERS {
        return numbered(22);
    }
    let reply = test(outline.start, &outline.letters).reply;
    if reply.number == 0 {
        pile.rows[layer_rows(layer)].copy_from_slice(&rows_of(outline));
        pile.state = [0, 0];
    }
    reply
}

/// Sets a layer to empty.
pub fn pile_empty(pile: &mut PileMemory, layer: u8) -> Fields {
    if layer >= LAYERS {
        return numbered(22);
    }
    pile.rows[layer_rows(layer)].fill(0);
    pile.state = [0, 0];
    numbered(0)
}

pub fn pile_query(pile: &PileMemory, layer: u8, cell: Point) -> Fields {
    match layer < LAYERS {
        false => numbered(22),
        true if pile.state[0] != PASSED => numbered(12),
        true => query(&pile.rows[layer_rows(layer)], cell),
    }
}

/// 22, 27, or the outline of a layer, clockwise from W; none where it is empty. The walk goes round the cells of the rows, if they are those of
/// a block, and the test says whether it is taken.
fn layered(pile: &PileMemory, layer: u8) -> Result<Option<Outline>, Fields> {
    if layer >= LAYERS {
        return Err(numbered(22));
    }
    let rows = &pile.rows[layer_rows(layer)];
    if rows.iter().all(|&column| column == 0) {
        return Ok(None);
    }
    let cells = |row: usize| (rows[row]..rows[ROWS + row]).map(move |col| (i32::from(col), row as i32));
    let cells: Vec<(i32, i32)> = (0..ROWS).flat_map(cells).collect();
    let start = *cells.iter().min().ok_or(numbered(27))?;
    let hull = super::cells::Hull::of(cells);
    let letters = walk_round(&hull, start).ok_or(numbered(27))?;
    let outline = Outline { start: Point::new(start.0 as u16, start.1 as u16), letters };
    let taken = test(outline.start, &outline.letters).reply.number == 0 && *rows == rows_of(&outline);
    taken.then_some(Some(outline)).ok_or(numbered(27))
}

/// Contract 13.11.
pub fn pile_save(pile: &PileMemory, layer: u8, buffer: &mut [u8]) -> Fields {
    write(layered(pile, layer), buffer)
}

pub fn pile_restore(pile: &mut PileMemory, layer: u8, bytes: &[u8]) -> Fields {
    if layer >= LAYERS {
        return numbered(22);
    }
    match outline_in(bytes) {
        None => numbered(26),
        Some(outline) if outline.letters.is_empty() => pile_empty(pile, layer),
        Some(outline) => pile_set(pile, layer, &outline),
    }
}
