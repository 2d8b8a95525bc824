//! The plain book (contract 8.1), and a script of calls for it.

use robequarry::codec::{COLUMNS, INSIDE, NONE, OUTSIDE, SAME, TAKEN};
use robequarry::limits::{IMAGE, LONGEST, PARTIES, PLACES, REPLY, SIDE};
use robequarry::raw::Reply;
use robequarry::{Action, Call};

use super::calls;
use super::cells::{encloses, Enclosed};
use super::images::{image, outline_in};
use super::pieces::piece;
use super::readings::{located, Polygon};
use super::tracing::border_of;
use super::walk::{is_bad_start, is_no_letter};
use crate::reply::{numbered, placed, said};
use crate::{Fields, Outline, Point};

/// A page for each party.
#[derive(Default)]
pub struct Book {
    pages: [Page; PARTIES as usize],
}

/// A party's entries: a draft, and an outline at each place. Any of them may be empty.
#[derive(Default)]
struct Page {
    draft: Option<Outline>,
    works: [Option<Outline>; PLACES as usize],
}

impl Book {
    /// A restore: 19, 20, 26, or as a close of the image's outline, or as a clear. The draft stays.
    pub fn restore(&mut self, party: u8, place: u8, bytes: &[u8]) -> Fields {
        match self.pages.get_mut(usize::from(party)) {
            None => numbered(19),
            Some(page) => page.restore(place.into(), bytes),
        }
    }

    /// The image that a save writes: of the border of the outline at work, or of an empty place. None if there is no such party or place.
    pub fn image(&self, party: u8, place: u8) -> Option<[u8; IMAGE]> {
        let work = self.pages.get(usize::from(party))?.works.get(usize::from(place))?;
        Some(image(work.as_ref().map(border_of).as_ref()))
    }

    /// What is told of a party's draft (contract 7.12).
    pub fn draft(&self, party: u8) -> Fields {
        match self.pages.get(usize::from(party)).map(|page| &page.draft) {
            None => numbered(19),
            Some(None) => numbered(13),
            Some(Some(Outline { start, letters })) => Fields { col: start.col, row: start.row, ..placed(0, letters.len()) },
        }
    }

    /// 19 comes first; else the party's page alone is read and written.
    pub fn answer(&mut self, call: Call) -> Fields {
        match self.pages.get_mut(usize::from(call.party)) {
            None => numbered(19),
            Some(page) => page.answer(call.action),
        }
    }
}

impl Page {
    fn answer(&mut self, action: Action) -> Fields {
        match action {
            Action::Begin(start) => self.begin(start.into()),
            Action::Add(letter) => self.add(letter),
            Action::Drop => self.drop_draft(),
            Action::Clear { place } => self.clear(place.into()),
            Action::Close { place } => self.close(place.into()),
            Action::Query { place, cell } => self.ask(place, |work| query(work, cell.into())),
            Action::Row { place, row } => self.ask(place, |work| columns(work, row)),
            Action::Reading { place, reading } => self.ask(place, |work| located(&polygon(work), reading)),
            Action::Piece { place, position } => self.ask(place, |work| piece(&polygon(work), position)),
        }
    }

    /// 20, 12, or what is said of the work.
    fn ask(&self, place: u8, answer: impl FnOnce(&Outline) -> Fields) -> Fields {
        match self.works.get(usize::from(place)) {
            None => numbered(20),
            Some(None) => numbered(12),
            Some(Some(work)) => answer(work),
        }
    }

    /// Contract 7.3.
    fn begin(&mut self, start: Point) -> Fields {
        if self.draft.is_some() {
            return numbered(14);
        }
        if is_bad_start(start) {
            return numbered(2);
        }
        self.draft = Some(Outline { start, letters: Vec::new() });
        numbered(0)
    }

    /// Contract 7.4.
    fn add(&mut self, letter: u8) -> Fields {
        let Some(draft) = &mut self.draft else {
            return numbered(13);
        };
        if draft.letters.len() >= LONGEST {
            return numbered(15);
        }
        if is_no_letter(letter) {
            return placed(3, draft.letters.len());
        }
        draft.letters.push(letter);
        numbered(0)
    }

    /// Contract 7.5.
    fn drop_draft(&mut self) -> Fields {
        match self.draft.take() {
            None => numbered(13),
            Some(_) => numbered(0),
        }
    }

    /// Contract 7.6.
    fn clear(&mut self, place: usize) -> Fields {
        let Some(work) = self.works.get_mut(place) else {
            return numbered(20);
        };
        *work = None;
        numbered(0)
    }

    /// Contract 7.7. The draft ends, also where 20 refuses the close.
    fn close(&mut self, place: usize) -> Fields {
        let draft = self.draft.take();
        let Some(work) = self.works.get_mut(place) else {
            return numbered(20);
        };
        let Some(draft) = draft else {
            return numbered(13);
        };
        take(work, draft)
    }

    fn restore(&mut self, place: usize, bytes: &[u8]) -> Fields {
        let Some(work) = self.works.get_mut(place) else {
            return numbered(20);
        };
        match outline_in(bytes) {
            None => numbered(26),
            Some(outline) if outline.letters.is_empty() => self.clear(place),
            Some(outline) => take(work, outline),
        }
    }
}

/// Tests an outline. If it is taken, it replaces what is at work.
fn take(work: &mut Option<Outline>, outline: Outline) -> Fields {
    let reply = calls::test(outline.start, &outline.letters).reply;
    if reply.number != 0 {
        return reply;
    }
    let same = work.as_ref().is_some_and(|work| encloses_the_same(work, &outline));
    let word = if same { SAME } else { TAKEN };
    *work = Some(outline);
    Fields { word, ..reply }
}

/// Contract 7.8, by the cells that the work encloses.
fn query(work: &Outline, cell: Point) -> Fields {
    if calls::off_chart(cell) {
        return numbered(11);
    }
    let inside = encloses(work.start, &work.letters, (i32::from(cell.col), i32::from(cell.row)));
    said(if inside { INSIDE } else { OUTSIDE })
}

/// Contract 7.9, by the cells that the work encloses.
fn columns(work: &Outline, row: u16) -> Fields {
    if row >= SIDE {
        return numbered(11);
    }
    match span(work, row) {
        Some((first, last)) => Fields { col: first, row: last, ..said(COLUMNS) },
        None => said(NONE),
    }
}

/// The edges by which contract 7.10 and 7.11 answer.
fn polygon(work: &Outline) -> Polygon {
    Polygon::of(work).expect("a work was taken")
}

/// The first and the last column of a row that an outline encloses, by asking every cell.
fn span(work: &Outline, row: u16) -> Option<(u16, u16)> {
    let inside = |&col: &u16| encloses(work.start, &work.letters, (i32::from(col), i32::from(row)));
    let mut columns = (0..SIDE).filter(inside);
    let first = columns.next()?;
    Some((first, columns.next_back().unwrap_or(first)))
}

/// Whether two outlines past refusals 1 to 6 enclose the same cells.
fn encloses_the_same(one: &Outline, other: &Outline) -> bool {
    let cells = |outline: &Outline| Enclosed::of(outline.start, &outline.letters).cells().collect::<Vec<_>>();
    cells(one) == cells(other)
}

/// The replies to a script (contract 10.3), as many as there is space for. Returns their count.
pub fn replay(script: &[u8], replies: &mut [u16]) -> usize {
    let mut book = Book::default();
    let mut written = 0;
    for (call, reply) in Call::each(script).zip(replies.chunks_exact_mut(REPLY)) {
        reply.copy_from_slice(&Reply::from(book.answer(call)));
        written += 1;
    }
    written
}
