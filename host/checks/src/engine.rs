//! One face for whatever answers the calls: the library's own, on plain lists of numbers.

use robequarry::limits::CALL;
use robequarry::raw::{self, Reply};
use robequarry::{Action, Call};

use crate::case::{Asked, Polygon};
use crate::live::{after, replay_mixed};
use crate::{plain, reference, Point};

pub trait Engine {
    fn name(&self) -> &'static str;

    fn test(&self, start: Point, letters: &[u8], edges: &mut [i16], reply: &mut Reply);

    fn loose_query(&self, anchor: Point, edges: &[i16], cell: Point, reply: &mut Reply);

    fn border(&self, anchor: Point, edges: &[i16], letters: &mut [u8], reply: &mut Reply);

    fn compare(&self, first: &Polygon, second: &Polygon, reply: &mut Reply);

    fn witness(&self, start: Point, letters: &[u8], cells: &mut [u16], reply: &mut Reply);

    fn complete(&self, start: Point, letters: &[u8], out: &mut [u8], reply: &mut Reply);

    /// The replies to a script, as many as there is space for. Returns their count.
    fn replay(&self, script: &[u8], replies: &mut [u16]) -> usize;

    /// A piece with its point, after the calls of a script.
    fn piece(&self, script: &[u8], asked: Asked, point: &mut [f32; 2], reply: &mut Reply);
}

/// The proved library.
pub struct Library;

/// The same, with the calls of a script made one by one on a live holder, by bytes or by arguments.
pub struct Live;

/// The contract as written.
pub struct Reference;

/// The library's algorithm in plain Rust.
pub struct Plain;

impl Engine for Library {
    fn name(&self) -> &'static str {
        "library"
    }

    fn test(&self, start: Point, letters: &[u8], edges: &mut [i16], reply: &mut Reply) {
        raw::test(start.col, start.row, letters, edges, reply);
    }

    fn loose_query(&self, anchor: Point, edges: &[i16], cell: Point, reply: &mut Reply) {
        raw::loose_query(anchor.col, anchor.row, edges, cell.col, cell.row, reply);
    }

    fn border(&self, anchor: Point, edges: &[i16], letters: &mut [u8], reply: &mut Reply) {
        raw::border(anchor.col, anchor.row, edges, letters, reply);
    }

    fn compare(&self, first: &Polygon, second: &Polygon, reply: &mut Reply) {
        let (a, b) = (first.anchor, second.anchor);
        raw::compare((a.col, a.row), &first.edges, (b.col, b.row), &second.edges, reply);
    }

    fn witness(&self, start: Point, letters: &[u8], cells: &mut [u16], reply: &mut Reply) {
        raw::witness(start.col, start.row, letters, cells, reply);
    }

    fn complete(&self, start: Point, letters: &[u8], out: &mut [u8], reply: &mut Reply) {
        raw::complete(start.col, start.row, letters, out, reply);
    }

    fn replay(&self, script: &[u8], replies: &mut [u16]) -> usize {
        raw::replay(script, replies)
    }

    fn piece(&self, script: &[u8], Asked { party, place, position }: Asked, point: &mut [f32; 2], reply: &mut Reply) {
        let holder = after(script);
        let before = holder.clone();
        holder.piece(party, place, position, point, reply);
        assert!(holder == before, "a piece leaves the holder as it is");
    }
}

impl Engine for Live {
    fn name(&self) -> &'static str {
        "live holder"
    }

    fn test(&self, start: Point, letters: &[u8], edges: &mut [i16], reply: &mut Reply) {
        Library.test(start, letters, edges, reply);
    }

    fn loose_query(&self, anchor: Point, edges: &[i16], cell: Point, reply: &mut Reply) {
        Library.loose_query(anchor, edges, cell, reply);
    }

    fn border(&self, anchor: Point, edges: &[i16], letters: &mut [u8], reply: &mut Reply) {
        Library.border(anchor, edges, letters, reply);
    }

    fn compare(&self, first: &Polygon, second: &Polygon, reply: &mut Reply) {
        Library.compare(first, second, reply);
    }

    fn witness(&self, start: Point, letters: &[u8], cells: &mut [u16], reply: &mut Reply) {
        Library.witness(start, letters, cells, reply);
    }

    fn complete(&self, start: Point, letters: &[u8], out: &mut [u8], reply: &mut Reply) {
        Library.complete(start, letters, out, reply);
    }

    fn replay(&self, script: &[u8], replies: &mut [u16]) -> usize {
        replay_mixed(script, replies)
    }

    fn piece(&self, script: &[u8], asked: Asked, point: &mut [f32; 2], reply: &mut Reply) {
        Library.piece(script, asked, point, reply);
    }
}

impl Engine for Reference {
    fn name(&self) -> &'static str {
        "reference"
    }

    fn test(&self, start: Point, letters: &[u8], edges: &mut [i16], reply: &mut Reply) {
        *reply = reference::calls::test_into(start, letters, edges).into();
    }

    fn loose_query(&self, anchor: Point, edges: &[i16], cell: Point, reply: &mut Reply) {
        *reply = reference::calls::loose_query(anchor, edges, cell).into();
    }

    fn border(&self, anchor: Point, edges: &[i16], letters: &mut [u8], reply: &mut Reply) {
        *reply = reference::tracing::border(anchor, edges, letters).into();
    }

    fn compare(&self, first: &Polygon, second: &Polygon, reply: &mut Reply) {
        *reply = reference::compare::compare(first, second).into();
    }

    fn witness(&self, start: Point, letters: &[u8], cells: &mut [u16], reply: &mut Reply) {
        *reply = reference::help::witness(start, letters, cells).into();
    }

    fn complete(&self, start: Point, letters: &[u8], out: &mut [u8], reply: &mut Reply) {
        *reply = reference::help::complete(start, letters, out).into();
    }

    fn replay(&self, script: &[u8], replies: &mut [u16]) -> usize {
        reference::book::replay(script, replies)
    }

    fn piece(&self, script: &[u8], Asked { party, place, position }: Asked, point: &mut [f32; 2], reply: &mut Reply) {
        let mut book = reference::book::Book::default();
        for call in Call::each(script) {
            book.answer(call);
        }
        let piece = book.answer(Action::Piece { place, position }.by(party));
        *reply = piece.into();
        if let Some(bits) = reference::pieces::point(piece) {
            *point = bits.map(f32::from_bits);
        }
    }
}

impl Engine for Plain {
    fn name(&self) -> &'static str {
        "plain"
    }

    fn test(&self, start: Point, letters: &[u8], edges: &mut [i16], reply: &mut Reply) {
        *reply = plain::test(start, letters, edges).into();
    }

    fn loose_query(&self, anchor: Point, edges: &[i16], cell: Point, reply: &mut Reply) {
        *reply = plain::loose_query(anchor, edges, cell).into();
    }

    fn border(&self, anchor: Point, edges: &[i16], letters: &mut [u8], reply: &mut Reply) {
        *reply = plain::border(anchor, edges, letters).into();
    }

    fn compare(&self, first: &Polygon, second: &Polygon, reply: &mut Reply) {
        *reply = plain::compare(first, second).into();
    }

    fn witness(&self, start: Point, letters: &[u8], cells: &mut [u16], reply: &mut Reply) {
        *reply = plain::witness(start, letters, cells).into();
    }

    fn complete(&self, start: Point, letters: &[u8], out: &mut [u8], reply: &mut Reply) {
        *reply = plain::complete(start, letters, out).into();
    }

    fn replay(&self, script: &[u8], replies: &mut [u16]) -> usize {
        plain::replay(script, replies)
    }

    fn piece(&self, script: &[u8], Asked { party, place, position }: Asked, point: &mut [f32; 2], reply: &mut Reply) {
        let mut holder = plain::Holder::default();
        script.chunks(CALL).all(|call| holder.call(call, &mut [0; 7]));
        *reply = holder.piece(party, place, position, point).into();
    }
}
