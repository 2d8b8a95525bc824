//! The library's functions as they are. What has a fixed length is an array. Any other list is a slice, which the library gets as a
//! pointer and a count.
//!
//! Nothing is asked of the numbers: every input has a reply. [`codec`](crate::codec) reads replies and writes calls;
//! [`limits`](crate::limits) has the lengths.
//!
//! The memory of a holder, and of a pile, is a struct of arrays: C has the same as `rq_holder` and `rq_pile`. It holds numbers only, and
//! every content is a holder or a pile. So two of them that are equal answer every list of calls alike.

use alloc::vec::Vec;
use core::{fmt, mem, ptr};

use crate::limits::{HOLDER_BYTES, LAYERS, LONGEST, MOST_NUMBERS, PARTIES, PILE_BYTES, PLACES, REPLY, SIDE};

/// A reply: seven numbers (contract 4.1).
pub type Reply = [u16; REPLY];

const DRAFTS: usize = PARTIES as usize;
const SPOTS: usize = PARTIES as usize * PLACES as usize;

/// The slots for outlines: for each party one more than it has places, so that one is free.
const SLOTS: usize = PARTIES as usize * (PLACES as usize + 1);

/// The bytes of an outline's rows: of each row the first enclosed column, and then of each row the column after the last.
const SPANS: usize = 2 * SIDE as usize;

/// The letters of all drafts.
const LETTERS: usize = DRAFTS * LONGEST;

/// The rows of the outlines in all slots.
const ROWS: usize = SLOTS * SPANS;

/// The numbers of their edges.
const NUMBERS: usize = SLOTS * MOST_NUMBERS;

/// Four numbers for each draft, a word for each place, and three numbers for each slot.
const HEADS: usize = 4 * DRAFTS + SPOTS + 3 * SLOTS;

/// The rows of all layers of a pile.
const LAYER_ROWS: usize = LAYERS as usize * SPANS;

mod library {
    use super::{Reply, HEADS, LAYER_ROWS, LETTERS, NUMBERS, ROWS};

    // SAFETY: these are the exports of the archive with their types: a list is a pointer and a count of 64 bits, and an array a pointer.
    // A function without lists asks for nothing that a reference does not give, so it is safe to call.
    unsafe extern "C" {
        pub fn rq_test(col: u16, row: u16, letters: *const u8, n: u64, edges: *mut i16, m: u64, reply: &mut Reply);

        pub fn rq_loose_query(
            anchor_col: u16,
            anchor_row: u16,
            edges: *const i16,
            m: u64,
            col: u16,
            row: u16,
            reply: &mut Reply,
        );

        pub fn rq_loose_reading(
            anchor_col: u16,
            anchor_row: u16,
            edges: *const i16,
            m: u64,
            angle: f32,
            load: f32,
            reply: &mut Reply,
        );

        pub fn rq_border(
            anchor_col: u16,
            anchor_row: u16,
            edges: *const i16,
            m: u64,
            letters: *mut u8,
            n: u64,
            reply: &mut Reply,
        );

        pub fn rq_compare(
            anchor_col_1: u16,
            anchor_row_1: u16,
            edges_1: *const i16,
            m_1: u64,
            anchor_col_2: u16,
            anchor_row_2: u16,
            edges_2: *const i16,
            m_2: u64,
            reply: &mut Reply,
        );

        pub fn rq_witness(col: u16, row: u16, letters: *const u8, n: u64, cells: *mut u16, m: u64, reply: &mut Reply);

        pub fn rq_complete(col: u16, row: u16, letters: *const u8, n: u64, out: *mut u8, m: u64, reply: &mut Reply);

        pub fn rq_replay_numbers(script: *const u8, n: u64, replies: *mut u16, k: u64) -> u64;

        pub safe fn rq_fresh_parts(
            letters: &mut [u8; LETTERS],
            rows: &mut [u8; ROWS],
            numbers: &mut [i16; NUMBERS],
            heads: &mut [u16; HEADS],
        );

        pub safe fn rq_begin_parts(heads: &mut [u16; HEADS], party: u8, col: u16, row: u16, reply: &mut Reply);

        pub safe fn rq_add_parts(
            letters: &mut [u8; LETTERS],
            heads: &mut [u16; HEADS],
            party: u8,
            letter: u8,
            reply: &mut Reply,
        );

        pub safe fn rq_drop_parts(heads: &mut [u16; HEADS], party: u8, reply: &mut Reply);

        pub safe fn rq_clear_parts(heads: &mut [u16; HEADS], party: u8, place: u8, reply: &mut Reply);

        pub safe fn rq_prepare_parts(
            letters: &[u8; LETTERS],
            rows: &mut [u8; ROWS],
            numbers: &mut [i16; NUMBERS],
            heads: &mut [u16; HEADS],
            party: u8,
            place: u8,
            reply: &mut Reply,
        ) -> u16;

        pub safe fn rq_commit_parts(heads: &mut [u16; HEADS], party: u8, place: u8, word: u16);

        pub safe fn rq_draft_parts(heads: &[u16; HEADS], party: u8, reply: &mut Reply);

        pub safe fn rq_query_parts(
            rows: &[u8; ROWS],
            heads: &[u16; HEADS],
            party: u8,
            place: u8,
            col: u16,
            row: u16,
            reply: &mut Reply,
        );

        pub safe fn rq_row_parts(rows: &[u8; ROWS], heads: &[u16; HEADS], party: u8, place: u8, row: u16, reply: &mut Reply);

        pub safe fn rq_reading_parts(
            numbers: &[i16; NUMBERS],
            heads: &[u16; HEADS],
            party: u8,
            place: u8,
            angle: f32,
            load: f32,
            reply: &mut Reply,
        );

        pub safe fn rq_piece_parts(
            numbers: &[i16; NUMBERS],
            heads: &[u16; HEADS],
            party: u8,
            place: u8,
            position: u16,
            point: &mut [f32; 2],
            reply: &mut Reply,
        );

        pub safe fn rq_check_parts(
            rows: &[u8; ROWS],
            numbers: &[i16; NUMBERS],
            heads: &[u16; HEADS],
            party: u8,
            place: u8,
            reply: &mut Reply,
        );

        pub fn rq_save_parts(
            rows: &[u8; ROWS],
            numbers: &[i16; NUMBERS],
            heads: &[u16; HEADS],
            party: u8,
            place: u8,
            image: *mut u8,
            m: u64,
            reply: &mut Reply,
        );

        pub fn rq_prepare_image_parts(
            rows: &mut [u8; ROWS],
            numbers: &mut [i16; NUMBERS],
            heads: &mut [u16; HEADS],
            party: u8,
            place: u8,
            image: *const u8,
            n: u64,
            reply: &mut Reply,
        ) -> u16;

        pub fn rq_call_parts(
            letters: &mut [u8; LETTERS],
            rows: &mut [u8; ROWS],
            numbers: &mut [i16; NUMBERS],
            heads: &mut [u16; HEADS],
            call: *const u8,
            n: u64,
            reply: &mut Reply,
        ) -> bool;

        pub safe fn rq_pile_fresh_parts(rows: &mut [u8; LAYER_ROWS], state: &mut [u16; 2]);

        pub fn rq_pile_set_parts(
            rows: &mut [u8; LAYER_ROWS],
            state: &mut [u16; 2],
            layer: u8,
            col: u16,
            row: u16,
            letters: *const u8,
            n: u64,
            reply: &mut Reply,
        );

        pub safe fn rq_pile_empty_parts(rows: &mut [u8; LAYER_ROWS], state: &mut [u16; 2], layer: u8, reply: &mut Reply);

        pub safe fn rq_pile_check_parts(rows: &[u8; LAYER_ROWS], state: &mut [u16; 2], reply: &mut Reply);

        pub safe fn rq_pile_check_step_parts(
            rows: &[u8; LAYER_ROWS],
            state: &mut [u16; 2],
            sections: u16,
            reply: &mut Reply,
        );

        pub safe fn rq_pile_query_parts(
            rows: &[u8; LAYER_ROWS],
            state: &[u16; 2],
            layer: u8,
            col: u16,
            row: u16,
            reply: &mut Reply,
        );

        pub fn rq_pile_save_parts(rows: &[u8; LAYER_ROWS], layer: u8, image: *mut u8, m: u64, reply: &mut Reply);

        pub fn rq_pile_restore_parts(
            rows: &mut [u8; LAYER_ROWS],
            state: &mut [u16; 2],
            layer: u8,
            image: *const u8,
            n: u64,
            reply: &mut Reply,
        );

        pub fn rq_checksum(bytes: *const u8, n: u64) -> u32;

        pub fn rq_frame(body: *const u8, n: u64, frame: *mut u8, m: u64, reply: &mut Reply);

        pub fn rq_unframe(frame: *const u8, n: u64, body: *mut u8, m: u64, reply: &mut Reply);

        pub safe fn rq_version() -> u32;
    }
}

/// A slice's length as the library takes it.
#[inline]
fn count<T>(list: &[T]) -> u64 {
    list.len() as u64
}

/// The version of the library that is linked: major, minor and patch, eight bits each, the patch lowest.
#[inline]
pub fn version() -> u32 {
    library::rq_version()
}

/// Tests an outline. If it is taken, its edges stand first in `edges`, two numbers an edge.
#[inline]
pub fn test(col: u16, row: u16, letters: &[u8], edges: &mut [i16], reply: &mut Reply) {
    // SAFETY: each pointer comes with the count of its own slice. What is written overlaps nothing else.
    unsafe { library::rq_test(col, row, letters.as_ptr(), count(letters), edges.as_mut_ptr(), count(edges), reply) }
}

/// Says whether a cell is inside the edges that lead once round from an anchor.
#[inline]
pub fn loose_query(anchor_col: u16, anchor_row: u16, edges: &[i16], col: u16, row: u16, reply: &mut Reply) {
    // SAFETY: the pointer comes with the count of its slice. What is written overlaps nothing else.
    unsafe { library::rq_loose_query(anchor_col, anchor_row, edges.as_ptr(), count(edges), col, row, reply) }
}

/// Says where a reading lies among the edges that lead once round from an anchor.
#[inline]
pub fn loose_reading(anchor_col: u16, anchor_row: u16, edges: &[i16], angle: f32, load: f32, reply: &mut Reply) {
    // SAFETY: the pointer comes with the count of its slice. What is written overlaps nothing else.
    unsafe { library::rq_loose_reading(anchor_col, anchor_row, edges.as_ptr(), count(edges), angle, load, reply) }
}

/// Writes the border of the outline that has an anchor and edges: its clockwise letters from W on stand first in `letters`.
#[inline]
pub fn border(anchor_col: u16, anchor_row: u16, edges: &[i16], letters: &mut [u8], reply: &mut Reply) {
    let (written, n) = (letters.as_mut_ptr(), count(letters));
    // SAFETY: each pointer comes with the count of its own slice. What is written overlaps nothing else.
    unsafe { library::rq_border(anchor_col, anchor_row, edges.as_ptr(), count(edges), written, n, reply) }
}

/// Says how the cells in two hulls lie, and whose list is the inner one's. Each hull has the column and the row of its anchor, and its
/// edges.
#[inline]
pub fn compare(first: (u16, u16), edges: &[i16], second: (u16, u16), others: &[i16], reply: &mut Reply) {
    let (one, m) = (edges.as_ptr(), count(edges));
    // SAFETY: each pointer comes with the count of its own slice. What is written overlaps nothing else.
    unsafe { library::rq_compare(first.0, first.1, one, m, second.0, second.1, others.as_ptr(), count(others), reply) }
}

/// Names the lowest missing cell of an outline. Three of its cells whose triangle holds that cell stand first in `cells`, two numbers each.
#[inline]
pub fn witness(col: u16, row: u16, letters: &[u8], cells: &mut [u16], reply: &mut Reply) {
    // SAFETY: each pointer comes with the count of its own slice. What is written overlaps nothing else.
    unsafe { library::rq_witness(col, row, letters.as_ptr(), count(letters), cells.as_mut_ptr(), count(cells), reply) }
}

/// Completes an outline: the border of the smallest convex block that has all its cells stands first in `out`, clockwise from W on.
#[inline]
pub fn complete(col: u16, row: u16, letters: &[u8], out: &mut [u8], reply: &mut Reply) {
    // SAFETY: each pointer comes with the count of its own slice. What is written overlaps nothing else.
    unsafe { library::rq_complete(col, row, letters.as_ptr(), count(letters), out.as_mut_ptr(), count(out), reply) }
}

/// Runs a script of calls from a fresh holder and writes a reply for each, seven numbers after seven. Returns how many it wrote.
///
/// The run ends before a call that is cut or that is none, and where `replies` has no space for one more.
#[inline]
pub fn replay(script: &[u8], replies: &mut [u16]) -> usize {
    // SAFETY: each pointer comes with the count of its own slice. What is written overlaps nothing else.
    unsafe { library::rq_replay_numbers(script.as_ptr(), count(script), replies.as_mut_ptr(), count(replies)) as usize }
}

/// The CRC-32C of bytes, which an image has at its end.
#[inline]
pub fn checksum(bytes: &[u8]) -> u32 {
    // SAFETY: the pointer comes with the count of its slice.
    unsafe { library::rq_checksum(bytes.as_ptr(), count(bytes)) }
}

/// Writes the frame of a body: it stands first in `frame`, and the reply's place is the count of its bytes.
#[inline]
pub fn frame(body: &[u8], frame: &mut [u8], reply: &mut Reply) {
    // SAFETY: each pointer comes with the count of its own slice. What is written overlaps nothing else.
    unsafe { library::rq_frame(body.as_ptr(), count(body), frame.as_mut_ptr(), count(frame), reply) }
}

/// Writes the body of a frame: it stands first in `body`, and the reply's place is the count of its bytes.
#[inline]
pub fn unframe(frame: &[u8], body: &mut [u8], reply: &mut Reply) {
    // SAFETY: each pointer comes with the count of its own slice. What is written overlaps nothing else.
    unsafe { library::rq_unframe(frame.as_ptr(), count(frame), body.as_mut_ptr(), count(body), reply) }
}

/// The memory of a holder, 10,416 bytes without padding.
#[derive(Clone, PartialEq, Eq)]
#[repr(C)]
pub struct HolderMemory {
    /// The letters of the two drafts, 612 each.
    pub letters: [u8; LETTERS],
    /// The rows of the outlines in ten slots, 510 bytes each: 255 first columns, and 255 columns after the last.
    pub rows: [u8; ROWS],
    /// The numbers of their edges, 200 each.
    pub numbers: [i16; NUMBERS],
    /// Of each draft whether there is one, its start and its count; the word of each place, which names a slot; of each slot the anchor
    /// and the count of edges.
    pub heads: [u16; HEADS],
}

impl HolderMemory {
    /// Memory in which every byte is this one. With zeros it is a fresh holder.
    pub const fn filled(byte: u8) -> Self {
        let pair = [byte; 2];
        HolderMemory {
            letters: [byte; LETTERS],
            rows: [byte; ROWS],
            numbers: [i16::from_ne_bytes(pair); NUMBERS],
            heads: [u16::from_ne_bytes(pair); HEADS],
        }
    }

    /// Memory that has these bytes, as [`as_bytes`](Self::as_bytes) gave them. Any bytes are a holder.
    pub const fn from_bytes(bytes: &[u8; HOLDER_BYTES]) -> Self {
        // SAFETY: it has as many bytes, and any bytes are numbers.
        unsafe { mem::transmute(*bytes) }
    }

    /// Its bytes, in the byte order of this machine.
    pub const fn as_bytes(&self) -> &[u8; HOLDER_BYTES] {
        // SAFETY: it has as many bytes, and none of them is padding.
        unsafe { &*ptr::from_ref(self).cast() }
    }

    /// Makes it a fresh holder, whatever it held.
    #[inline]
    pub fn fresh(&mut self) {
        library::rq_fresh_parts(&mut self.letters, &mut self.rows, &mut self.numbers, &mut self.heads);
    }

    /// Opens a draft without letters.
    #[inline]
    pub fn begin(&mut self, party: u8, col: u16, row: u16, reply: &mut Reply) {
        library::rq_begin_parts(&mut self.heads, party, col, row, reply);
    }

    /// Puts a letter at the draft's end.
    #[inline]
    pub fn add(&mut self, party: u8, letter: u8, reply: &mut Reply) {
        library::rq_add_parts(&mut self.letters, &mut self.heads, party, letter, reply);
    }

    /// Discards the draft.
    #[inline]
    pub fn drop_draft(&mut self, party: u8, reply: &mut Reply) {
        library::rq_drop_parts(&mut self.heads, party, reply);
    }

    /// Removes what is at work at a place.
    #[inline]
    pub fn clear(&mut self, party: u8, place: u8, reply: &mut Reply) {
        library::rq_clear_parts(&mut self.heads, party, place, reply);
    }

    /// Tests the draft and ends it. If it is taken, it replaces what is at work at the place.
    #[inline]
    pub fn close(&mut self, party: u8, place: u8, reply: &mut Reply) {
        let word = self.prepare(party, place, reply);
        self.commit(party, place, word);
    }

    /// The first half of a close: replies, ends the draft, and fills a slot that no place names. Returns the word for the second half.
    #[inline]
    pub fn prepare(&mut self, party: u8, place: u8, reply: &mut Reply) -> u16 {
        let HolderMemory { letters, rows, numbers, heads } = self;
        library::rq_prepare_parts(letters, rows, numbers, heads, party, place, reply)
    }

    /// The second half of a close: puts the slot that the word names to work at the place. A word of 0 does nothing.
    #[inline]
    pub fn commit(&mut self, party: u8, place: u8, word: u16) {
        library::rq_commit_parts(&mut self.heads, party, place, word);
    }

    /// Tells a party's draft: its start and its count of letters.
    #[inline]
    pub fn draft(&self, party: u8, reply: &mut Reply) {
        library::rq_draft_parts(&self.heads, party, reply);
    }

    /// Says whether what is at work at a place encloses a cell.
    #[inline]
    pub fn query(&self, party: u8, place: u8, col: u16, row: u16, reply: &mut Reply) {
        library::rq_query_parts(&self.rows, &self.heads, party, place, col, row, reply);
    }

    /// Says which columns of a row what is at work at a place encloses.
    #[inline]
    pub fn row(&self, party: u8, place: u8, row: u16, reply: &mut Reply) {
        library::rq_row_parts(&self.rows, &self.heads, party, place, row, reply);
    }

    /// Says where a reading lies to what is at work at a place.
    #[inline]
    pub fn reading(&self, party: u8, place: u8, angle: f32, load: f32, reply: &mut Reply) {
        library::rq_reading_parts(&self.numbers, &self.heads, party, place, angle, load, reply);
    }

    /// Gives a piece of the drawing of what is at work at a place. The point of a move or a line is written to `point`.
    #[inline]
    pub fn piece(&self, party: u8, place: u8, position: u16, point: &mut [f32; 2], reply: &mut Reply) {
        library::rq_piece_parts(&self.numbers, &self.heads, party, place, position, point, reply);
    }

    /// Says whether what stands at a place is what a taking leaves, or nothing.
    #[inline]
    pub fn check(&self, party: u8, place: u8, reply: &mut Reply) {
        library::rq_check_parts(&self.rows, &self.numbers, &self.heads, party, place, reply);
    }

    /// Writes the image of what is at work at a place to the front of `image`.
    #[inline]
    pub fn save(&self, party: u8, place: u8, image: &mut [u8], reply: &mut Reply) {
        let (written, m) = (image.as_mut_ptr(), count(image));
        // SAFETY: the pointer comes with the count of its slice. What is written overlaps nothing else.
        unsafe { library::rq_save_parts(&self.rows, &self.numbers, &self.heads, party, place, written, m, reply) }
    }

    /// Puts the outline of an image to work at a place, as a close does; an image without letters clears the place.
    #[inline]
    pub fn restore(&mut self, party: u8, place: u8, image: &[u8], reply: &mut Reply) {
        let word = self.prepare_image(party, place, image, reply);
        self.commit(party, place, word);
    }

    /// The first half of a restore: replies, and fills a slot that no place names, or clears the place. Returns the word for
    /// [`commit`](Self::commit).
    #[inline]
    pub fn prepare_image(&mut self, party: u8, place: u8, image: &[u8], reply: &mut Reply) -> u16 {
        let HolderMemory { rows, numbers, heads, .. } = self;
        let (bytes, n) = (image.as_ptr(), count(image));
        // SAFETY: the pointer comes with the count of its slice. What is written overlaps nothing else.
        unsafe { library::rq_prepare_image_parts(rows, numbers, heads, party, place, bytes, n, reply) }
    }

    /// Makes the call that stands in these bytes. Returns false, with nothing altered, where they are no call.
    #[inline]
    pub fn call(&mut self, call: &[u8], reply: &mut Reply) -> bool {
        let HolderMemory { letters, rows, numbers, heads } = self;
        // SAFETY: the pointer comes with the count of its slice. What is written overlaps nothing else.
        unsafe { library::rq_call_parts(letters, rows, numbers, heads, call.as_ptr(), count(call), reply) }
    }
}

/// The heads alone, which say what there is.
impl fmt::Debug for HolderMemory {
    fn fmt(&self, f: &mut fmt::Formatter<'_>) -> fmt::Result {
        let (drafts, rest) = self.heads.split_at(4 * DRAFTS);
        let (words, slots) = rest.split_at(SPOTS);
        let drafts: Vec<&[u16]> = drafts.chunks_exact(4).collect();
        let slots: Vec<&[u16]> = slots.chunks_exact(3).collect();
        let mut told = f.debug_struct("HolderMemory");
        told.field("drafts", &drafts).field("words", &words).field("slots", &slots).finish_non_exhaustive()
    }
}

/// The memory of a pile, 8,164 bytes without padding.
#[derive(Clone, PartialEq, Eq)]
#[repr(C)]
pub struct PileMemory {
    /// The rows of the sixteen layers, as those of a holder.
    pub rows: [u8; LAYER_ROWS],
    /// 23205 where the pile has passed, any other number where not; and how far a check in steps has come.
    pub state: [u16; 2],
}

impl PileMemory {
    /// Memory in which every byte is this one. With zeros it is a fresh pile.
    pub const fn filled(byte: u8) -> Self {
        PileMemory { rows: [byte; LAYER_ROWS], state: [u16::from_ne_bytes([byte; 2]); 2] }
    }

    /// Memory that has these bytes, as [`as_bytes`](Self::as_bytes) gave them. Any bytes are a pile.
    pub const fn from_bytes(bytes: &[u8; PILE_BYTES]) -> Self {
        // SAFETY: it has as many bytes, and any bytes are numbers.
        unsafe { mem::transmute(*bytes) }
    }

    /// Its bytes, in the byte order of this machine.
    pub const fn as_bytes(&self) -> &[u8; PILE_BYTES] {
        // SAFETY: it has as many bytes, and none of them is padding.
        unsafe { &*ptr::from_ref(self).cast() }
    }

    /// Makes it a fresh pile, whatever it held.
    #[inline]
    pub fn fresh(&mut self) {
        library::rq_pile_fresh_parts(&mut self.rows, &mut self.state);
    }

    /// Sets a layer to an outline.
    #[inline]
    pub fn set(&mut self, layer: u8, col: u16, row: u16, letters: &[u8], reply: &mut Reply) {
        let (list, n) = (letters.as_ptr(), count(letters));
        // SAFETY: the pointer comes with the count of its slice. What is written overlaps nothing else.
        unsafe { library::rq_pile_set_parts(&mut self.rows, &mut self.state, layer, col, row, list, n, reply) }
    }

    /// Sets a layer to empty.
    #[inline]
    pub fn empty(&mut self, layer: u8, reply: &mut Reply) {
        library::rq_pile_empty_parts(&mut self.rows, &mut self.state, layer, reply);
    }

    /// Checks every section.
    #[inline]
    pub fn check(&mut self, reply: &mut Reply) {
        library::rq_pile_check_parts(&self.rows, &mut self.state, reply);
    }

    /// Some sections of a check: the word [`MORE`](crate::codec::MORE) while it goes on, else the reply of the whole check.
    #[inline]
    pub fn check_step(&mut self, sections: u16, reply: &mut Reply) {
        library::rq_pile_check_step_parts(&self.rows, &mut self.state, sections, reply);
    }

    /// Says whether a layer encloses a cell.
    #[inline]
    pub fn query(&self, layer: u8, col: u16, row: u16, reply: &mut Reply) {
        library::rq_pile_query_parts(&self.rows, &self.state, layer, col, row, reply);
    }

    /// Writes the image of a layer to the front of `image`.
    #[inline]
    pub fn save(&self, layer: u8, image: &mut [u8], reply: &mut Reply) {
        // SAFETY: the pointer comes with the count of its slice. What is written overlaps nothing else.
        unsafe { library::rq_pile_save_parts(&self.rows, layer, image.as_mut_ptr(), count(image), reply) }
    }

    /// Sets a layer to the outline of an image, or to empty.
    #[inline]
    pub fn restore(&mut self, layer: u8, image: &[u8], reply: &mut Reply) {
        let (bytes, n) = (image.as_ptr(), count(image));
        // SAFETY: the pointer comes with the count of its slice. What is written overlaps nothing else.
        unsafe { library::rq_pile_restore_parts(&mut self.rows, &mut self.state, layer, bytes, n, reply) }
    }
}

/// Whether it has passed, and for each layer whether it has a cell.
impl fmt::Debug for PileMemory {
    fn fmt(&self, f: &mut fmt::Formatter<'_>) -> fmt::Result {
        let is_full = |rows: &[u8]| {
            let (first, past) = rows.split_at(SPANS / 2);
            first.iter().zip(past).any(|(first, past)| first < past)
        };
        let full: Vec<bool> = self.rows.chunks_exact(SPANS).map(is_full).collect();
        f.debug_struct("PileMemory").field("state", &self.state[0]).field("full", &full).finish_non_exhaustive()
    }
}

// The sizes that include/robequarry.h states, and no padding: these are the bytes of all fields.
const _: () = assert!(size_of::<HolderMemory>() == HOLDER_BYTES && align_of::<HolderMemory>() == 2);
const _: () = assert!(size_of::<PileMemory>() == PILE_BYTES && align_of::<PileMemory>() == 2);
const _: () = assert!(LETTERS + ROWS + 2 * NUMBERS + 2 * HEADS == HOLDER_BYTES && LAYER_ROWS + 2 * 2 == PILE_BYTES);
