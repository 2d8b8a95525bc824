use alloc::boxed::Box;

use crate::codec::{Call, Fields, Word};
use crate::limits::{HOLDER_BYTES, IMAGE, REPLY};
use crate::raw::{self, HolderMemory};
use crate::{Cell, Corner, Image, Refusal, Taken};

/// What a call that is not refused answers.
#[derive(Clone, Copy, Debug, PartialEq, Eq, Hash)]
pub enum Answer {
    /// Begin, add, drop or clear was done; a restore cleared the place.
    Done,
    /// The outline at work encloses the cell; the reading lies inside its edges.
    Inside,
    /// The outline at work does not enclose the cell; the reading lies outside its edges.
    Outside,
    /// The reading lies too near an edge of the outline at work to tell.
    Undecided,
    /// The outline at work encloses these columns of the row, the first and the last, and every one between.
    Columns { first: u16, last: u16 },
    /// The outline at work encloses no cell of the row; its drawing has no piece at the position.
    None,
    /// The drawing of the outline at work begins at the centre of this cell.
    Move(Cell),
    /// It goes on by a line to the centre of this cell.
    Line(Cell),
    /// It is closed.
    Close,
    /// The draft, or the outline of an image, is now at work.
    Taken(Taken),
    /// It is now at work, and encloses the cells that were enclosed before.
    Same(Taken),
}

/// What a close, or the restore of an image with letters, put to work.
#[derive(Clone, Copy, Debug, PartialEq, Eq, Hash)]
pub struct Closed {
    /// Whether it encloses the cells that were enclosed before.
    pub same: bool,
    /// The lowest enclosed cell of the leftmost column, from which the edges lead.
    pub anchor: Cell,
    /// How many edges it has.
    pub edges: usize,
}

/// Where a reading lies to the edges of an outline. Inside and outside are exactly so, however near the edge.
#[derive(Clone, Copy, Debug, PartialEq, Eq, Hash)]
pub enum Located {
    Inside,
    Outside,
    /// Too near an edge to tell in arithmetic of 32 bits: its side value is less than 1/32 from 0.
    Undecided,
}

impl Located {
    /// What a reply to such a call says that is no refusal.
    #[inline]
    pub(crate) fn of(reply: &raw::Reply, call: &str) -> Self {
        match Word::of(reply) {
            Word::Inside => Located::Inside,
            Word::Outside => Located::Outside,
            Word::Undecided => Located::Undecided,
            other => other.foreign(call),
        }
    }
}

/// A piece of the drawing of an outline's edges, as a canvas takes them. A point is the centre of a cell, where the cell's lower left
/// corner has its whole column and row: these numbers, each raised by one half.
#[derive(Clone, Copy, Debug, PartialEq)]
pub enum Piece {
    /// Move to a point, with which a drawing begins.
    Move(f32, f32),
    /// A line to a point.
    Line(f32, f32),
    /// Close, with which a drawing ends.
    Close,
    /// The drawing has ended.
    None,
}

/// What a call answers.
pub type Reply = Result<Answer, Refusal>;

/// A draft and four outlines at work for each of two parties, knee and ankle.
///
/// It owns the memory of a holder of the library, and each call here is one call there. Two holders are equal if their memory is: they
/// answer every list of calls alike.
///
/// ```
/// use robequarry::{Cell, Closed, Corner, Holder, Located, Piece, Refusal};
///
/// let (mut holder, knee) = (Holder::new(), 0);
/// holder.begin(knee, Corner::new(0, 0))?;
/// for letter in [1, 0, 0, 0, 3, 2, 2, 2] {
///     holder.add(knee, letter)?;
/// }
/// assert_eq!(holder.close(knee, 3)?, Closed { same: false, anchor: Cell::new(0, 0), edges: 2 });
/// assert!(holder.query(knee, 3, Cell::new(2, 0))?);
/// assert!(!holder.query(knee, 3, Cell::new(3, 0))?);
/// assert_eq!(holder.row(knee, 3, 0)?, Some((0, 2)));
/// assert_eq!(holder.row(knee, 3, 1)?, None);
/// assert_eq!(holder.reading(knee, 3, 1.5, 0.0)?, Located::Undecided);
/// assert_eq!(holder.reading(knee, 3, 1.5, 0.25)?, Located::Outside);
/// assert_eq!(holder.piece(knee, 3, 0)?, Piece::Move(0.5, 0.5));
/// assert_eq!(holder.piece(knee, 3, 1)?, Piece::Line(2.5, 0.5));
/// assert_eq!(holder.piece(knee, 3, 2)?, Piece::Close);
/// assert_eq!(holder.piece(knee, 3, 3)?, Piece::None);
/// assert_eq!(holder.drop_draft(knee), Err(Refusal::NoDraft));
/// holder.check(knee, 3)?;
/// let image = holder.save(knee, 3)?;
/// let mut other = Holder::new();
/// assert!(other.restore(1, 0, &image.bytes())?.is_some_and(|closed| !closed.same));
/// assert_eq!(other.row(1, 0, 0)?, Some((0, 2)));
/// assert_eq!(Holder::from_bytes(holder.as_bytes()), holder);
/// assert_eq!(holder.query(1, 3, Cell::new(2, 0)), Err(Refusal::NothingAtWork));
/// # Ok::<(), Refusal>(())
/// ```
#[derive(Clone, Debug, PartialEq, Eq)]
pub struct Holder {
    memory: Box<HolderMemory>,
}

impl Default for Holder {
    fn default() -> Self {
        Self::new()
    }
}

impl Holder {
    /// A fresh holder: no draft, and nothing at work.
    pub fn new() -> Self {
        crate::held_to_version();
        let mut memory = Box::new(HolderMemory::filled(0));
        memory.fresh();
        Holder { memory }
    }

    /// A holder whose memory was saved: [`as_bytes`](Holder::as_bytes), or what a C program on a machine of the same byte order has in
    /// its `rq_holder`. Any bytes are a holder; [`check`](Holder::check) says of a place whether they are damaged there. To go from one
    /// kind of machine to another, [`save`](Holder::save) images and [`restore`](Holder::restore) them.
    pub fn from_bytes(bytes: &[u8; HOLDER_BYTES]) -> Self {
        crate::held_to_version();
        Holder { memory: Box::new(HolderMemory::from_bytes(bytes)) }
    }

    /// The bytes of its memory, drafts included, in the byte order of this machine.
    pub fn as_bytes(&self) -> &[u8; HOLDER_BYTES] {
        self.memory.as_bytes()
    }

    /// The memory that it owns.
    pub fn memory(&self) -> &HolderMemory {
        &self.memory
    }

    /// Opens a draft without letters.
    #[inline]
    pub fn begin(&mut self, party: u8, start: Corner) -> Result<(), Refusal> {
        let mut reply = [0; REPLY];
        self.memory.begin(party, start.col, start.row, &mut reply);
        Refusal::check(&reply)
    }

    /// Puts a letter at the draft's end.
    #[inline]
    pub fn add(&mut self, party: u8, letter: u8) -> Result<(), Refusal> {
        let mut reply = [0; REPLY];
        self.memory.add(party, letter, &mut reply);
        Refusal::check(&reply)
    }

    /// A party's draft: where it starts and how many letters it has.
    #[inline]
    pub fn draft(&self, party: u8) -> Result<(Corner, u16), Refusal> {
        let mut reply = [0; REPLY];
        self.memory.draft(party, &mut reply);
        Refusal::check(&reply)?;
        let fields = Fields::from(reply);
        Ok((Corner::new(fields.col, fields.row), fields.place))
    }

    /// Discards the draft: the drop of contract 7.5.
    #[inline]
    pub fn drop_draft(&mut self, party: u8) -> Result<(), Refusal> {
        let mut reply = [0; REPLY];
        self.memory.drop_draft(party, &mut reply);
        Refusal::check(&reply)
    }

    /// Removes what is at work at a place; the draft is kept.
    #[inline]
    pub fn clear(&mut self, party: u8, place: u8) -> Result<(), Refusal> {
        let mut reply = [0; REPLY];
        self.memory.clear(party, place, &mut reply);
        Refusal::check(&reply)
    }

    /// Tests the draft and ends it. If it is taken, it replaces what is at work at the place.
    pub fn close(&mut self, party: u8, place: u8) -> Result<Closed, Refusal> {
        let mut reply = [0; REPLY];
        self.memory.close(party, place, &mut reply);
        Refusal::check(&reply)?;
        Ok(closed(&reply, "close"))
    }

    /// Whether the outline at work at a place encloses the cell.
    #[inline]
    pub fn query(&self, party: u8, place: u8, cell: Cell) -> Result<bool, Refusal> {
        let mut reply = [0; REPLY];
        self.memory.query(party, place, cell.col, cell.row, &mut reply);
        Refusal::check(&reply)?;
        Ok(match Word::of(&reply) {
            Word::Inside => true,
            Word::Outside => false,
            other => other.foreign("query"),
        })
    }

    /// The first and the last column of a row that the outline at work at a place encloses; none if it encloses no cell there.
    #[inline]
    pub fn row(&self, party: u8, place: u8, row: u16) -> Result<Option<(u16, u16)>, Refusal> {
        let mut reply = [0; REPLY];
        self.memory.row(party, place, row, &mut reply);
        Refusal::check(&reply)?;
        let [.., first, last] = reply;
        Ok(match Word::of(&reply) {
            Word::Columns => Some((first, last)),
            Word::None => None,
            other => other.foreign("row"),
        })
    }

    /// Where a reading lies to the outline at work at a place, whose edges lead from cell centre to cell centre. On an edge it is
    /// undecided, so on a bar of one row or column it is never inside; one cell alone has its centre inside.
    ///
    /// The floating-point environment must be as a program starts with it: rounding to nearest, and subnormal numbers not taken for 0.
    #[inline]
    pub fn reading(&self, party: u8, place: u8, angle: f32, load: f32) -> Result<Located, Refusal> {
        let mut reply = [0; REPLY];
        self.memory.reading(party, place, angle, load, &mut reply);
        Refusal::check(&reply)?;
        Ok(Located::of(&reply, "reading"))
    }

    /// The piece at a position, counted from 0, of the drawing of the outline at work at a place: it begins at the anchor, goes on
    /// along the edges, and its close stands for the last of them.
    #[inline]
    pub fn piece(&self, party: u8, place: u8, position: u16) -> Result<Piece, Refusal> {
        let (mut reply, mut point) = ([0; REPLY], [0.0; 2]);
        self.memory.piece(party, place, position, &mut point, &mut reply);
        Refusal::check(&reply)?;
        let [x, y] = point;
        Ok(match Word::of(&reply) {
            Word::Move => Piece::Move(x, y),
            Word::Line => Piece::Line(x, y),
            Word::Close => Piece::Close,
            Word::None => Piece::None,
            other => other.foreign("piece"),
        })
    }

    /// Whether memory is sound at a place: nothing is at work there, or what a taking leaves. Else it is [`Refusal::Damaged`].
    pub fn check(&self, party: u8, place: u8) -> Result<(), Refusal> {
        let mut reply = [0; REPLY];
        self.memory.check(party, place, &mut reply);
        Refusal::check(&reply)
    }

    /// The image of what is at work at a place, or of an empty place. A place whose memory is damaged has none: [`Refusal::Damaged`].
    pub fn save(&self, party: u8, place: u8) -> Result<Image, Refusal> {
        let (mut reply, mut image) = ([0; REPLY], [0; IMAGE]);
        self.memory.save(party, place, &mut image, &mut reply);
        Refusal::check(&reply)?;
        Ok(Image::try_from(&image[..]).expect("a save writes an image"))
    }

    /// Puts the outline of an image to work at a place, as a close does. An image without letters clears the place: none. Bytes that are
    /// no image are refused by [`Refusal::Image`], and an outline that no test takes as a test refuses it; nothing is altered then. The
    /// draft stays.
    pub fn restore(&mut self, party: u8, place: u8, image: &[u8]) -> Result<Option<Closed>, Refusal> {
        let mut reply = [0; REPLY];
        self.memory.restore(party, place, image, &mut reply);
        Refusal::check(&reply)?;
        Ok(match Word::of(&reply) {
            Word::NoWord => None,
            _ => Some(closed(&reply, "restore")),
        })
    }

    /// Makes one call, as bytes.
    pub fn call(&mut self, call: Call) -> Reply {
        let mut reply = [0; REPLY];
        let done = self.memory.call(&call.bytes(), &mut reply);
        assert!(done, "these bytes are a call");
        Refusal::check(&reply)?;
        Ok(answer(reply))
    }
}

/// What a reply says is at work now.
fn closed(reply: &raw::Reply, call: &str) -> Closed {
    let Taken { edges, anchor } = Taken::of(*reply);
    let same = match Word::of(reply) {
        Word::Taken => false,
        Word::Same => true,
        other => other.foreign(call),
    };
    Closed { same, anchor, edges }
}

/// A reply of the library that is no refusal.
fn answer(reply: raw::Reply) -> Answer {
    let fields = Fields::from(reply);
    let (taken, cell) = (Taken::of(reply), Cell::new(fields.col, fields.row));
    match Word::of(&reply) {
        Word::NoWord => Answer::Done,
        Word::Inside => Answer::Inside,
        Word::Outside => Answer::Outside,
        Word::Undecided => Answer::Undecided,
        Word::Columns => Answer::Columns { first: fields.col, last: fields.row },
        Word::None => Answer::None,
        Word::Move => Answer::Move(cell),
        Word::Line => Answer::Line(cell),
        Word::Close => Answer::Close,
        Word::Taken => Answer::Taken(taken),
        Word::Same => Answer::Same(taken),
        other @ (Word::Equal | Word::FirstWithin | Word::SecondWithin | Word::NoCommon | Word::Crossing | Word::More) => {
            other.foreign("call on a holder")
        }
    }
}
