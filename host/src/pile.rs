use alloc::boxed::Box;
use alloc::vec::Vec;

use crate::codec::{Fields, Word};
use crate::limits::{IMAGE, PILE_BYTES, REPLY};
use crate::raw::PileMemory;
use crate::{Cell, Image, Outline, Refusal, Taken};

/// A call on a pile, as a value: what lists of calls are made of.
#[derive(Clone, Debug, PartialEq, Eq)]
pub enum PileCall {
    /// Sets a layer to an outline.
    Set(u8, Outline),
    /// Sets a layer to empty.
    SetEmpty(u8),
    /// Checks every section.
    Check,
    /// Asks whether a layer encloses a cell.
    Query(u8, Cell),
    /// Sets a layer to the outline of these bytes, or to empty.
    Restore(u8, Vec<u8>),
}

/// Sixteen layers, each empty or one taken outline (contract 12).
///
/// It owns the memory of a pile of the library, and each call here is one call there. Two piles are equal if their memory is.
///
/// ```
/// use robequarry::{Cell, Corner, Outline, Pile, Refusal, SectionKind};
///
/// let cell_at = |row| Outline::new(Corner::new(9, row), [1, 0, 3, 2]);
/// let mut pile = Pile::new();
/// for (layer, row) in [(0, 1), (1, 2), (2, 0)] {
///     pile.set(layer, &cell_at(row))?;
/// }
/// // The middle layer has its cell in row 2, and the hull of the section at column 9 holds row 1 there.
/// assert_eq!(pile.check(), Err(Refusal::Section { kind: SectionKind::Column, at: 9 }));
/// assert_eq!(pile.query(1, Cell::new(9, 1)), Err(Refusal::NothingAtWork));
/// pile.set(1, &cell_at(1))?;
/// assert_eq!(pile.check_step(100), None);
/// assert_eq!(pile.check_step(410), Some(Ok(())));
/// pile.check()?;
/// assert!(pile.query(1, Cell::new(9, 1))?);
/// assert_eq!(Pile::from_bytes(pile.as_bytes()), pile);
/// pile.empty(2)?;
/// assert_eq!(pile.query(1, Cell::new(9, 1)), Err(Refusal::NothingAtWork));
/// # Ok::<(), Refusal>(())
/// ```
#[derive(Clone, Debug, PartialEq, Eq)]
pub struct Pile {
    memory: Box<PileMemory>,
}

impl Default for Pile {
    fn default() -> Self {
        Pile::new()
    }
}

impl Pile {
    /// A fresh pile: sixteen empty layers, unchecked.
    pub fn new() -> Self {
        crate::held_to_version();
        let mut memory = Box::new(PileMemory::filled(0));
        memory.fresh();
        Pile { memory }
    }

    /// A pile whose memory was saved: [`as_bytes`](Pile::as_bytes), or what a C program on a machine of the same byte order has in its
    /// `rq_pile`. Any bytes are a pile; a [`save`](Pile::save) refuses a layer that no set leaves, and does not see every damage. To go
    /// from one kind of machine to another, save images and [`restore`](Pile::restore) them.
    pub fn from_bytes(bytes: &[u8; PILE_BYTES]) -> Self {
        crate::held_to_version();
        Pile { memory: Box::new(PileMemory::from_bytes(bytes)) }
    }

    /// The bytes of its memory, in the byte order of this machine.
    pub fn as_bytes(&self) -> &[u8; PILE_BYTES] {
        self.memory.as_bytes()
    }

    /// The memory that it owns.
    pub fn memory(&self) -> &PileMemory {
        &self.memory
    }

    /// Sets a layer to an outline, and the pile is unchecked. An outline that is refused alters nothing.
    pub fn set(&mut self, layer: u8, outline: &Outline) -> Result<Taken, Refusal> {
        let mut reply = [0; REPLY];
        self.memory.set(layer, outline.start.col, outline.start.row, &outline.letters, &mut reply);
        Refusal::check(&reply)?;
        Ok(Taken::of(reply))
    }

    /// Sets a layer to empty, and the pile is unchecked.
    pub fn empty(&mut self, layer: u8) -> Result<(), Refusal> {
        let mut reply = [0; REPLY];
        self.memory.empty(layer, &mut reply);
        Refusal::check(&reply)
    }

    /// Checks every section, columns and then rows. The pile has passed where none is dented, until a layer is set; else the first that
    /// is dented is a [`Refusal::Section`].
    pub fn check(&mut self) -> Result<(), Refusal> {
        let mut reply = [0; REPLY];
        self.memory.check(&mut reply);
        Refusal::check(&reply)
    }

    /// Some sections of a check, so that something else can be done in between: none while it goes on, else what the whole check
    /// answers. A set or an empty begins it anew.
    pub fn check_step(&mut self, sections: u16) -> Option<Result<(), Refusal>> {
        let mut reply = [0; REPLY];
        self.memory.check_step(sections, &mut reply);
        match Word::of(&reply) {
            Word::More => None,
            Word::NoWord => Some(Refusal::check(&reply)),
            other => other.foreign("step of a pile's check"),
        }
    }

    /// Whether the outline of a layer encloses the cell. Only a pile that has passed answers.
    #[inline]
    pub fn query(&self, layer: u8, cell: Cell) -> Result<bool, Refusal> {
        let mut reply = [0; REPLY];
        self.memory.query(layer, cell.col, cell.row, &mut reply);
        Refusal::check(&reply)?;
        Ok(match Word::of(&reply) {
            Word::Inside => true,
            Word::Outside => false,
            other => other.foreign("pile's query"),
        })
    }

    /// The image of a layer. A layer whose memory is damaged has none: [`Refusal::Damaged`].
    pub fn save(&self, layer: u8) -> Result<Image, Refusal> {
        let (mut reply, mut image) = ([0; REPLY], [0; IMAGE]);
        self.memory.save(layer, &mut image, &mut reply);
        Refusal::check(&reply)?;
        Ok(Image::try_from(&image[..]).expect("a save writes an image"))
    }

    /// Sets a layer to the outline of an image, or to empty where the image has no letters, and the pile is unchecked. Bytes that are no
    /// image are refused by [`Refusal::Image`], and an outline as a set refuses it; nothing is altered then.
    pub fn restore(&mut self, layer: u8, image: &[u8]) -> Result<(), Refusal> {
        let mut reply = [0; REPLY];
        self.memory.restore(layer, image, &mut reply);
        Refusal::check(&reply)
    }

    /// Makes a call, and gives its reply as it is.
    pub fn call(&mut self, call: &PileCall) -> Fields {
        let mut reply = [0; REPLY];
        match call {
            PileCall::Set(layer, Outline { start, letters }) => {
                self.memory.set(*layer, start.col, start.row, letters, &mut reply);
            }
            PileCall::SetEmpty(layer) => self.memory.empty(*layer, &mut reply),
            PileCall::Check => self.memory.check(&mut reply),
            PileCall::Query(layer, cell) => self.memory.query(*layer, cell.col, cell.row, &mut reply),
            PileCall::Restore(layer, image) => self.memory.restore(*layer, image, &mut reply),
        }
        reply.into()
    }
}
