//! Digital convexity on a chart of 255 by 255 cells, answered by a proved library.
//!
//! An [`Outline`] is the border of a block of cells: a start corner and a list of letters, 0 right, 1 up, 2 left, 3 down.
//! Its [test](Outline::test) says whether the block is convex. If so it gives the [`Edges`] of the block's hull, against which
//! a cell is then tested; if not it says why the outline is refused, as a [`Refusal`].
//!
//! ```
//! use robequarry::{Cell, Corner, Outline, Refusal};
//!
//! let plus = Outline::new(Corner::new(0, 1), vec![1, 0, 1, 0, 3, 0, 3, 2, 3, 2, 1, 2]);
//! let edges = plus.test()?;
//! assert_eq!(edges.anchor(), Cell::new(0, 1));
//! assert!(edges.steps().eq([(1, 1), (1, -1), (-1, -1), (-1, 1)]));
//! assert!(edges.contains(Cell::new(1, 1))?);
//! assert!(!edges.contains(Cell::new(0, 0))?);
//!
//! let dented = Outline::new(Corner::new(0, 0), vec![1, 1, 1, 0, 3, 3, 0, 0, 3, 2, 2, 2]);
//! let Err(Refusal::Dent { missing, .. }) = dented.test() else { panic!("this block has a dent") };
//! assert_eq!(missing, Cell::new(1, 1));
//! # Ok::<(), Refusal>(())
//! ```
//!
//! Of an outline that is not convex, [`Outline::witness`] gives three of its cells whose triangle holds a missing one, and
//! [`Outline::complete`] the smallest convex block around it. [`Edges::compare`] says which of two hulls lies within the other.
//!
//! A [`Holder`] keeps, for each party, a draft, letter by letter, and the outlines at work; it says where a
//! [reading](Holder::reading) of two sensors lies among their edges, and gives them [piece by piece](Holder::piece) to a canvas. A
//! [`Pile`] keeps sixteen layers, and checks that no section through them is dented. Both own their memory: what asks a question takes
//! `&self`, and whatever can alter something `&mut self`.
//!
//! Files hold outlines in two forms: [`text`], a line each, which [`Outline`] also parses from a string, and [`fitting`] files, records
//! of bytes. Both readers say where a fault is; one of a fitting file ends it. An [`image`] is what a controller saves of a place.
//! [`frame`] puts bytes in a frame with a checksum, for a line, and [`unframe`] gives them back or refuses them.
//!
//! [`raw`] has the library's functions as they are, on plain lists of numbers; [`codec`] reads and writes these, and [`limits`] names
//! what bounds them.
//!
//! The crate needs no more than `core` and `alloc`. The feature `std`, which is on unless it is switched off, adds conversions of what is
//! wrong with the bytes of a file into [`std::io::Error`].
//!
//! The answers are proved; this crate, which turns lists of numbers into types, is not.
#![no_std]

extern crate alloc;
#[cfg(feature = "std")]
extern crate std;

mod chart;
pub mod codec;
mod comparison;
mod decoding;
pub mod fitting;
mod frames;
mod holder;
pub mod image;
#[cfg(feature = "std")]
mod io;
pub mod limits;
mod outline;
mod pile;
pub mod raw;
mod refusal;
pub mod text;
#[rustfmt::skip] // It is written by texts/make.
pub mod texts;
mod witness;

pub use chart::{Cell, Corner, Reading};
pub use codec::{Action, Call, Word};
pub use comparison::{Comparison, Nesting, RefusedList};
pub use frames::{frame, unframe};
pub use holder::{Answer, Closed, Holder, Located, Piece, Reply};
pub use image::Image;
pub use outline::{Edges, Outline, Taken, Verdict};
pub use pile::{Pile, PileCall};
pub use refusal::{Refusal, SectionKind};
pub use witness::Witness;

/// The version of this crate and of the C header.
pub const VERSION: &str = env!("CARGO_PKG_VERSION");

/// The version of the library that is linked: major, minor and patch. A build links the archive of its own version, [`VERSION`], unless
/// another one was put in its place; a [`Holder`] and a [`Pile`] are made only over a library of the same major and minor version.
///
/// ```
/// let (major, minor, patch) = robequarry::version();
/// assert_eq!(format!("{major}.{minor}.{patch}"), robequarry::VERSION);
/// ```
pub fn version() -> (u8, u8, u8) {
    let [_, major, minor, patch] = raw::version().to_be_bytes();
    (major, minor, patch)
}

/// Ends the program where the library may have other memory than this crate knows.
fn held_to_version() {
    const fn number(text: &str) -> u8 {
        match u8::from_str_radix(text, 10) {
            Ok(number) => number,
            Err(_) => panic!("a version is numbers"),
        }
    }
    const MAJOR: u8 = number(env!("CARGO_PKG_VERSION_MAJOR"));
    const MINOR: u8 = number(env!("CARGO_PKG_VERSION_MINOR"));
    let (major, minor, patch) = version();
    assert!(
        (major, minor) == (MAJOR, MINOR),
        "the crate is robequarry {VERSION}, and the library is {major}.{minor}.{patch}"
    );
}

/// Which library is linked: the SHA-256 of the archive, as `sha256sum librobequarry.a` writes it in the archive's folder.
pub const ARCHIVE: &str = env!("ROBEQUARRY_ARCHIVE");
