//! Differential tests and benchmarks of the proved library.
//!
//! - [`mod@reference`] is docs/CONTRACT.md once more, in the plainest Rust: every definition as written, nothing clever.
//! - [`plain`] is the library's algorithm in plain Rust: the benchmark's first rival. It is held to the reference too.
//! - [`hull_and_count`] is the usual way to test convexity: the benchmark's second rival.
//! - [`engine`] gives all of them, and the library, one face; [`case`] is one input for it, which can be written as a line. [`live`] has
//!   holders of the library, called as bytes and by arguments, and [`typed`] the typed calls. Limits, and replies and calls as numbers,
//!   are those of the crate `robequarry`.
//! - [`walks`], [`draw`], [`polygons`], [`sensors`], [`garbage`], [`scripts`], [`piles`] and [`images`] make the inputs, from the numbers
//!   of [`random`]; [`specimens`] has those of the contract. [`images`] also has calls on damaged memory.
//! - [`timing`] and [`stack`] measure; [`report`] prints what was timed, and [`tally`] what was reached.

pub mod case;
pub mod draw;
pub mod engine;
pub mod garbage;
pub mod grid;
pub mod hull_and_count;
pub mod images;
pub mod live;
pub mod piles;
pub mod plain;
pub mod point;
pub mod polygons;
pub mod random;
pub mod reference;
pub mod reply;
pub mod report;
pub mod scripts;
pub mod sensors;
pub mod specimens;
pub mod stack;
pub mod tally;
pub mod timing;
pub mod typed;
pub mod walks;

pub use point::Point;
pub use robequarry::codec::Fields;

/// A start corner and letters.
#[derive(Clone, Debug, PartialEq, Eq)]
pub struct Outline {
    pub start: Point,
    pub letters: Vec<u8>,
}
