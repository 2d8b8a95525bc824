//! The contract (docs/CONTRACT.md), in the plainest Rust. Each item is one of its clauses; where a clause states a property, the
//! property is searched for. It shares nothing with the library or with [`plain`](crate::plain) but the limits, and replies and
//! calls as types.

pub mod book;
pub mod border;
pub mod calls;
pub mod cells;
pub mod compare;
pub mod edges;
pub mod files;
pub mod frames;
pub mod help;
pub mod images;
pub mod memory;
pub mod pieces;
pub mod pile;
pub mod readings;
pub mod tracing;
pub mod walk;
pub mod wide;
pub mod words;
