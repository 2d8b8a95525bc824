//! The library's algorithm in plain Rust: linear checks with one flag a corner, the border read once round from W, Duval's
//! search for the first factor, Christoffel words by running remainders, and a climb up the sides of the hull for the missing
//! cell, for a witness and for a completion. No heap.

mod border;
mod chart;
mod climb;
mod compare;
mod completion;
mod holder;
mod images;
mod loose;
mod pieces;
mod pile;
mod readings;
mod sides;
mod spans;
mod test;
mod tracing;
mod witness;
mod words;

pub use chart::survey;
pub use compare::compare;
pub use completion::complete;
pub use holder::{replay, Holder};
pub use images::checksum;
pub use loose::loose_query;
pub use pile::Pile;
pub use test::test;
pub use tracing::border;
pub use witness::witness;
