//! The command line program of Robequarry: checks, draws and explains outlines.
//!
//! Verdicts, edges, anchors and named cells come from the proved library, through the crate `robequarry`. What is told on the way to
//! them ([`story`], [`words`]) is worked out here once more, for people; the tests hold it to the library's answers.

mod arguments;
mod audit;
mod commands;
mod console;
pub mod engine;
pub mod explain;
mod fleet;
pub mod gallery;
mod html;
pub mod input;
mod manual;
mod options;
mod origin;
mod output;
mod pairing;
mod paths;
pub mod picture;
pub mod pile;
mod report;
mod shells;
pub mod story;
mod units;
pub mod verdict;
pub mod walk;
pub mod words;

pub use commands::run;
