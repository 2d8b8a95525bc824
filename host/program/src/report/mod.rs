//! What is written for machines: JSON, an object a line, and CSV; and the summary of many files.

mod row;
mod tally;
mod verdicts;

pub use row::{csv_line, csv_names, json_line, Row, Value};
pub use tally::Tally;
pub use verdicts::{file_row, verdict_row, VERDICT_COLUMNS};

#[derive(Clone, Copy, Debug, PartialEq, Eq)]
pub enum Format {
    Text,
    Json,
    Csv,
}
