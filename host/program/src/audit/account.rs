//! What an engine said of an outline, as far as it is known.

use robequarry::{Cell, Edges, Verdict};

use crate::story::Rows;
use crate::verdict::{count, fields, meaning, Named};

#[derive(Clone, Debug, Default, PartialEq)]
pub struct Account {
    /// 0 or the refusal.
    pub number: u16,
    pub place: Option<usize>,
    pub piece: Option<usize>,
    pub length: Option<usize>,
    pub cell: Option<Cell>,
    pub edges: Option<Edges>,
    /// Of each row the marked columns, by which a controller answers a query.
    pub rows: Option<Rows>,
}

impl Account {
    pub fn of(verdict: &Verdict) -> Self {
        let Named { number, place, piece, length, cell } = fields(verdict);
        let (piece, edges) = (piece.map(usize::from), verdict.as_ref().ok().cloned());
        Account { number, place, piece, length, cell, edges, rows: None }
    }

    /// Edges that are at work: the outline was taken.
    pub fn taken(edges: Edges) -> Self {
        Account { edges: Some(edges), ..Account::default() }
    }

    /// A field that both accounts have and in which they differ.
    pub fn other_field(&self, other: &Account) -> Option<&'static str> {
        let differ = |a: Option<usize>, b: Option<usize>| a.is_some() && b.is_some() && a != b;
        let pairs = [
            ("place", differ(self.place, other.place)),
            ("piece", differ(self.piece, other.piece)),
            ("length", differ(self.length, other.length)),
            ("cell", self.cell.is_some() && other.cell.is_some() && self.cell != other.cell),
        ];
        pairs.iter().find(|(_, differs)| *differs).map(|(name, _)| *name)
    }

    /// In few words: `taken, 4 edges` or `refused by 9, a dent`.
    pub fn words(&self) -> String {
        match (self.number, &self.edges) {
            (0, Some(edges)) => format!("taken, {}", count(edges.steps().len(), "edge")),
            (0, None) => match &self.rows {
                Some(rows) if rows.is_empty() => "an empty place".to_string(),
                Some(rows) => count(rows.len(), "row"),
                None => meaning(0).to_string(),
            },
            (number, _) => format!("refused by {number}, {}", meaning(number)),
        }
    }
}
